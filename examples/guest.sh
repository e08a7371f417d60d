#!/bin/sh
# A guest's disk on a real file: a VHD disk of 64 KiB is made, attached, written, read, flushed, enlarged, written behind its old end
# and detached; a second run enlarges it again and reads it. Prints each reply, cut after 24 characters.
set -e
root=$(cd "$(dirname "$0")/.." && pwd)
program="$root/crates/lvhd/out/lvhd"
work=$(mktemp -d)
trap 'rm -rf "$work"' EXIT
disk=11111111-1111-4111-8111-111111111111
# A sector of one byte, as 1,024 digits.
sector() {
    awk -v byte="$1" 'BEGIN { for (i = 0; i < 512; i++) printf "%s", byte }'
}
truncate -s 3M "$work/repo.img"
"$program" "$work/repo.img" format 16384 4096 64 99999999-9999-4999-8999-999999999999
{
    echo "create $disk 65536 vhd guest"
    echo "read $disk 7 1"
    echo "attach $disk rw"
    echo "attach $disk rw"
    echo "write $disk 7 $(sector ab)"
    echo "read $disk 6 1"
    echo "read $disk 7 1"
    echo "read $disk 127 2"
    echo "flush $disk"
    echo "write $disk 8 $(sector cd)"
    echo "fill $disk 100 28 5a"
    echo "read $disk 127 1"
    echo "delete $disk"
    echo "resize $disk 98304"
    echo "write $disk 190 $(sector 77)"
    echo "read $disk 190 1"
    echo "detach $disk"
    echo "detach $disk"
} >"$work/script"
"$program" "$work/repo.img" run <"$work/script" | cut -c1-24
{
    echo "resize $disk 131072"
    echo "attach $disk ro"
    echo "read $disk 7 1"
    echo "read $disk 8 1"
    echo "resize $disk 135168"
    echo "read $disk 190 1"
    echo "read $disk 255 1"
    echo "write $disk 7 $(sector ef)"
    echo "detach $disk"
    echo "delete $disk"
    echo "list"
} >"$work/script"
"$program" "$work/repo.img" run <"$work/script" | cut -c1-24

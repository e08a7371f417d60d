#!/bin/sh
# The collector on a real file: of two snapshots of a disk that is written in between the first is given up, and what it alone had is
# folded into the base below, while the disk goes on; in a second run the second snapshot reads what it had. Then that is given up too,
# and the leaf of the disk, which is detached, is folded: the folding that had begun is given up where a guest attaches the disk for
# writing, and begun anew behind that, until the disk stands by itself. Prints each reply, cut after 24 characters, and how many
# extents are free before and after.
set -e
root=$(cd "$(dirname "$0")/.." && pwd)
program="$root/crates/lvhd/out/lvhd"
work=$(mktemp -d)
trap 'rm -rf "$work"' EXIT
disk=11111111-1111-4111-8111-111111111111
first=22222222-2222-4222-8222-222222222222
second=33333333-3333-4333-8333-333333333333
truncate -s 3M "$work/repo.img"
"$program" "$work/repo.img" format 16384 4096 64 99999999-9999-4999-8999-999999999999
{
    echo "create $disk 65536 vhd guest"
    echo "attach $disk rw"
    echo "fill $disk 0 1 aa"
    echo "snapshot $disk $first"
    echo "fill $disk 8 1 bb"
    echo "snapshot $disk $second"
    echo "delete $first"
    echo "stat"
    for turn in 1 2 3 4 5 6 7 8 9 10; do
        echo "gc"
    done
    echo "fill $disk 0 1 cc"
    echo "stat"
} >"$work/script"
"$program" "$work/repo.img" run <"$work/script" | cut -c1-24
{
    echo "attach $disk ro"
    echo "attach $second ro"
    echo "read $disk 0 1"
    echo "read $disk 8 1"
    echo "read $second 0 1"
    echo "read $second 8 1"
    echo "list"
    echo "detach $disk"
    echo "detach $second"
    echo "delete $second"
    echo "gc"
    echo "gc"
    echo "attach $disk rw"
    echo "fill $disk 16 1 dd"
    echo "detach $disk"
    for turn in 1 2 3 4 5 6; do
        echo "gc"
    done
    echo "stat"
    echo "attach $disk ro"
    echo "read $disk 0 1"
    echo "read $disk 8 1"
    echo "read $disk 16 1"
} >"$work/script"
"$program" "$work/repo.img" run <"$work/script" | cut -c1-24

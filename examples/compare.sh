#!/bin/sh
# Measures lvhd beside qemu-io and dd, in turns on one file system, and prints medians in seconds and how many times as fast lvhd is.
#     sh examples/compare.sh FOLDER [ROUNDS]
# No gate runs it. It needs qemu-io and qemu-img (on Debian the package qemu-utils), dd, date and sync of GNU, 8 GiB of room in FOLDER,
# and a machine that does nothing else. Each line for lvhd has to be answered `ok`; nothing that was written is read.
set -e
root=$(cd "$(dirname "$0")/.." && pwd)
program="$root/crates/lvhd/out/lvhd"
if [ ! -d "$1" ]; then
    echo 'usage: compare.sh FOLDER [ROUNDS]' >&2
    exit 2
fi
work=$(mktemp -d "$1/compare.XXXXXX")
trap 'rm -rf "$work"' EXIT
disk=11111111-1111-4111-8111-111111111111

# Runs a script on the repository, each line of which has to be answered `ok`.
lvhd() {
    "$program" "$work/repo.img" run <"$work/$1.lines" >"$work/replies"
    if grep -v '^ok' "$work/replies" >&2; then exit 1; fi
}
# Runs commands on the image beside it.
qemu() {
    qemu-io -f vpc "$work/disk.vhd" <"$work/$1.commands" >"$work/told" 2>&1
    if grep -i 'error\|fail\|invalid' "$work/told" >&2; then exit 1; fi
}
# Copies so many blocks of 2 MiB from a file, and makes them last.
copy() {
    dd if="$1" of="$work/copy" bs=2M count="$2" conv=fdatasync,notrunc status=none
}
# Notes how many microseconds a command takes, by a name and the program that is measured.
timed() {
    name=$1
    side=$2
    shift 2
    sync -f "$work"
    begin=$(date +%s%N)
    "$@"
    end=$(date +%s%N)
    printf '%s\t%s\t%d\n' "$name" "$side" $(((end - begin) / 1000)) >>"$work/times"
}
# A new repository with one disk of so many bytes, and a new image of as many.
fresh() {
    rm -f "$work/repo.img" "$work/disk.vhd" "$work/copy"
    truncate -s 12G "$work/repo.img"
    "$program" "$work/repo.img" format 4194304 2097152 51200 99999999-9999-4999-8999-999999999999 >"$work/replies"
    echo "create $disk $(numfmt --from=iec "$1") vhd disk" >"$work/create.lines"
    lvhd create
    qemu-img create -q -f vpc -o force_size=on "$work/disk.vhd" "$1"
}
# COUNT writes of 4 KiB, each STEP pieces of 4 KiB behind the one before, counted round in so many PIECES: lines for lvhd, and commands for qemu-io,
# with the command LAST behind each, where it is given.
writes() {
    awk -v count="$2" -v step="$3" -v pieces="$4" -v last="$5" -v disk="$disk" -v lines="$work/$1.lines" -v commands="$work/$1.commands" 'BEGIN {
        for (i = 0; i < 4096; i++) bytes = bytes "cc"
        print "attach " disk " rw" >lines
        for (i = 0; i < count; i++) {
            piece = i * step % pieces
            print "write " disk " " piece * 8 " " bytes >lines
            print "write -q -P 0xcc " piece * 4 "k 4k" >commands
            if (last) print last >commands
        }
    }'
}
# The scripts are made before anything is measured. The base of the disk holds 256 blocks, and the base under it one sector: its other disk is gone. In
# front of the copies the collector cuts two volumes and begins.
scripts() {
    writes overwrites 20000 7919 262144
    writes firsts 16384 1 16384 flush
    writes blocks 2000 512 1024000 flush
    printf "%s $disk %s\n" attach rw fill '0 2097152 5a' >"$work/fill.lines"
    echo 'write -q -P 0x5a 0 1G' >"$work/fill.commands"
    {
        printf "%s $disk %s\n" attach rw fill '0 1 aa' snapshot 22222222-2222-4222-8222-222222222222
        printf "%s $disk %s\n" fill '0 1048576 bb' snapshot 33333333-3333-4333-8333-333333333333
        printf '%s\n' 'delete 22222222-2222-4222-8222-222222222222' "detach $disk"
    } >"$work/chain.lines"
    yes gc | head -n 259 >"$work/copies.lines"
}
# Each comparison once.
round() {
    fresh 1G
    lvhd fill
    qemu fill
    timed '20,000 overwrites of 4 KiB' lvhd lvhd overwrites
    timed '20,000 overwrites of 4 KiB' qemu-io qemu overwrites
    fresh 64M
    timed '16,384 first writes of 4 KiB' lvhd lvhd firsts
    timed '16,384 first writes of 4 KiB' qemu-io qemu firsts
    fresh 4000M
    timed '2,000 first writes into new blocks' lvhd lvhd blocks
    timed '2,000 first writes into new blocks' qemu-io qemu blocks
    fresh 1G
    timed 'fill of 1 GiB, first' lvhd lvhd fill
    timed 'fill of 1 GiB, first' dd copy /dev/zero 512
    timed 'fill of 1 GiB, again' lvhd lvhd fill
    timed 'fill of 1 GiB, again' dd copy /dev/zero 512
    fresh 512M
    lvhd chain
    head -c 512M /dev/zero >"$work/source"
    timed '256 blocks of 2 MiB copied' lvhd lvhd copies
    [ "$(grep -c '^ok gc copy' "$work/replies")" -eq 256 ]
    timed '256 blocks of 2 MiB copied' dd copy "$work/source" 256
}
# The median of each comparison.
medians() {
    sort -t '	' -k 3n "$work/times" | awk -F '\t' '
    function median(name, side, count) {
        count = many[name, side]
        return (all[name, side, int((count + 1) / 2)] + all[name, side, int(count / 2) + 1]) / 2000000
    }
    { all[$1, $2, ++many[$1, $2]] = $3 }
    $2 != "lvhd" { beside[$1] = $2 }
    END {
        for (name in beside) {
            here = median(name, "lvhd")
            there = median(name, beside[name])
            printf "%-36slvhd %7.3f   %-8s%7.3f   %.2f times as fast\n", name, here, beside[name], there, there / here
        }
    }' | sort
}

scripts
for number in $(seq "${2:-5}"); do
    round
    echo "round $number is done" >&2
done
medians

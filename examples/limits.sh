#!/bin/sh
# A test of the limits, on real files, each run under a limit on memory of 64 MiB: 500 disks made in one run, and one more,
# which is refused; 20,000 accepted lines in one run over three disks; 500 VHD disks made and all attached; 20,000 writes, fills
# and reads of one disk; a fill over a whole disk of 8,192 blocks; a chain of 30 images that is read 200 times, and one more, which
# is refused; that disk of 8,192 blocks sent as a VHD file through a chain of 30 images; clones until 500 images stand, and one more; 120 snapshots of one disk made and given up while it is written, and
# what they leave collected; a disk of one block enlarged by one block 2,000 times while it is attached and written; 500 disks over 1,048,576
# extents, of which half and then nearly all are given out so that no two of a disk are neighbours; a full repository of version 1, taken over;
# 500 tracked disks; what changed over a walk of 30 logs, 1,000 times; and a tracked disk of 1,044,480 blocks of 2 MiB, whose bits take 4 MiB.
# Prints each reply once, at most 24 characters of it, with how often it came.
set -e
root=$(cd "$(dirname "$0")/.." && pwd)
program="$root/crates/lvhd/out/lvhd"
work=$(mktemp -d)
trap 'rm -rf "$work"' EXIT
repository=99999999-9999-4999-8999-999999999999
# Runs a script in little memory, and counts its replies.
counted() {
    (ulimit -v 65536; "$program" "$1" run <"$2") >"$work/replies"
    cut -c1-24 "$work/replies" | LC_ALL=C sort | uniq -c | sed 's/^ *//'
}
# 500 disks of one extent each, behind the 16 extents of the records.
truncate -s 11M "$work/many.img"
"$program" "$work/many.img" format 16384 4096 64 "$repository"
i=1
while [ "$i" -le 501 ]; do
    printf 'create 11111111-1111-4111-8111-%012d 16384 raw disk-%d\n' "$i" "$i"
    i=$((i + 1))
done >"$work/script"
counted "$work/many.img" "$work/script"
# They all stand: so many rows of a list, counted by their sizes.
echo list | (ulimit -v 65536; "$program" "$work/many.img" run) | tr ' ' '\n' | grep -c ',16384,rw,-,disk-'
# 20,000 accepted lines.
truncate -s 3M "$work/few.img"
"$program" "$work/few.img" format 16384 4096 64 "$repository"
{
    echo 'create 11111111-1111-4111-8111-111111111111 1 raw first'
    echo 'create 22222222-2222-4222-8222-222222222222 20000 raw second'
    echo 'create 33333333-3333-4333-8333-333333333333 16385 raw third'
    i=3
    while [ "$i" -lt 20000 ]; do
        echo 'list'
        i=$((i + 1))
    done
} >"$work/script"
counted "$work/few.img" "$work/script"
# 500 VHD disks of one block, all attached for writing.
truncate -s 16M "$work/attached.img"
"$program" "$work/attached.img" format 16384 4096 64 "$repository"
for line in 'create 11111111-1111-4111-8111-%012d 4096 vhd disk\n' 'attach 11111111-1111-4111-8111-%012d rw\n'; do
    i=1
    while [ "$i" -le 500 ]; do
        printf "$line" "$i"
        i=$((i + 1))
    done
done >"$work/script"
counted "$work/attached.img" "$work/script"
# 20,000 lines over one disk, a third of them each writes, fills and reads.
truncate -s 3M "$work/guest.img"
"$program" "$work/guest.img" format 16384 4096 64 "$repository"
disk=11111111-1111-4111-8111-111111111111
awk -v disk="$disk" 'BEGIN {
    for (i = 0; i < 512; i++) bytes = bytes "ab"
    print "create " disk " 262144 vhd guest"
    print "attach " disk " rw"
    for (i = 0; i < 6666; i++) {
        at = (i * 37) % 512
        print "write " disk " " at " " bytes
        print "fill " disk " " at " 1 5a"
        print "read " disk " " at " 1"
    }
}' >"$work/script"
counted "$work/guest.img" "$work/script"
# A disk of 8,192 blocks.
truncate -s 48M "$work/whole.img"
"$program" "$work/whole.img" format 16384 4096 8192 "$repository"
{
    echo "create $disk 33554432 vhd guest"
    echo "attach $disk rw"
    echo "fill $disk 0 65536 5a"
    echo "read $disk 65535 1"
} >"$work/script"
counted "$work/whole.img" "$work/script"
# The same disk at the end of a chain of 30 images, sent as a file: its bytes, 3 sectors, 64 of the table, 9 for each block, and one.
awk -v disk="$disk" 'BEGIN { for (i = 1; i <= 29; i++) printf "snapshot %s 22222222-2222-4222-8222-%012d\n", disk, i }' >"$work/script"
counted "$work/whole.img" "$work/script"
(ulimit -v 65536; "$program" "$work/whole.img" export "$disk") | wc -c
# A chain of 30 images, and one more, which is refused; it is read 200 times.
truncate -s 4M "$work/chain.img"
"$program" "$work/chain.img" format 16384 4096 64 "$repository"
awk -v disk="$disk" 'BEGIN {
    print "create " disk " 4096 vhd guest"
    for (i = 1; i <= 30; i++) printf "snapshot %s 22222222-2222-4222-8222-%012d\n", disk, i
    print "attach " disk " ro"
    for (i = 0; i < 200; i++) print "read " disk " " i % 8 " 1"
}' >"$work/script"
counted "$work/chain.img" "$work/script"
# Clones of clones, each disk cloned twice at most, until 499 images stand; one more, whose two images would be too
# many; a disk, whose image is the last; and one more.
truncate -s 16M "$work/clones.img"
"$program" "$work/clones.img" format 16384 4096 64 "$repository"
awk 'BEGIN {
    printf "create 11111111-1111-4111-8111-%012d 4096 vhd guest\n", 0
    for (i = 1; i <= 250; i++) printf "clone 11111111-1111-4111-8111-%012d 11111111-1111-4111-8111-%012d\n", (i - 1) / 2, i
    for (i = 251; i <= 252; i++) printf "create 11111111-1111-4111-8111-%012d 16384 raw guest\n", i
}' >"$work/script"
counted "$work/clones.img" "$work/script"
# 120 snapshots of a disk that is written in between, each given up, and the collector behind it until it is idle.
truncate -s 3M "$work/collected.img"
"$program" "$work/collected.img" format 16384 4096 64 "$repository"
awk -v disk="$disk" 'BEGIN {
    print "create " disk " 65536 vhd guest"
    print "attach " disk " rw"
    for (i = 1; i <= 120; i++) {
        printf "fill %s %d 3 %02x\n", disk, (i * 7) % 126, i
        printf "snapshot %s 22222222-2222-4222-8222-%012d\n", disk, i
        printf "fill %s %d 1 %02x\n", disk, (i * 11) % 128, 255 - i
        printf "delete 22222222-2222-4222-8222-%012d\n", i
        for (k = 0; k < i % 20; k++) print "gc"
    }
    for (k = 0; k < 900; k++) print "gc"
    print "stat"
}' >"$work/script"
counted "$work/collected.img" "$work/script"
# What the disk has then, all of it, as a sum.
{
    echo "attach $disk ro"
    echo "read $disk 0 128"
} | (ulimit -v 65536; "$program" "$work/collected.img" run) | cksum
# A disk of one block is enlarged by one block 2,000 times while it is attached, and its last sector is written each time.
truncate -s 12M "$work/grown.img"
"$program" "$work/grown.img" format 16384 4096 2048 "$repository"
awk -v disk="$disk" 'BEGIN {
    print "create " disk " 4096 vhd guest"
    print "attach " disk " rw"
    for (i = 2; i <= 2001; i++) {
        print "resize " disk " " i * 4096
        print "fill " disk " " i * 8 - 1 " 1 5a"
    }
    print "stat"
    print "read " disk " 16007 1"
}' >"$work/script"
(ulimit -v 65536; "$program" "$work/grown.img" run <"$work/script") >"$work/replies"
grep -c '^ok' "$work/replies"
sed -n 4001p "$work/replies"
tail -n 2 "$work/replies" | cut -c1-24
# A new repository of so many bytes with 500 VHD disks, of one extent each.
many() {
    truncate -s "$2" "$work/$1.img"
    "$program" "$work/$1.img" format 16384 16384 1024 "$repository"
    awk 'BEGIN { for (i = 1; i <= 500; i++) printf "create 11111111-1111-4111-8111-%012d 16384 vhd disk\n", i }' >"$work/script"
    counted "$work/$1.img" "$work/script"
}
# The version that the label says, and the bytes of the table's text, as a header at that sector says.
told() {
    echo "version $(od -An -tu1 -j11 -N1 "$1" | tr -d ' '), $(od -An -tu4 --endian=big -j$((512 * $2 + 12)) -N4 "$1" | tr -d ' ') bytes of text"
}
# Disks are deleted, made, attached, enlarged and written; one gets a snapshot, and the collector takes three steps.
awk 'BEGIN {
    print "stat"
    for (i = 1; i <= 3; i++) printf "delete 11111111-1111-4111-8111-%012d\n", i
    print "create 22222222-2222-4222-8222-222222222222 4096 vhd new"
    print "attach 22222222-2222-4222-8222-222222222222 rw"
    print "resize 22222222-2222-4222-8222-222222222222 2097152"
    print "fill 22222222-2222-4222-8222-222222222222 96 4000 5a"
    print "read 22222222-2222-4222-8222-222222222222 4095 1"
    printf "snapshot 11111111-1111-4111-8111-%012d 33333333-3333-4333-8333-333333333333\n", 4
    print "gc"
    print "gc"
    print "gc"
    print "stat"
}' >"$work/few"
# Half of 1,048,576 extents are dealt out to the disks in turn by examples/damage.py, so that each is a piece of its own in the table's text; and then
# nearly all of them, so that the text is all but the longest that there is.
many apart 17199005696
cp --sparse=always "$work/apart.img" "$work/dealt.img"
for place in apart dealt; do
    python3 "$root/examples/damage.py" "$work/$place.img" "$place"
    told "$work/$place.img" 2050
    counted "$work/$place.img" "$work/few"
done
# A full repository of version 1, of 65,536 extents: a run without a line takes it over, and then the same lines.
many old 1075838976
python3 "$root/examples/damage.py" "$work/old.img" dealt
python3 "$root/examples/damage.py" "$work/old.img" old
told "$work/old.img" 1
(ulimit -v 65536; "$program" "$work/old.img" run </dev/null)
told "$work/old.img" 2050
counted "$work/old.img" "$work/few"
# Lines that make so many disks of one block, and track them.
tracked() {
    awk -v count="$1" 'BEGIN {
        for (i = 1; i <= count; i++) printf "create 11111111-1111-4111-8111-%012d 4096 vhd disk\n", i
        for (i = 1; i <= count; i++) printf "cbt 11111111-1111-4111-8111-%012d on\n", i
    }'
}
# 500 disks are tracked, attached and written, and one more beginning is refused. Behind an opening each is tracked still.
truncate -s 32M "$work/tracked.img"
"$program" "$work/tracked.img" format 16384 4096 64 "$repository"
{
    tracked 500
    awk 'BEGIN {
        for (i = 1; i <= 500; i++) printf "attach 11111111-1111-4111-8111-%012d rw\nfill 11111111-1111-4111-8111-%012d 7 1 5a\n", i, i
        printf "cbt 11111111-1111-4111-8111-%012d on\n", 500
    }'
} >"$work/script"
counted "$work/tracked.img" "$work/script"
awk 'BEGIN { for (i = 1; i <= 500; i++) printf "cbt 11111111-1111-4111-8111-%012d on\n", i }' >"$work/script"
counted "$work/tracked.img" "$work/script"
# 498 tracked disks, and a snapshot of the first: 500 images, and the 499th log.
truncate -s 32M "$work/twin.img"
"$program" "$work/twin.img" format 16384 4096 64 "$repository"
{
    tracked 498
    first=11111111-1111-4111-8111-000000000001
    echo "attach $first rw"
    echo "fill $first 7 1 5a"
    echo "snapshot $first 22222222-2222-4222-8222-222222222222"
    echo "fill $first 6 1 5a"
    echo "changed 22222222-2222-4222-8222-222222222222 $first"
} >"$work/script"
counted "$work/twin.img" "$work/script"
# A tracked disk of 512 pieces gets 29 snapshots, with one piece more written before each and behind the last; what changed since the first is
# asked 1,000 times, and once more behind an opening: 29 pieces, from the third on.
truncate -s 1200M "$work/walk.img"
"$program" "$work/walk.img" format 16384 4096 8192 "$repository"
awk -v disk="$disk" 'BEGIN {
    print "create " disk " 33554432 vhd guest"
    print "cbt " disk " on"
    print "attach " disk " rw"
    for (i = 1; i <= 29; i++) {
        print "fill " disk " " i * 128 " 1 5a"
        printf "snapshot %s 22222222-2222-4222-8222-%012d\n", disk, i
    }
    print "fill " disk " " 30 * 128 " 1 5a"
    for (i = 0; i < 1000; i++) printf "changed 22222222-2222-4222-8222-%012d %s\n", 1, disk
}' >"$work/script"
counted "$work/walk.img" "$work/script"
tail -n 1 "$work/script" >"$work/last"
counted "$work/walk.img" "$work/last"
# A tracked disk of 1,044,480 blocks of 2 MiB: its first sector is written, a snapshot is taken, and its last sector is written, which is told 10 times. Its
# 33,423,360 bits are 4,177,920 bytes, and 5,570,560 letters.
truncate -s 4398065647616 "$work/large.img"
"$program" "$work/large.img" format 4194304 2097152 1044480 "$repository"
awk -v disk="$disk" 'BEGIN {
    print "create " disk " 2190433320960 vhd guest"
    print "cbt " disk " on"
    print "attach " disk " rw"
    print "fill " disk " 0 1 5a"
    print "snapshot " disk " 22222222-2222-4222-8222-222222222222"
    print "fill " disk " 4278190079 1 5a"
    for (i = 0; i < 10; i++) print "changed 22222222-2222-4222-8222-222222222222 " disk
}' >"$work/script"
counted "$work/large.img" "$work/script"
tail -n 1 "$work/replies" | wc -c
tail -c 9 "$work/replies"

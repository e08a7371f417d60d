#!/bin/sh
# Snapshots and a clone on a real file: a disk that is attached is written, its snapshot is taken, and it is written again; a
# second run reads both, makes a clone of the snapshot and writes it. Prints each reply, cut after 24 characters.
set -e
root=$(cd "$(dirname "$0")/.." && pwd)
program="$root/crates/lvhd/out/lvhd"
work=$(mktemp -d)
trap 'rm -rf "$work"' EXIT
disk=11111111-1111-4111-8111-111111111111
snapshot=22222222-2222-4222-8222-222222222222
clone=33333333-3333-4333-8333-333333333333
truncate -s 3M "$work/repo.img"
"$program" "$work/repo.img" format 16384 4096 64 99999999-9999-4999-8999-999999999999
{
    echo "create $disk 65536 vhd guest"
    echo "attach $disk rw"
    echo "fill $disk 0 9 aa"
    echo "snapshot $disk $snapshot"
    echo "fill $disk 8 9 bb"
    echo "snapshot $disk $snapshot"
    echo "snapshot $snapshot $disk"
} >"$work/script"
"$program" "$work/repo.img" run <"$work/script" | cut -c1-24
{
    echo "attach $snapshot rw"
    echo "clone $snapshot $clone"
    echo "attach $disk ro"
    echo "attach $snapshot ro"
    echo "attach $clone rw"
    echo "fill $clone 0 1 cc"
    echo "read $disk 7 1"
    echo "read $disk 8 1"
    echo "read $snapshot 8 1"
    echo "read $snapshot 9 1"
    echo "read $clone 0 1"
    echo "read $clone 1 1"
    echo "read $snapshot 0 1"
    echo "detach $disk"
    echo "delete $disk"
} >"$work/script"
"$program" "$work/repo.img" run <"$work/script" | cut -c1-24
echo list | "$program" "$work/repo.img" run | tr ' ' '\n'

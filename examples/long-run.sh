#!/bin/sh
# A test: 20,000 lines, most of them refused, on a real file, under a limit on memory of 64 MiB.
set -e
root=$(cd "$(dirname "$0")/.." && pwd)
program="$root/crates/lvhd/out/lvhd"
work=$(mktemp -d)
trap 'rm -rf "$work"' EXIT
truncate -s 3M "$work/repo.img"
"$program" "$work/repo.img" format 16384 4096 64 99999999-9999-4999-8999-999999999999 >/dev/null
{
    echo 'create 11111111-1111-4111-8111-111111111111 1 raw first'
    i=0
    while [ "$i" -lt 9999 ]; do
        echo 'list'
        echo 'create 11111111-1111-4111-8111-111111111111 1 raw again'
        i=$((i + 1))
    done
    echo 'list'
} >"$work/script"
(ulimit -v 65536; "$program" "$work/repo.img" run <"$work/script") >"$work/replies"
LC_ALL=C sort "$work/replies" | uniq -c | sed 's/^ *//'

#!/bin/sh
# A test: the exit status of each run that does not do what it was asked for, but for want of memory and a script of more than
# 2^40 bytes. Runs with a closed standard stream, and a second run on a file that another has, do nothing.
root=$(cd "$(dirname "$0")/.." && pwd)
program="$root/crates/lvhd/out/lvhd"
work=$(mktemp -d)
trap 'rm -rf "$work"' EXIT
repository="$work/repo.img"
truncate -s 3M "$repository"
"$program" "$repository" format 16384 4096 64 99999999-9999-4999-8999-999999999999
cp "$repository" "$work/before.img"
create='create 11111111-1111-4111-8111-111111111111 1 raw first'
"$program" "$repository" nonsense
echo "other words: $?"
"$program" /dev/null run
echo "a device that fails to sync: $?"
"$program" "$repository" run <.
echo "standard input that can't be read: $?"
echo list | "$program" "$repository" run >/dev/full
echo "standard output that is full: $?"
: >"$work/empty.img"
"$program" "$work/empty.img" run
echo "an empty file: $?"
echo "$create" | "$program" "$repository" run >&-
echo "standard output closed: $?"
"$program" "$repository" run <&-
echo "standard input closed: $?"
echo "$create" | "$program" "$repository" run 2>&-
echo "standard error closed: $?"
mkfifo "$work/script"
"$program" "$repository" run <"$work/script" &
exec 3>"$work/script"
echo list >&3
sleep 2
echo "$create" | "$program" "$repository" run
echo "another run: $?"
"$program" "$repository" format 16384 4096 64 99999999-9999-4999-8999-999999999999
echo "another format: $?"
exec 3>&-
wait $!
echo "the first run: $?"
cmp "$repository" "$work/before.img" && echo 'the repository is as it was'

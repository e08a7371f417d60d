#!/bin/sh
# Builds the proved program, if it is not built yet, and says on standard error how far that is. Then makes a repository in
# a file of 3 MiB, creates a raw disk and a VHD one, gives one another label, lists them, and gives one up.
set -e
root=$(cd "$(dirname "$0")/.." && pwd)
program="$root/crates/lvhd/out/lvhd"

[ -x "$program" ] || "$root/build.sh"
work=$(mktemp -d)
trap 'rm -rf "$work"' EXIT
truncate -s 3M "$work/repo.img"
"$program" "$work/repo.img" format 16384 4096 64 99999999-9999-4999-8999-999999999999
"$program" "$work/repo.img" run <<'END'
create 11111111-1111-4111-8111-111111111111 1 raw first
create 22222222-2222-4222-8222-222222222222 20000 vhd second
END
"$program" "$work/repo.img" run <<'END'
label 22222222-2222-4222-8222-222222222222 renamed
list
delete 11111111-1111-4111-8111-111111111111
list
END

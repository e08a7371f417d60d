#!/bin/sh
# A client of a run over two pipes (client.py): each line is sent once the reply to the one before is there. Prints the lines with their
# replies, and the status.
set -e
root=$(cd "$(dirname "$0")/.." && pwd)
. "$root/examples/shown.sh"
formatted "$work/repo.img" 3M
long <<'END' | python3 "$root/examples/client.py" "$program" "$work/repo.img" | short
create A 65536 vhd disk
attach A rw
fill A 0 128 5a
flush A
snapshot A B
delete B
detach A
collect
list
END
echo '== a last line without a newline is carried out'
printf 'create %s 65536 vhd product' 33333333-3333-4333-8333-333333333333 | "$program" "$work/repo.img" run
echo list | "$program" "$work/repo.img" run | short

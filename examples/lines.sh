#!/bin/sh
# Each kind of line once, on a real file, with its reply beside it: a VHD disk and a raw one, a guest's lines, a snapshot, and the collector
# until the disk stands by itself again. Then the disk is tracked, and it is asked what changed since a snapshot.
set -e
root=$(cd "$(dirname "$0")/.." && pwd)
. "$root/examples/shown.sh"
# A sector of one byte, as 1,024 digits.
sector() {
    awk -v byte="$1" 'BEGIN { for (i = 0; i < 512; i++) printf "%s", byte }'
}
formatted "$work/repo.img" 3M
shown "$work/repo.img" <<END
create A 65000 vhd disk
create B 20000 raw plain
attach A rw
write A 0 $(sector ab)
fill A 8 8 5a
read A 7 2
flush A
snapshot A C
list
stat
label B renamed
detach A
resize A 100000
delete C
gc
gc
gc
gc
gc
clone A C
delete B
stat
cbt A on
snapshot A B
attach A rw
fill A 130 1 cd
changed B A
END

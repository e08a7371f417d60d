#!/bin/sh
# Tracked disks on a real file: two snapshots with a write between them, each refusal of the lines that track a disk and ask what changed, which logs lead
# back to which, a new start of the program, and a disk whose last piece is a part of one. A piece has 64 KiB, 128 sectors. What changed is told as
# a bit for each piece of the disk, the first in the most significant place, in base64.
set -e
root=$(cd "$(dirname "$0")/.." && pwd)
. "$root/examples/shown.sh"
echo '== a disk of two pieces, a write to the second one between two snapshots'
formatted "$work/repo.img" 3M
shown "$work/repo.img" <<'END'
create A 131072 vhd x
cbt A on
attach A rw
snapshot A B
fill A 128 1 aa
snapshot A C
stat
changed B C
changed C C
changed C B
resize A 262144
cbt A on
delete B
changed B C
END
echo '== what is refused, and what comes first'
shown "$work/repo.img" <<'END'
cbt E on
cbt E off
changed E A
changed A E
changed E E
cbt C on
attach A ro
resize A 262144
detach A
resize C 4096
resize A 0
resize A 4096
create D 229376 raw z
cbt D off
changed D A
changed A D
changed D D
create E 4096 vhd y
cbt D on
cbt A on
delete E
cbt D on
resize D 4096
snapshot A B
cbt C off
cbt C off
changed C A
cbt C on
delete D
stat
END
echo '== lines that are none'
shown "$work/repo.img" <<'END'
cbt
cbt A
cbt on
cbt A yes
cbt A ON
cbt on A
cbt A on off
Cbt A on
changed
changed A
changed A B C
changed A 0
END
echo '== a disk of four pieces with three snapshots, and what leads back to what'
formatted "$work/walk.img" 4M
shown "$work/walk.img" <<'END'
create A 262144 vhd x
cbt A on
attach A rw
fill A 256 1 a1
snapshot A B
fill A 127 2 b1
snapshot A C
fill A 300 1 c1
snapshot A D
fill A 511 2 d1
changed D A
fill A 511 1 d1
changed B C
changed C D
changed B D
changed B A
changed A B
changed D B
clone A E
changed D E
END
echo '== a new start of the program'
shown "$work/walk.img" <<'END'
changed B A
attach A rw
fill A 128 1 00
changed D A
delete C
changed B D
changed B A
changed D A
delete E
snapshot D E
changed E D
changed E A
changed D E
cbt A off
changed D A
cbt A on
changed D A
changed A A
END
echo '== a disk of five pieces, the last of eight sectors; then all bits of its log are set by hand, past the last piece too'
truncate -s 4M "$work/five.img"
"$program" "$work/five.img" format 16384 4096 128 "$repository"
shown "$work/five.img" <<'END'
create A 266240 vhd x
cbt A on
attach A rw
fill A 519 1 aa
snapshot A B
fill A 512 8 bb
changed B A
END
python3 "$root/examples/damage.py" "$work/five.img" marks
shown "$work/five.img" <<'END'
changed B A
snapshot A C
changed B C
changed C A
END
python3 "$root/examples/damage.py" "$work/five.img" logs | short

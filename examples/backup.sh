#!/bin/sh
# A full and an incremental backup of a tracked disk by examples/backup.py, while the disk is in use before and after, and what is restored of them. Then the
# log is lost on the way, as it is by `cbt off`, and the next backup is a full one again. The disk has 2,056 sectors: sixteen pieces of 128, and eight sectors.
set -e
root=$(cd "$(dirname "$0")/.." && pwd)
. "$root/examples/shown.sh"
# One backup, or a disk that is restored.
backup() {
    words=$(echo "$* $work/disk.copy" | long)
    python3 "$root/examples/backup.py" "$program" "$work/repo.img" $words | short
}
# Whether the file holds what a disk holds.
same() {
    by_lines "$work/repo.img" "$1" 2056 | cmp - "$work/disk.copy" && echo "the copy is what $1 holds"
}
truncate -s 8M "$work/repo.img"
"$program" "$work/repo.img" format 16384 4096 512 "$repository"
echo '== the disk is tracked from the beginning, and written'
shown "$work/repo.img" <<'END'
create A 1052672 vhd guest
cbt A on
attach A rw
fill A 0 300 a1
fill A 2040 16 a2
flush A
END
echo '== the first backup is a full one'
backup full A B
same B
echo '== the guest goes on'
shown "$work/repo.img" <<'END'
attach A rw
fill A 120 16 b1
fill A 1000 1 b2
fill A 2055 1 b3
fill A 640 1 00
flush A
changed B A
END
echo '== the second one copies the pieces that changed, and the first snapshot is given up'
backup next A B C
same C
shown "$work/repo.img" <<'END'
list
changed B C
changed C A
END
echo '== the log is lost on the way: the third one finds nothing that leads back, and copies all'
shown "$work/repo.img" <<'END'
attach A rw
fill A 5 1 c1
cbt A off
fill A 700 1 c2
cbt A on
fill A 900 1 c3
changed C A
END
backup next A C D
same D
echo '== and the fourth one copies what changed again'
shown "$work/repo.img" <<'END'
attach A rw
fill A 384 128 d1
END
backup next A D B
same B
echo '== the disk is lost, and restored'
shown "$work/repo.img" <<'END'
delete A
END
backup restore E
same E
shown "$work/repo.img" <<'END'
list
END

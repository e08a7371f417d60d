#!/bin/sh
# A repository with the log of a tracked disk, which examples/damage.py makes by hand: what each line does to logs, as a reader of
# its own reads them off the file, logs that are wrong, and logs that lead in a circle. A disk of 262,144 bytes has four pieces of 64 KiB, 128 sectors each.
set -e
root=$(cd "$(dirname "$0")/.." && pwd)
. "$root/examples/shown.sh"
damage() {
    python3 "$root/examples/damage.py" "$work/repo.img" "$1" | short
}
formatted "$work/repo.img" 4M
shown "$work/repo.img" <<'END'
create A 262144 vhd tracked
END
echo '== the disk is tracked: pieces are marked before they are written'
damage track
damage logs
shown "$work/repo.img" <<'END'
resize A 266240
attach A rw
fill A 130 1 ab
fill A 511 1 ab
read A 0 1
END
damage logs
echo '== a snapshot has the bits so far, and the disk begins anew since its number'
shown "$work/repo.img" <<'END'
snapshot A B
attach A rw
fill A 127 2 cd
END
damage logs
echo '== a clone is not tracked, and the log of a deleted disk goes'
shown "$work/repo.img" <<'END'
clone A C
delete B
END
damage logs
echo '== logs of no use go as the repository is opened'
damage strays
damage logs
shown "$work/repo.img" <<'END'
label A kept
END
damage logs
echo '== a log that is wrong is named, and nothing changes'
# A repository that is damaged at a place: what an opening says, and its status.
wrong() {
    cp --sparse=always "$work/$1.img" "$work/damaged.img"
    python3 "$root/examples/damage.py" "$work/damaged.img" "$2"
    cp --sparse=always "$work/damaged.img" "$work/before.img"
    status=0
    "$program" "$work/damaged.img" run </dev/null >"$work/told" || status=$?
    printf '%-37s %s, status %s\n' "$2" "$(short <"$work/told")" "$status"
    cmp "$work/damaged.img" "$work/before.img"
}
shown "$work/repo.img" <<'END'
snapshot A B
END
for place in log log-sum log-number log-since log-twice; do
    wrong repo "$place"
done
echo '== numbers that lead in a circle, as no run makes them: from the later of two snapshots back more is told than was written between them'
formatted "$work/repo.img" 4M
shown "$work/repo.img" <<'END'
create A 262144 vhd tracked
cbt A on
snapshot A B
snapshot A C
END
damage circle
shown "$work/repo.img" <<'END'
snapshot B D
snapshot B E
changed D E
changed E D
END
# A disk of 8 GiB has 131,072 pieces: its log has 33 sectors, and one of its two extents is taken away.
truncate -s 8M "$work/long.img"
"$program" "$work/long.img" format 16384 16384 524288 "$repository"
shown "$work/long.img" <<'END'
create A 8589934592 vhd long
cbt A on
stat
END
wrong long log-short

#!/bin/sh
# Repositories of version 1, as an earlier program left them: the first run takes one over. Its disks and its sequence number stay, its label says
# version 2 then, and it stays in the narrow layout. What it has is written as version 1 by examples/damage.py, from the description of the format.
# At the end a random script is run, what it leaves becomes version 1, and the disks are read again.
set -e
root=$(cd "$(dirname "$0")/.." && pwd)
. "$root/examples/shown.sh"
# The version and the layout that the label of a repository says.
label() {
    echo "$1: version $(od -An -tu1 -j11 -N1 "$2" | tr -d ' '), layout $(od -An -tu1 -j47 -N1 "$2" | tr -d ' ')"
}
formatted "$work/repo.img" 3M
shown "$work/repo.img" <<'END'
create A 65536 vhd disk
attach A rw
fill A 7 2 ab
snapshot A B
create C 32768 raw plain
list
END
label 'a new repository' "$work/repo.img"
python3 "$root/examples/damage.py" "$work/repo.img" old
label 'the same as an earlier program has it' "$work/repo.img"
cp "$work/repo.img" "$work/older.img"
echo '== the first run'
shown "$work/repo.img" <<'END'
list
stat
attach A rw
read A 7 1
fill A 8 1 cd
read A 8 1
attach B ro
read B 8 1
END
label 'behind it' "$work/repo.img"
echo '== the next run'
shown "$work/repo.img" <<'END'
attach A ro
read A 7 1
read A 8 1
END
echo '== a run without a line, and an export'
cp "$work/older.img" "$work/empty.img"
"$program" "$work/empty.img" run </dev/null
label 'behind the run' "$work/empty.img"
"$program" "$work/older.img" export 22222222-2222-4222-8222-222222222222 >"$work/disk.vhd"
label 'behind the export' "$work/older.img"
python3 "$root/examples/vhd.py" raw "$work/disk.vhd" >"$work/raw"
{ head -c 3584 /dev/zero; head -c 1024 /dev/zero | tr '\0' '\253'; head -c 60928 /dev/zero; } | cmp - "$work/raw" && echo 'B has its two sectors of ab, and zeros'
echo '== a damaged one is refused, and stays'
python3 "$root/examples/damage.py" "$work/empty.img" old
python3 "$root/examples/damage.py" "$work/empty.img" record
cp "$work/empty.img" "$work/before.img"
"$program" "$work/empty.img" run </dev/null || echo "status $?"
cmp "$work/empty.img" "$work/before.img" && echo 'as it was'
echo '== a random script'
truncate -s 4M "$work/random.img"
"$program" "$work/random.img" format 16384 4096 64 "$repository" >/dev/null
python3 "$root/examples/model.py" script 7 1500 >"$work/script"
"$program" "$work/random.img" run <"$work/script" >/dev/null
# What a run says of all that is there: the disks, the images, and each disk's sectors.
told() {
    echo list | "$program" "$1" run | tr ' ' '\n' | grep , | cut -d, -f1,2 | tr , ' ' |
        while read -r disk size; do
            echo "attach $disk ro"
            at=0
            while [ "$at" -lt $((size / 512)) ]; do
                echo "read $disk $at 8"
                at=$((at + 8))
            done
            echo "detach $disk"
        done >"$work/lines"
    { echo list; echo stat; cat "$work/lines"; } | "$program" "$1" run
}
told "$work/random.img" >"$work/wanted"
python3 "$root/examples/damage.py" "$work/random.img" old
label 'what it left, as an earlier program has it' "$work/random.img"
told "$work/random.img" >"$work/answers"
label 'behind the next run' "$work/random.img"
cmp "$work/answers" "$work/wanted" && echo 'the disks, the images and each sector are the same'

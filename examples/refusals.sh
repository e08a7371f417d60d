#!/bin/sh
# A line for each refusal with its reply, and for each answer that is no reply, with the status: words that are refused, want of memory, and a
# repository that is damaged in each place that an opening names, and is left as it is.
set -e
root=$(cd "$(dirname "$0")/.." && pwd)
. "$root/examples/shown.sh"
formatted "$work/repo.img" 3M
shown "$work/repo.img" <<'END'
hello
read A 0
create A 065536 vhd disk
create A 65536 vhd two words
write A 0 5a
create 00000000-0000-0000-0000-000000000000 65536 vhd disk
create 6c766864-0000-8000-8000-0000000000ff 65536 vhd disk
flush A
create A 65536 vhd disk
create A 65536 raw again
read A 0 1
create B 32768 raw plain
resize B 65536
create C 0 vhd none
create C 262145 vhd large
resize A 4096
snapshot A C
attach C rw
resize C 131072
attach A ro
attach A ro
delete A
resize A 131072
fill A 0 1 5a
read A 0 0
read A 0 129
read A 127 2
detach A
create D 262144 raw large
create E 262144 raw large
resize A 262144
attach A rw
cbt B off
cbt A on
resize A 262144
END
echo '== a chain of 30 images'
formatted "$work/chain.img" 4M
awk 'BEGIN {
    print "create A 4096 vhd disk"
    for (i = 1; i <= 30; i++) printf "snapshot A 00000000-0000-4000-8000-%012d\n", i
}' | shown "$work/chain.img" | tail -n 2
echo '== 500 images'
formatted "$work/many.img" 11M
awk 'BEGIN { for (i = 1; i <= 501; i++) printf "create 00000000-0000-4000-8000-%012d 1 raw disk\n", i }' | shown "$work/many.img" | tail -n 2
echo '== a sequence number that is spent'
formatted "$work/sound.img" 11M
shown "$work/sound.img" <<'END'
create A 65536 vhd disk
create B 32768 raw plain
snapshot A C
END
cp "$work/sound.img" "$work/spent.img"
python3 "$root/examples/damage.py" "$work/spent.img" sequence
shown "$work/spent.img" <<'END'
create D 4096 vhd disk
snapshot A D
label A other
cbt A on
END
echo '== want of memory: 16 tables of 1 MiB each in 16 MiB'
truncate -s 20M "$work/large.img"
"$program" "$work/large.img" format 16384 4096 262144 "$repository"
awk 'BEGIN { for (i = 1; i <= 16; i++) printf "create 00000000-0000-4000-8000-%012d 4096 vhd disk\n", i }' >"$work/script"
(ulimit -v 16384; "$program" "$work/large.img" run <"$work/script") | LC_ALL=C sort -u
"$program" "$work/large.img" run <"$work/script" >/dev/null
status=0
(ulimit -v 16384; "$program" "$work/large.img" run </dev/null) || status=$?
echo "a run that opens them: status $status"
echo '== words and devices'
# Prints a title, what the program says of a file to these words, and its status.
said() {
    title=$1
    file=$2
    shift 2
    status=0
    "$program" "$work/$file" "$@" </dev/null >"$work/answers" || status=$?
    answer=$(short <"$work/answers")
    printf '%-37s %s%sstatus %s\n' "$title" "$answer" "${answer:+, }" "$status"
}
truncate -s 3M "$work/zeros.img"
truncate -s 1M "$work/small.img"
said 'list, in place of run' zeros.img list
said 'format with no entries' zeros.img format 16384 4096 0 "$repository"
said 'format, a block above the extent' zeros.img format 16384 32768 64 "$repository"
said 'format of a file of 1 MiB' small.img format 16384 4096 64 "$repository"
said 'run on zeros' zeros.img run
echo '== damaged places'
for place in label version layout header sum text mgt images journal image tree record disk; do
    cp "$work/sound.img" "$work/damaged.img"
    python3 "$root/examples/damage.py" "$work/damaged.img" "$place"
    cp "$work/damaged.img" "$work/before.img"
    said "$place" damaged.img run
    cmp "$work/damaged.img" "$work/before.img"
done
truncate -s 8M "$work/sound.img"
said 'a file that was cut' sound.img run

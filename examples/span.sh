#!/bin/sh
# A test of a repository on two files: made, written over the border and read again in another run, with the same bytes as on one file; a random script
# over it, whose replies are those of examples/model.py; and what is refused, or said where the files are not the two that they were.
root=$(cd "$(dirname "$0")/.." && pwd)
. "$root/examples/shown.sh"
first=$work/first.img
second=$work/second.img
# A file's bytes as digits, a sector of one byte as that byte and two points.
digits() {
    od -An -v -tx1 | tr -d ' \n' | short
}
# Runs words with no line, and says how that ended.
ended() {
    status=0
    "$program" "$@" </dev/null || status=$?
    echo "status $status"
}
truncate -s "$((5000 * 512))" "$first"
truncate -s "$((1144 * 512))" "$second"
"$program" span "$first" "$second" format 16384 4096 64 "$repository"
shown span "$first" "$second" <<'END'
create A 262144 raw x
attach A rw
fill A 391 2 aa
read A 390 4
END
echo "the first file's last sector: $(tail -c 512 "$first" | digits)"
echo "the second file's first sector: $(head -c 512 "$second" | digits)"
echo '== another run'
shown span "$first" "$second" <<'END'
list
attach A ro
read A 390 4
END
echo '== the same lines on one file'
formatted "$work/one.img" "$((6144 * 512))"
shown "$work/one.img" <<'END'
create A 262144 raw x
attach A rw
fill A 391 2 aa
END
cat "$first" "$second" | cmp - "$work/one.img" && echo 'it has the bytes of both'
echo '== a random script over two halves'
truncate -s "$((3072 * 512))" "$work/half.img" "$work/other.img"
"$program" span "$work/half.img" "$work/other.img" format 16384 4096 64 "$repository"
python3 "$root/examples/model.py" script 2 2500 >"$work/random"
python3 "$root/examples/model.py" replies 16384 4096 64 6144 <"$work/random" >"$work/wanted"
"$program" span "$work/half.img" "$work/other.img" run <"$work/random" >"$work/replies"
cmp "$work/replies" "$work/wanted" && echo "$(wc -l <"$work/replies") replies, each as the model has it"
echo '== an empty file in front of one, and behind it'
: >"$work/empty.img"
echo list | long | "$program" span "$work/empty.img" "$work/one.img" run | short
echo list | long | "$program" span "$work/one.img" "$work/empty.img" run | short
echo '== one file twice: by its name, a hard link, a symbolic link, another path'
ln "$first" "$work/hard.img"
ln -s first.img "$work/soft.img"
for other in "$first" "$work/hard.img" "$work/soft.img" "$work/./first.img"; do
    ended span "$first" "$other" run
done
echo '== another run has the second file, and both'
mkfifo "$work/lines.fifo"
"$program" span "$first" "$second" run <"$work/lines.fifo" >"$work/held" &
exec 3>"$work/lines.fifo"
echo list | long >&3
sleep 2
ended span "$work/one.img" "$second" run
ended span "$first" "$work/one.img" run
ended "$second" run
exec 3>&-
status=0
wait $! || status=$?
echo "the first run: $(short <"$work/held"), status $status"
echo '== the second file is missing, is left out, is the first'
ended span "$first" "$work/none.img" run
ended "$first" run
ended span "$second" "$first" run
echo '== words'
ended span
ended span "$first"
ended span "$first" "$second"
ended span "$first" "$second" trial 1
cd "$work" || exit 2
truncate -s 3M span
ended ./span format 16384 4096 64 "$repository"

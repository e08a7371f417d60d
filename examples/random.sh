#!/bin/sh
# Random scripts of 2,500 lines on a real file: guests' writes and reads, forks, deletions and steps of the collector in any order, with
# leaves of detached and of attached disks that are folded while guests write, and foldings that are given up.
# Each reply is compared, byte for byte, with that of examples/model.py, a plain model of what the lines mean. Then scripts in which disks are tracked too:
# behind each of these the logs on the file are compared with the model's, and what a second run tells of each two disks with the bytes that it reads.
set -e
root=$(cd "$(dirname "$0")/.." && pwd)
program="$root/crates/lvhd/out/lvhd"
work=$(mktemp -d)
trap 'rm -rf "$work"' EXIT
# run KIND SEED SECTORS: a script of this kind by this seed on a repository in a file of so many sectors
run() {
    rm -f "$work/repo.img"
    truncate -s "$(($3 * 512))" "$work/repo.img"
    "$program" "$work/repo.img" format 16384 4096 64 99999999-9999-4999-8999-999999999999 >/dev/null
    python3 "$root/examples/model.py" "$1" "$2" 2500 >"$work/script"
    python3 "$root/examples/model.py" replies 16384 4096 64 "$3" <"$work/script" >"$work/wanted"
    "$program" "$work/repo.img" run <"$work/script" >"$work/replies"
    cmp "$work/replies" "$work/wanted"
    echo "$1 $2, $3 sectors: $(wc -l <"$work/replies") replies, each as the model has it"
}
# tracked SEED SECTORS: the same with tracked disks, and what is looked at behind it
tracked() {
    run tracked "$1" "$2"
    python3 "$root/examples/model.py" logs 16384 4096 64 "$2" <"$work/script" >"$work/wanted"
    python3 "$root/examples/damage.py" "$work/repo.img" logs >"$work/logs"
    cmp "$work/logs" "$work/wanted"
    echo "$(wc -l <"$work/logs") logs on the file, each as the model has it"
    echo list | "$program" "$work/repo.img" run | python3 "$root/examples/pieces.py" lines >"$work/lines"
    "$program" "$work/repo.img" run <"$work/lines" >"$work/told"
    python3 "$root/examples/pieces.py" held "$work/lines" "$work/told"
}
run script 1 5120
run script 2 6144
run script 3 8192
run script 4 18432
tracked 2 8192
tracked 11 6144
tracked 12 18432

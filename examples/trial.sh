#!/bin/sh
# Trials of five numbers: each line is compared with that of examples/model.py, which draws the same 20,000 lines and answers them by a
# plain model of what the lines mean. The first is done twice.
set -e
root=$(cd "$(dirname "$0")/.." && pwd)
program="$root/crates/lvhd/out/lvhd"
for number in 1 1 0 2 7 18446744073709551615; do
    wanted=$(python3 "$root/examples/model.py" trial "$number")
    [ "$("$program" trial "$number")" = "$wanted" ]
    echo "$wanted"
done
# Words that spell no trial: status 2, and nothing is printed. No file is opened.
for words in "trial" "trial 01" "trial 18446744073709551616" "trial -1" "trial 1 x" "repo.img trial 1"; do
    status=0
    "$program" $words || status=$?
    echo "$words: status $status"
done
status=0
"$program" trial 1 >/dev/full || status=$?
echo "a full sink: status $status"

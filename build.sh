#!/bin/sh
# Proves the program and builds it, as crates/lvhd/out/lvhd; says on standard error how far that is. Crates that do not stand on
# one another are proved side by side: one for each processor and for each 4 GiB of memory that are free, or as many as JOBS says.
set -e
name=lvhd
root=$(cd "$(dirname "$0")" && pwd)

fail() {
    echo "build: $1" >&2
    exit 1
}

command -v rt >/dev/null ||
    fail "the command rt is missing: install the toolchain rattle-kit-13b or 13f (logic dac8208d650f15bf), with rt on the PATH"
[ -w "$root/crates/$name" ] || fail "$root can't be written: copy the repository to a folder of your own"
memory=$(awk '$1 == "MemAvailable:" { print int($2 / 1024) }' /proc/meminfo)
[ "${memory:-4096}" -ge 4096 ] || fail "proving takes 4 GiB of memory, and $memory MiB are free: close other programs first"
cores=$(nproc 2>/dev/null || echo 1)
fit=$((${memory:-4096} / 4096))
jobs=${JOBS:-$((fit < cores ? fit : cores))}

# Reads what rt says of its checks, and says after each crate how far they are.
progress() {
    began=$(date +%s)
    count=0
    while read -r mark crate; do
        [ "$mark" = '==' ] && [ "$crate" != summary ] || continue
        count=$((count + 1))
        echo "build: $crate is done, crate $count of $1, after $((($(date +%s) - began) / 60)) minutes" >&2
    done
}

# The crates that the program stands on, and its own.
count=$(awk -F: -v top="$name" '
    !/^#/ && NF > 1 { below[$1] = $2 }
    function visit(crate, list, count, i) {
        if (!(crate in below) || crate in seen) return
        seen[crate] = 1
        all++
        count = split(below[crate], list, " ")
        for (i = 1; i <= count; i++) visit(list[i])
    }
    END { visit(top); print all }' "$root/crates.txt")
log=$(mktemp)
proved=$(mktemp)
trap 'rm -f "$log" "$proved"' EXIT
cd "$root/crates/$name"
echo "build: reading the sources; then $count crates are proved, $jobs at a time" >&2
{ rt all check --jobs "$jobs" </dev/null 2>&1 && echo yes >"$proved"; } | tee "$log" | progress "$count"
[ -s "$proved" ] || {
    tail -n 60 "$log" >&2
    fail "not proved: the lines above say why"
}
# The program, run once after it is built, refuses what it is given: nothing.
rt run </dev/null >"$log" 2>&1 || true
[ -x "out/$name" ] || {
    cat "$log" >&2
    fail "the program was not built: the lines above say why"
}

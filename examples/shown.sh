# What the examples share whose lines are shown beside their replies. Sourced, with `root` set.
program="$root/crates/lvhd/out/lvhd"
work=$(mktemp -d)
trap 'rm -rf "$work"' EXIT
repository=99999999-9999-4999-8999-999999999999
# The UUIDs that A to E stand for, in the lines that are given to the program.
long() {
    sed -E ':again
        s/ A( |$)/ 11111111-1111-4111-8111-111111111111\1/; s/ B( |$)/ 22222222-2222-4222-8222-222222222222\1/
        s/ C( |$)/ 33333333-3333-4333-8333-333333333333\1/; s/ D( |$)/ 44444444-4444-4444-8444-444444444444\1/
        s/ E( |$)/ 55555555-5555-4555-8555-555555555555\1/
        t again'
}
# The letters in what it prints; #N for the UUID of the base image with the number N, and a sector of one byte as that byte and two points.
short() {
    sed -E 's/11111111-1111-4111-8111-111111111111/A/g; s/22222222-2222-4222-8222-222222222222/B/g; s/33333333-3333-4333-8333-333333333333/C/g
        s/44444444-4444-4444-8444-444444444444/D/g; s/55555555-5555-4555-8555-555555555555/E/g
        s/(([0-9a-f]{2})\2{511})/\2../g' | awk -v base=6c766864-0000-8000-8000- '
        function number(digits, i, sum) {
            for (i = 1; i <= length(digits); i++) sum = 16 * sum + index("0123456789abcdef", substr(digits, i, 1)) - 1
            return sum
        }
        {
            while ((at = index($0, base)) > 0) $0 = substr($0, 1, at - 1) "#" number(substr($0, at + 24, 12)) substr($0, at + 36)
            print
        }'
}
# A new repository of so many bytes, with extents of 16 KiB, blocks of 4 KiB and 64 entries, so that a VHD disk has 256 KiB at most.
formatted() {
    truncate -s "$2" "$1"
    "$program" "$1" format 16384 4096 64 "$repository"
}
# Runs the lines of standard input on a path, or on `span` and two paths, and prints each with its reply, and a status that is not 0.
shown() {
    cat >"$work/lines"
    long <"$work/lines" >"$work/script"
    status=0
    "$program" "$@" run <"$work/script" >"$work/answers" || status=$?
    short <"$work/lines" >"$work/asked"
    short <"$work/answers" | awk 'NR == FNR { asked[NR] = $0; next } { printf "%-37s %s\n", asked[FNR], $0 }' "$work/asked" -
    [ "$status" -eq 0 ] || echo "status $status"
}
# The UUID that a letter stands for.
uuid() {
    echo " $1" | long | tr -d ' '
}
# So many sectors of a disk, by lines of `read`.
by_lines() {
    {
        echo "attach $2 ro"
        at=0
        while [ "$at" -lt "$3" ]; do
            echo "read $2 $at $(($3 - at < 128 ? $3 - at : 128))"
            at=$((at + 128))
        done
    } | long | "$program" "$1" run | python3 -c 'import sys; [sys.stdout.buffer.write(bytes.fromhex(line[3:])) for line in sys.stdin]'
}
# Lines that make one disk with two sectors, attached.
one_disk() {
    cat <<'END'
create A 65536 vhd x
attach A rw
fill A 7 2 ab
END
}
# Lines that make five disks: over a base and enlarged, its snapshot, a raw one, one over a raw base and enlarged, its clone.
five_disks() {
    cat <<'END'
create A 65536 vhd disk
attach A rw
fill A 0 24 a1
snapshot A B
fill A 20 10 a2
resize A 100000
create C 20000 raw plain
attach C rw
fill C 3 2 c1
create D 16384 raw base
attach D rw
fill D 0 32 d1
clone D E
resize D 32768
fill D 30 10 d2
END
}

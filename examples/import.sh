#!/bin/sh
# A test of disks that are made of VHD files: an exported one, in pieces, cut, moved and with another type; a fixed one; refusals from before the first
# byte; want of room; 150 files with one thing wrong, each of which a plain reader of the standard (examples/vhd.py) has to answer alike;
# and, where qemu-img is installed, files that it made.
root=$(cd "$(dirname "$0")/.." && pwd)
. "$root/examples/shown.sh"
# Makes a disk of what comes on standard input, and says how that ended.
imported() {
    status=0
    "$program" "$1" import "$(uuid "$2")" || status=$?
    echo "import $2: status $status"
}
# A file in pieces of so many bytes.
in_pieces() {
    python3 -c 'import os, sys
data = open(sys.argv[2], "rb").read()
for at in range(0, len(data), int(sys.argv[1])):
    os.write(1, data[at : at + int(sys.argv[1])])' "$1" "$2"
}
# The bytes of a disk, by an export and the plain reader.
bytes_of() {
    "$program" "$1" export "$(uuid "$2")" >"$work/again.vhd" </dev/null && python3 "$root/examples/vhd.py" raw "$work/again.vhd"
}
formatted "$work/repo.img" 3M
one_disk | shown "$work/repo.img"
"$program" "$work/repo.img" export "$(uuid A)" >"$work/A.vhd" </dev/null
echo '== an exported disk, in pieces of 1 and of 1,000 bytes'
for piece in 1 1000; do
    formatted "$work/$piece.img" 3M
    in_pieces "$piece" "$work/A.vhd" | imported "$work/$piece.img" C
    shown "$work/$piece.img" <<'END'
list
stat
attach C ro
read C 6 4
END
done
echo '== without its last footer; with a sector put in behind the header; cut; of a differencing disk; fixed; nothing at all'
formatted "$work/cut.img" 3M
head -c 11264 "$work/A.vhd" | imported "$work/cut.img" C
python3 "$root/examples/vhd.py" raw "$work/A.vhd" >"$work/A.raw"
bytes_of "$work/cut.img" C | cmp - "$work/A.raw" && echo 'the disk has the bytes of the first one'
python3 - "$work/A.vhd" "$work/moved.vhd" <<'END'
import struct, sys
data = open(sys.argv[1], "rb").read()
header = bytearray(data[512:1536])
header[16:24], header[36:40] = struct.pack(">Q", 2048), bytes(4)
header[36:40] = struct.pack(">I", ~sum(header) % 2**32)
table = struct.pack(">II", 5, 14) + data[1544:2048]
open(sys.argv[2], "wb").write(data[:512] + bytes(header) + bytes(512) + table + data[2048:])
END
imported "$work/cut.img" D <"$work/moved.vhd"
head -c 10000 "$work/A.vhd" | imported "$work/cut.img" E
python3 -c 'import struct, sys
data = bytearray(open(sys.argv[1], "rb").read())
data[60:68] = struct.pack(">II", 4, struct.unpack_from(">I", data, 64)[0] - 1)
sys.stdout.buffer.write(data)' "$work/A.vhd" | imported "$work/cut.img" E
head -c 1024 /dev/zero | tr '\0' '\252' >"$work/two.raw"
python3 "$root/examples/vhd.py" fixed "$work/two.raw" >"$work/two.vhd"
imported "$work/cut.img" B <"$work/two.vhd"
imported "$work/cut.img" E </dev/null
shown "$work/cut.img" <<'END'
list
attach B ro
read B 0 3
attach D ro
read D 6 4
END
echo '== a name that is taken, reserved names, other words, no repository'
imported "$work/cut.img" B <"$work/two.vhd"
for name in 00000000-0000-0000-0000-000000000000 6c766864-0000-8000-8000-000000000009; do
    status=0
    "$program" "$work/cut.img" import "$name" <"$work/two.vhd" || status=$?
    echo "status $status"
done
for words in import 'import disk' "import $(uuid E) $(uuid A)"; do
    status=0
    "$program" "$work/cut.img" $words <"$work/two.vhd" || status=$?
    echo "status $status"
done
: >"$work/empty.img"
imported "$work/empty.img" E <"$work/two.vhd"
echo '== no room, too large, no VHD file: nothing is left of them'
formatted "$work/full.img" 2560K
head -c 262144 /dev/zero | tr '\0' '\125' >"$work/full.raw"
head -c 262656 /dev/zero >"$work/large.raw"
for raw in full large; do
    python3 "$root/examples/vhd.py" fixed "$work/$raw.raw" >"$work/$raw.vhd"
    python3 "$root/examples/vhd.py" taken 16 "$work/$raw.vhd" 2>&1 >/dev/null
    imported "$work/full.img" A <"$work/$raw.vhd"
done
imported "$work/full.img" A <"$work/two.raw"
echo stat | shown "$work/full.img"
echo '== over a base and enlarged, its snapshot, raw, over a raw base and enlarged, its clone, over a chain of 30: sent, and made again elsewhere'
chain=66666666-6666-4666-8666-666666666666
formatted "$work/disks.img" 16M
formatted "$work/again.img" 16M
{
    five_disks
    echo "create $chain 65536 vhd chain"
    echo "attach $chain rw"
    for number in $(seq 29); do
        echo "fill $chain $number 4 $(printf %02x "$number")"
        echo "snapshot $chain $(printf '%08d-0000-4000-8000-000000000000' "$number")"
    done
} | long | "$program" "$work/disks.img" run | grep -v '^ok' || true
for disk in A B C D E "$chain"; do
    "$program" "$work/disks.img" export "$(uuid "$disk")" </dev/null >"$work/sent.vhd"
    imported "$work/again.img" "$disk" <"$work/sent.vhd"
    sectors=$(($(python3 "$root/examples/vhd.py" raw "$work/sent.vhd" | wc -c) / 512))
    by_lines "$work/disks.img" "$disk" "$sectors" >"$work/before.raw"
    by_lines "$work/again.img" "$disk" "$sectors" | cmp - "$work/before.raw" && echo "$disk: $((sectors * 512)) bytes, as read by lines"
done
echo '== a disk of 20 GiB over two bases, one of them of a snapshot that is gone and folded: the same file again, but for the stamps'
for image in large larger; do
    truncate -s 64G "$work/$image.img"
    "$program" "$work/$image.img" format 4194304 2097152 65536 "$repository"
done
{
    cat <<'END'
create A 21474836480 vhd sys
attach A rw
fill A 0 8 aa
snapshot A B
fill A 4096 8 bb
snapshot A C
fill A 0 1 cc
delete B
END
    for step in 1 2 3 4 5 6 7 8; do
        echo gc
    done
} | long | "$program" "$work/large.img" run | grep -v '^ok' || true
"$program" "$work/large.img" export "$(uuid A)" </dev/null >"$work/large.vhd"
imported "$work/larger.img" A <"$work/large.vhd"
"$program" "$work/larger.img" export "$(uuid A)" </dev/null >"$work/larger.vhd"
for file in large larger; do
    python3 "$root/examples/vhd.py" unstamped "$work/$file.vhd" >"$work/$file.plain"
done
cmp "$work/large.plain" "$work/larger.plain" && echo "$(wc -c <"$work/larger.vhd") bytes"
shown "$work/larger.img" <<'END'
attach A ro
read A 0 2
read A 4096 1
read A 8192 1
END
echo '== files with one thing wrong, answered as by a plain reader of the standard'
formatted "$work/wrong.img" 2560K
alike=0
made=0
for number in $(seq 150); do
    base="$work/A.vhd"
    [ $((number % 5)) -ne 0 ] || base="$work/two.vhd"
    python3 "$root/examples/vhd.py" wrong "$number" "$base" >"$work/wrong.vhd"
    cp "$work/wrong.img" "$work/now.img"
    expected=0
    python3 "$root/examples/vhd.py" taken 16 "$work/wrong.vhd" >"$work/expected" 2>"$work/why" || expected=10
    status=0
    "$program" "$work/now.img" import "$(uuid A)" <"$work/wrong.vhd" >"$work/said" || status=$?
    if [ "$status" -eq 0 ] && [ "$expected" -eq 0 ] && bytes_of "$work/now.img" A | cmp - "$work/expected"; then
        made=$((made + 1)) alike=$((alike + 1))
    elif [ "$status" -eq 10 ] && [ "$expected" -eq 10 ] && cmp "$work/said" "$work/why"; then
        alike=$((alike + 1))
    else
        echo "file $number: status $status, $(cat "$work/said"), and not $expected, $(cat "$work/why")"
    fi
done
echo "$alike of 150 alike"
[ "$made" -gt 20 ] && [ "$made" -lt 130 ] && echo 'some of them are taken, and some are not'
if command -v qemu-img >/dev/null; then
    truncate -s 64M "$work/qemu.img"
    "$program" "$work/qemu.img" format 4194304 2097152 64 "$repository" >/dev/null
    head -c 9437184 /dev/urandom >"$work/guest.raw"
    # Blocks in the order in which a guest wrote them.
    qemu-img create -q -f vpc -o force_size=on "$work/order.vhd" 16777216
    for at in 12582912 4194304 8388608 0 6291456; do
        qemu-io -f vpc -c "write -P $((at / 2097152 + 65)) $((at + 1024)) 69632" "$work/order.vhd" >/dev/null
    done
    qemu-img convert -f vpc -O raw "$work/order.vhd" "$work/order.raw"
    "$program" "$work/qemu.img" import "$(uuid B)" <"$work/order.vhd" || echo 'blocks in a guest'"'"'s order: not imported'
    bytes_of "$work/qemu.img" B | cmp - "$work/order.raw" || echo 'blocks in a guest'"'"'s order: other bytes'
    for options in subformat=dynamic,force_size=on subformat=fixed,force_size=on subformat=dynamic; do
        qemu-img convert -f raw -O vpc -o "$options" "$work/guest.raw" "$work/qemu.vhd"
        echo "delete $(uuid A)" | "$program" "$work/qemu.img" run >/dev/null
        "$program" "$work/qemu.img" import "$(uuid A)" <"$work/qemu.vhd" || echo "$options: not imported"
        bytes_of "$work/qemu.img" A >"$work/qemu.raw"
        cmp -n 9437184 "$work/qemu.raw" "$work/guest.raw" || echo "$options: other bytes"
    done
else
    echo 'qemu-img is not installed, and its part of this test is left out' >&2
fi

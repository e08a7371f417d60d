#!/bin/sh
# A test of disks that are sent as VHD files: one of 64 KiB, field by field; an unknown disk, other words and a sink that is full; disks over a base,
# enlarged and raw ones, whose files are those of examples/model.py, and hold by the VHD standard (examples/vhd.py) what `read` gives; and each disk
# behind three random scripts. Where qemu-img and vhdiinfo are installed they have to read the same of the files.
root=$(cd "$(dirname "$0")/.." && pwd)
. "$root/examples/shown.sh"
# Runs words with no line, and says how that ended.
ended() {
    status=0
    "$program" "$@" </dev/null || status=$?
    echo "status $status"
}
# Sends a disk of a repository into a file, and says how that ended.
sent() {
    status=0
    "$program" "$1" export "$(uuid "$2")" >"$3" </dev/null || status=$?
    echo "export $2: $(wc -c <"$3") bytes, status $status"
}
# A file has the bytes that the model makes of its disk, but for the stamps.
as_the_model() {
    python3 "$root/examples/vhd.py" unstamped "$1" | cmp - "$2"
}
formatted "$work/repo.img" 3M
one_disk | shown "$work/repo.img"
cp "$work/repo.img" "$work/before.img"
first=$(date +%s)
sent "$work/repo.img" A "$work/A.vhd"
last=$(date +%s)
python3 "$root/examples/vhd.py" shown "$work/A.vhd"
for sector in 11 12 13 14 15; do
    echo "sector $sector: $(tail -c +$((sector * 512 + 1)) "$work/A.vhd" | head -c 512 | od -An -v -tx1 | tr -d ' \n' | short | cut -c1-6)"
done
stamp=$(od -An -tu4 --endian=big -j 24 -N 4 "$work/A.vhd" | tr -d ' ')
[ "$stamp" -ge $((first - 946684800)) ] && [ "$stamp" -le $((last - 946684800)) ] && echo 'the stamp is the time of the export'
echo '== no such disk, other words, a sink that is full, no repository'
ended "$work/repo.img" export "$(uuid C)"
ended "$work/repo.img" export
ended "$work/repo.img" export disk
ended "$work/repo.img" export "$(uuid A)" "$(uuid C)"
status=0
"$program" "$work/repo.img" export "$(uuid A)" >/dev/full </dev/null || status=$?
echo "status $status"
: >"$work/empty.img"
ended "$work/empty.img" export "$(uuid A)"
cmp "$work/repo.img" "$work/before.img" && echo 'the repository is as it was'
echo '== over a base and enlarged, its snapshot, raw, over a raw base and enlarged, its clone'
formatted "$work/disks.img" 4M
five_disks | shown "$work/disks.img"
cp "$work/script" "$work/disks"
python3 "$root/examples/model.py" files 16384 4096 64 8192 "$work" <"$work/disks"
for disk in A B C D E; do
    sent "$work/disks.img" "$disk" "$work/$disk.vhd"
    as_the_model "$work/$disk.vhd" "$work/$(uuid "$disk").vhd" || echo "$disk: the model has another file"
    python3 "$root/examples/vhd.py" raw "$work/$disk.vhd" >"$work/$disk.raw"
    by_lines "$work/disks.img" "$disk" $(($(wc -c <"$work/$disk.raw") / 512)) | cmp - "$work/$disk.raw" && echo "$disk: $(wc -c <"$work/$disk.raw") bytes, as read by lines"
done
echo '== the same behind the collector'
{
    echo 'delete B'
    echo 'delete E'
    for step in 1 2 3 4 5 6 7 8 9 10 11 12; do
        echo gc
    done
} | long | "$program" "$work/disks.img" run | tail -n 1
for disk in A C D; do
    sent "$work/disks.img" "$disk" "$work/collected.vhd"
    as_the_model "$work/collected.vhd" "$work/$(uuid "$disk").vhd" || echo "$disk: it has another file"
done
echo '== random scripts'
for seed in 2 8 12; do
    formatted "$work/$seed.img" 4M
    mkdir "$work/$seed"
    python3 "$root/examples/model.py" script "$seed" 2500 >"$work/random"
    python3 "$root/examples/model.py" files 16384 4096 64 8192 "$work/$seed" <"$work/random"
    "$program" "$work/$seed.img" run <"$work/random" >"$work/replies"
    count=0
    for file in "$work/$seed"/*.vhd; do
        "$program" "$work/$seed.img" export "$(basename "$file" .vhd)" >"$work/sent.vhd" </dev/null && as_the_model "$work/sent.vhd" "$file" && count=$((count + 1))
    done
    echo "script $seed: $count disks of $(ls "$work/$seed" | wc -l), each file as the model has it"
done
# Other readers, whose words the output does not have.
if command -v qemu-img >/dev/null; then
    for disk in A B C D E; do
        options=driver=vpc,file.driver=file,file.filename=$work/$disk.vhd,force_size_calc=current_size
        qemu-img convert --image-opts "$options" -O raw "$work/other.raw"
        cmp "$work/other.raw" "$work/$disk.raw" || echo "$disk: qemu-img reads other bytes"
    done
else
    echo 'qemu-img is not installed, and its part of this test is left out' >&2
fi
if command -v vhdiinfo >/dev/null; then
    for disk in A B C D E; do
        vhdiinfo "$work/$disk.vhd" >"$work/info"
        grep -q 'Disk type.*Dynamic' "$work/info" && grep -q "Identifier.*$(uuid "$disk")" "$work/info" && grep -q "Media size.*[ (]$(wc -c <"$work/$disk.raw") bytes" "$work/info" \
            || echo "$disk: vhdiinfo reads another size, type or UUID"
    done
else
    echo 'vhdiinfo is not installed, and its part of this test is left out' >&2
fi

#!/bin/sh
# The leaf of an attached disk is folded while its guest writes: a snapshot of the disk is given up, and its base is folded into the one image that the
# disk has in the end, with what the guest writes meanwhile. Then a second folding, which a detach gives up, and a third, of a disk that is attached for
# reading alone. Prints each line with its reply.
set -e
root=$(cd "$(dirname "$0")/.." && pwd)
. "$root/examples/shown.sh"
formatted "$work/repo.img" 3M
shown "$work/repo.img" <<'END'
create A 65536 vhd guest
attach A rw
fill A 0 1 aa
snapshot A B
fill A 8 1 bb
fill A 40 1 bb
delete B
gc
gc
stat
gc
fill A 9 1 cc
fill A 48 1 cc
stat
gc
gc
gc
gc
stat
read A 8 3
snapshot A B
fill A 0 1 dd
delete B
gc
gc
stat
gc
fill A 1 1 ee
detach A
stat
gc
gc
attach A ro
gc
gc
gc
gc
stat
read A 0 3
END

#!/usr/bin/env python3
"""Holds what `changed` tells against the bytes of the disks, by the lines of a run and their replies alone.

    pieces.py lines < REPLY     from a reply to `list`: lines that read each disk whole, and ask of each two disks what changed
    pieces.py held LINES REPLIES   whether each piece in which two disks differ is named, wherever that is answered `ok`; counts them"""
import base64
import sys

PIECE = 128 * 512


def lines(reply):
    """Lines over the disks that a reply to `list` names."""
    disks = [row.split(",")[:2] for row in reply.split()[2:]]
    for disk, size in disks:
        yield f"attach {disk} ro"
        for at in range(0, int(size) // 512, 128):
            yield f"read {disk} {at} {min(128, int(size) // 512 - at)}"
        yield f"detach {disk}"
    for disk, _ in disks:
        for other, _ in disks:
            yield f"changed {disk} {other}"


def named(bits):
    """The pieces whose bits are set, the first in the most significant place."""
    return {piece for piece in range(8 * len(bits)) if bits[piece // 8] & 128 >> piece % 8}


def differing(one, other):
    """The pieces in which the bytes of two disks differ."""
    return {at // PIECE for at in range(0, max(len(one), len(other)), PIECE) if one[at : at + PIECE] != other[at : at + PIECE]}


def held(asked, replies):
    """How many pairs were told of, how many pieces of theirs differ, and how many are named; and the pairs of which one that differs is not."""
    disks, told, wrong = {}, [0, 0, 0], []
    for line, reply in zip(asked, replies, strict=True):
        word, disk, *rest = line.split()
        if word == "read":
            disks[disk] = disks.get(disk, b"") + bytes.fromhex(reply[3:])
        if word == "changed" and reply.startswith("ok "):
            have, want = named(base64.b64decode(reply[3:], validate=True)), differing(disks[disk], disks[rest[0]])
            told = [total + more for total, more in zip(told, (disk != rest[0], len(want), len(have)))]
            wrong += [line] * (not want <= have)
    return told, wrong


def main():
    if sys.argv[1] == "lines":
        print(*lines(sys.stdin.readline()), sep="\n")
        return
    (pairs, differ, have), wrong = held(*(open(path).read().splitlines() for path in sys.argv[2:4]))
    print(*(f"{line}: a piece that differs is not named" for line in wrong), sep="\n", end="\n" * bool(wrong))
    print(f"{pairs} pairs of disks: {differ} pieces differ, {have} are named")
    sys.exit(bool(wrong))


if __name__ == "__main__":
    main()

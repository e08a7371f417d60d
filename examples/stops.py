#!/usr/bin/env python3
"""Stops of runs with tracked disks, tried from outside. Not part of the gate, since it takes `strace`.

    examples/stops.py [PROGRAM [SCRIPT..]]

Each script below is run once while its writes and syncs are noted. What a stop at any of these calls may leave is put together: all that was written
before the last sync, and of what came behind it nothing, all, or some sectors. Each of that is opened: the disks must be those behind the lines that were
answered, or behind one more, and of each two disks `changed` must name each piece in which they differ, or answer NotTracked. Status 1 where one does not."""
import hashlib
import os
import re
import subprocess
import sys
import tempfile

import pieces

sys.argv, arguments = ["model.py", "none"], sys.argv[1:]
HERE = os.path.dirname(os.path.abspath(__file__))
exec(open(os.path.join(HERE, "model.py")).read().replace("\nmain()\n", "\n"))

PROGRAM = arguments[0] if arguments else os.path.join(HERE, "..", "crates", "lvhd", "out", "lvhd")
A, B, C, E = (f"{digit * 8}-{digit * 4}-4{digit * 3}-8{digit * 3}-{digit * 12}" for digit in "1234")
SMALL, BLOCKS = (16384, 4096, 64, 6144), (262144, 262144, 64, 16384)
TRACKED = [f"create {A} 131072 vhd x", f"cbt {A} on", f"attach {A} rw", f"snapshot {A} {B}"]
LARGE = [f"create {A} 524288 vhd x", f"cbt {A} on", f"attach {A} rw", f"fill {A} 0 1024 ee", f"snapshot {A} {B}"]
# By name: the numbers of the repository, the lines in front, and those whose calls are stopped at.
SCRIPTS = {
    "a write and a snapshot": (SMALL, TRACKED, [f"fill {A} 128 1 aa", f"snapshot {A} {C}"]),
    "tracking begins": (SMALL, TRACKED[:1], [f"cbt {A} on", f"attach {A} rw", f"snapshot {A} {B}", f"fill {A} 0 1 aa"]),
    "tracking ends": (SMALL, [*TRACKED, f"fill {A} 0 1 aa", f"snapshot {A} {C}"], [f"fill {A} 0 1 bb", f"cbt {C} off", f"cbt {A} off", f"cbt {A} on"]),
    "writes": (SMALL, TRACKED, [f"fill {A} 8 1 aa", f"fill {A} 9 1 bb", f"fill {A} 120 16 cc", f"fill {A} 8 1 dd", f"flush {A}"]),
    "writes into blocks of four pieces": (BLOCKS, LARGE, [f"fill {A} 8 1 aa", f"fill {A} 130 1 bb", f"fill {A} 500 24 cc", f"detach {A}"]),
    "deletions": (SMALL, [*TRACKED, f"fill {A} 0 1 aa", f"snapshot {A} {C}", f"fill {A} 128 1 bb", f"detach {A}"], [f"delete {C}", f"delete {A}", f"create {A} 131072 vhd y", f"cbt {A} on"]),
    "a snapshot of a snapshot": (SMALL, [*TRACKED, f"fill {A} 0 1 aa", f"snapshot {A} {C}"], [f"fill {A} 128 1 bb", f"snapshot {C} {E}"]),
    "a folding": (SMALL, [*TRACKED, f"fill {A} 0 1 aa", f"clone {A} {E}", f"fill {A} 128 1 bb", f"delete {E}"], ["gc", "gc", "gc", f"fill {A} 9 1 cc", *["gc"] * 4, f"fill {A} 200 1 dd"]),
}


def run(path, lines, *front):
    """The status of a run, and its replies."""
    ended = subprocess.run([*front, PROGRAM, path, "run"], input="".join(f"{line}\n" for line in lines), capture_output=True, text=True)
    return ended.returncode, ended.stdout.splitlines()


def calls(path):
    """What strace noted: each write as its place and its bytes, each sync as None, each reply as True."""
    for line in open(path):
        if match := re.search(r'pwrite64\(\d+, "((?:\\x..)*)", \d+, (\d+)\)', line):
            yield int(match[2]) // 512, bytes.fromhex(match[1].replace("\\x", ""))
        elif "fdatasync(" in line:
            yield None
        elif "write(1," in line:
            yield True


def left(floor, pending):
    """What a stop may leave, as the sectors that are other than the floor: of each sector with values that are pending, which one of them lasts."""
    for choice in (lambda k, n: None, lambda k, n: n - 1, lambda k, n: 0, lambda k, n: None if k % 2 else n - 1, lambda k, n: n - 1 if k % 2 else None):
        yield {place: values[choice(k, len(values))] for k, (place, values) in enumerate(sorted(pending.items())) if choice(k, len(values)) is not None}


def tried(name, work):
    """How many images a script's stops leave, and what is wrong with them."""
    (extent, block, entries, size), front, lines = SCRIPTS[name]
    path, machine = os.path.join(work, "repo.img"), Machine(extent, block, entries, size)
    open(path, "wb").truncate(512 * size)
    subprocess.run([PROGRAM, path, "format", *map(str, (extent, block, entries)), "99999999-9999-4999-8999-999999999999"], check=True, capture_output=True)
    assert run(path, front) == (0, [machine.answer(line) for line in front]), "the lines in front"
    machine.attached = {}
    floor, pending, answered, seen, wrong = bytearray(open(path, "rb").read()), {}, 0, set(), []
    attach = [line for line in front if line.startswith("attach")] if not any(line.startswith("detach") for line in front) else []
    lists = [machine.list()] * (len(attach) + 1)
    for line in attach:
        machine.answer(line)
    replies = [machine.answer(line) for line in attach]
    for line in lines:
        replies.append(machine.answer(line))
        lists.append(machine.list())
    note = os.path.join(work, "calls")
    status, have = run(path, attach + lines, "strace", "-f", "-o", note, "-e", "trace=pwrite64,write,fdatasync", "-xx", "-s", "9999999")
    assert (status, have[len(attach) :]) == (0, replies[len(attach) :]), (have, replies)
    for call in calls(note):
        if call is True:
            answered += 1
            continue
        for sectors in left(floor, pending):
            image = bytearray(floor)
            for place, data in sectors.items():
                image[512 * place : 512 * place + 512] = data
            key = (hashlib.sha256(image).digest(), answered)
            if key not in seen:
                seen.add(key)
                wrong += [f"{name}, behind {answered} lines: {what}" for what in looked(image, lists[answered : answered + 2], front[0].split()[2], work)]
        if call is None:
            for place, values in pending.items():
                floor[512 * place : 512 * place + 512] = values[-1]
            pending = {}
        else:
            for at in range(0, len(call[1]), 512):
                pending.setdefault(call[0] + at // 512, []).append(call[1][at : at + 512])
    return len(seen), wrong


def looked(image, lists, size, work):
    """What is wrong with what a stop left. All disks are of one size."""
    path = os.path.join(work, "left.img")
    with open(path, "wb") as file:
        file.write(image)
    lines = ["list", *pieces.lines("ok 4 " + " ".join(f"{disk},{size}" for disk in (A, B, C, E)))]
    status, replies = run(path, lines)
    if status != 0 or replies[0] not in lists:
        return [f"{status} {replies[:1]}"]
    there = [(line, reply) for line, reply in zip(lines[1:], replies[1:], strict=True) if reply not in ("no UnknownDisk", "no NotAttached")]
    return pieces.held(*zip(*there))[1]


with tempfile.TemporaryDirectory() as work:
    bad = 0
    for name in arguments[1:] or SCRIPTS:
        images, wrong = tried(name, work)
        print(f"{name}: {images} images, {len(wrong)} of them wrong", *wrong, sep="\n", flush=True)
        bad += len(wrong)
    sys.exit(bad > 0)

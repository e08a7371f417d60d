#!/usr/bin/env python3
"""Want of memory, tried from outside: the program runs each script below once for each of its requests for memory, and that request is refused.
Not part of the gate, since it takes a C compiler: it puts itself in front of `malloc` and `realloc`.

    examples/scarce.py [PROGRAM]

Each run must end with status 7, nothing printed and the file as it was, or with status 0 and the replies of examples/model.py, where
a line that may want memory is answered `no NoMemory` and changes nothing. What a run leaves is then opened with enough memory: the disks are the
model's, and read as the model's. Prints for each script how many requests it made and what came of them; status 1 where one came out otherwise."""
import copy
import os
import subprocess
import sys
import tempfile

sys.argv, arguments = ["model.py", "none"], sys.argv[1:]
HERE = os.path.dirname(os.path.abspath(__file__))
exec(open(os.path.join(HERE, "model.py")).read().replace("\nmain()\n", "\n"))

PROGRAM = arguments[0] if arguments else os.path.join(HERE, "..", "crates", "lvhd", "out", "lvhd")
SHIM = r"""
#define _GNU_SOURCE
#include <dlfcn.h>
#include <stdio.h>
#include <stdlib.h>
static long asked;
static int refused(void) { char *n = getenv("REFUSED"); ++asked; return n && asked == atol(n); }
void *malloc(size_t n) { static void *(*to)(size_t); if (!to) to = dlsym(RTLD_NEXT, "malloc"); return refused() ? 0 : to(n); }
void *realloc(void *p, size_t n) { static void *(*to)(void *, size_t); if (!to) to = dlsym(RTLD_NEXT, "realloc"); return refused() ? 0 : to(p, n); }
__attribute__((destructor)) static void tell(void) { char *path = getenv("ASKED"); FILE *f = path ? fopen(path, "w") : 0; if (f) { fprintf(f, "%ld", asked); fclose(f); } }
"""
A, B, C, E = (f"{digit * 8}-{digit * 4}-4{digit * 3}-8{digit * 3}-{digit * 12}" for digit in "1234")
SPARED = ("create", "attach", "snapshot", "clone", "resize", "read", "list", "stat", "cbt", "changed")
SCRIPTS = {
    "an attached disk grows": [
        f"create {A} 65536 vhd x", f"attach {A} rw", f"fill {A} 0 1 aa", f"resize {A} 69632", f"resize {A} 131072", f"fill {A} 127 2 bb", "stat",
        f"resize {A} 262144", f"fill {A} 255 2 cc", f"detach {A}", f"resize {A} 262144", f"attach {A} ro", f"resize {A} 262144", f"read {A} 0 1", "stat",
    ],
    "a snapshot of an attached disk": [
        f"create {A} 65536 vhd x", f"attach {A} rw", "stat", f"attach {A} rw", f"snapshot {A} {B}", f"attach {B} ro", "stat", f"fill {B} 0 1 aa",
        f"detach {B}", f"attach {B} rw", "list",
    ],
    "a base is folded while the disk is written": [
        f"create {A} 65536 vhd x", f"attach {A} rw", f"fill {A} 0 1 aa", f"snapshot {A} {E}", f"fill {A} 8 1 bb", f"snapshot {A} {B}", f"delete {E}",
        *["gc"] * 6, f"snapshot {B} {C}", f"fill {A} 0 1 cc", *["gc"] * 4, f"attach {C} ro", f"read {A} 0 1", f"read {A} 8 1", f"read {C} 0 1", "stat",
    ],
    "a leaf is folded, given up and folded again": [
        f"create {A} 65536 vhd x", f"attach {A} rw", f"fill {A} 0 1 aa", f"snapshot {A} {B}", f"fill {A} 8 1 bb", f"detach {A}", f"delete {B}", *["gc"] * 4,
        f"attach {A} rw", f"fill {A} 16 1 cc", "gc", f"detach {A}", *["gc"] * 7, f"attach {A} ro", f"read {A} 0 1", f"read {A} 8 1", f"read {A} 16 1", "stat",
    ],
    "the leaf of an attached disk is folded while the disk is written": [
        f"create {A} 65536 vhd x", f"attach {A} rw", f"fill {A} 0 1 aa", f"snapshot {A} {B}", f"fill {A} 8 1 bb", f"delete {B}", *["gc"] * 3,
        f"fill {A} 9 1 cc", "stat", *["gc"] * 2, f"read {A} 0 1", f"read {A} 8 2", f"detach {A}", "stat",
    ],
    "a disk is tracked": [
        f"create {A} 131072 vhd x", f"cbt {A} on", f"cbt {A} on", f"attach {A} rw", f"snapshot {A} {B}", f"fill {A} 128 1 aa", f"snapshot {A} {C}", f"changed {B} {C}",
        f"changed {C} {C}", f"changed {C} {B}", f"cbt {C} off", f"changed {B} {A}", f"delete {B}", f"cbt {A} off", f"cbt {A} on", f"changed {A} {A}", "stat",
    ],
}


def run(path, script, shim, refused=None):
    """The status and the replies of a run, and how many requests it made."""
    asked = path + ".asked"
    told = {"LD_PRELOAD": shim, "ASKED": asked} | ({"REFUSED": str(refused)} if refused else {})
    ended = subprocess.run([PROGRAM, path, "run"], input=script, env=os.environ | told, capture_output=True, text=True)
    return ended.returncode, ended.stdout.splitlines(), int(open(asked).read())


def is_spared(machine, line):
    """Whether want of memory may take the place of the machine's answer: a `gc` only where it begins to fold an image, a `resize` only
    where it needs extents, no end of tracking, and no refused line."""
    after = copy.deepcopy(machine)
    answer = after.answer(line)
    if line == "gc":
        return answer.startswith(("ok gc begin", "ok gc leaf", "ok gc live"))
    if line.startswith("resize"):
        return answer.startswith("ok") and after.images[after.own(line.split(" ")[1])].extents > machine.images[machine.own(line.split(" ")[1])].extents
    return line.split(" ")[0] in SPARED and not line.endswith(" off") and answer.startswith("ok")


def follow(script, replies):
    """The machine behind the replies, and how many lines found no memory. Fails where a reply is not allowed."""
    machine, poor = Machine(16384, 4096, 64, 6144), 0
    assert len(replies) == len(script), "a reply is missing"
    for line, reply in zip(script, replies):
        if reply == "no NoMemory":
            assert is_spared(machine, line), f"{line}: want of memory"
            poor += 1
        else:
            assert reply == machine.answer(line), f"{line}: {reply[:60]}"
    return machine, poor


def look(path, machine, shim):
    """What a run leaves is opened: the disks are the machine's, sector by sector."""
    machine.attached, machine.operation = {}, None
    disks = sorted(machine.disks)
    lines = ["list"] + [line for disk in disks for line in (f"attach {disk} ro", f"read {disk} 0 32", f"detach {disk}")]
    status, replies, _ = run(path, "".join(line + "\n" for line in lines), shim)
    assert status == 0 and replies == [machine.answer(line) for line in lines], "the disks behind it"


def scarce(script, folder, shim):
    """Runs a script once for each request, and counts what came of it."""
    path, text = os.path.join(folder, "repo.img"), "".join(line + "\n" for line in script)
    open(path, "wb").truncate(6144 * 512)
    subprocess.run([PROGRAM, path, "format", "16384", "4096", "64", A], check=True, capture_output=True)
    new = open(path, "rb").read()
    _, _, asked = run(path, text, shim)
    ended, poor = 0, 0
    for number in range(1, asked + 1):
        open(path, "wb").write(new)
        status, replies, _ = run(path, text, shim, number)
        if status == 7:
            assert not replies and open(path, "rb").read() == new, f"request {number}: status 7"
            ended += 1
            continue
        assert status == 0, f"request {number}: status {status}"
        machine, lines = follow(script, replies)
        look(path, machine, shim)
        poor += lines
    return f"{asked} requests, {ended} ended the run with status 7, {poor} were answered with want of memory"


def main_scarce():
    with tempfile.TemporaryDirectory() as folder:
        shim = os.path.join(folder, "shim.so")
        subprocess.run(["cc", "-shared", "-fPIC", "-x", "c", "-", "-o", shim, "-ldl"], input=SHIM, text=True, check=True)
        for name, script in SCRIPTS.items():
            print(f"{name}: {scarce(script, folder, shim)}", flush=True)


main_scarce()

#!/usr/bin/env python3
"""Backups of a tracked disk, each in a run of its own, into a file that holds what the disk held at its last snapshot:

    backup.py PROGRAM PATH full DISK NEW FILE        takes the snapshot NEW, and copies all of it
    backup.py PROGRAM PATH next DISK OLD NEW FILE    takes the snapshot NEW, copies what changed since OLD, and deletes OLD
    backup.py PROGRAM PATH restore DISK FILE         makes a disk of the file"""
import base64
import os
import shutil
import sys

from client import Run

PIECE = 128  # sectors: what a bit of `changed` stands for, and what one line reads


def asked(run, line, none=""):
    """What the reply says behind `ok`, and None where it is this one. Any other reply ends the program."""
    reply = run.ask(line)
    if reply != none and not reply.startswith("ok"):
        sys.exit(f"{line}: {reply}")
    return reply[3:] if reply != none else None


def sectors(run, disk):
    rows = [row.split(",") for row in asked(run, "list").split()[1:]]
    return next(int(row[1]) // 512 for row in rows if row[0] == disk)


def changed(run, old, new):
    """The pieces that changed, the first in the most significant bit; None where the logs do not lead back to the old snapshot."""
    text = asked(run, f"changed {old} {new}", "no NotTracked")
    bits = base64.b64decode(text or "", validate=True)
    return [piece for piece in range(8 * len(bits)) if bits[piece // 8] >> 7 - piece % 8 & 1] if text else None


def copy(run, disk, pieces, path):
    """Copies pieces of a disk, or all of them, into a file beside the last copy, which takes its place once it is whole and lasts."""
    size, part = sectors(run, disk), path + ".part"
    if pieces is not None:
        shutil.copyfile(path, part)
    asked(run, f"attach {disk} ro")
    with open(part, "wb" if pieces is None else "r+b") as file:
        for piece in range(-(-size // PIECE)) if pieces is None else pieces:
            file.seek(512 * PIECE * piece)
            file.write(bytes.fromhex(asked(run, f"read {disk} {PIECE * piece} {min(PIECE, size - PIECE * piece)}")))
        file.flush()
        os.fsync(file.fileno())
    os.replace(part, path)
    os.fsync(os.open(os.path.dirname(os.path.abspath(path)), os.O_RDONLY))
    asked(run, f"detach {disk}")
    print(f"pieces copied: {'all' if pieces is None else ' '.join(map(str, pieces))}, of {-(-size // PIECE)}")


def restore(run, disk, path):
    """A new disk of the size of the file. Sectors of zeros need no write."""
    asked(run, f"create {disk} {os.path.getsize(path)} vhd restored")
    asked(run, f"attach {disk} rw")
    with open(path, "rb") as file:
        for at, data in enumerate(iter(lambda: file.read(512 * 63), b"")):
            if any(data):
                asked(run, f"write {disk} {63 * at} {data.hex()}")
    asked(run, f"detach {disk}")


if __name__ == "__main__":
    run, (word, disk, *old, path) = Run(*sys.argv[1:3]), sys.argv[3:]
    if word == "restore":
        restore(run, disk, path)
    else:
        new = old.pop()
        asked(run, f"snapshot {disk} {new}")
        copy(run, new, changed(run, old[0], new) if old else None, path)
        if old:
            asked(run, f"delete {old[0]}")
            for _ in run.collect():
                pass
    sys.exit(run.close())

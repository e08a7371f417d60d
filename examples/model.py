#!/usr/bin/env python3
"""A plain model of what the program does, written from docs/MACHINE.md and docs/USING.md and not from the program: disks are
tables of sectors, images are rows, and nothing is on a device.

    model.py script SEED LINES                             a random script over eight disks
    model.py tracked SEED LINES                            the same, where disks are tracked too and it is asked what changed
    model.py replies EXTENT BLOCK ENTRIES SECTORS < script  what a run answers on a new repository
    model.py files EXTENT BLOCK ENTRIES SECTORS TO < script  what each disk is exported as behind it, with the stamp 0, into TO/UUID.vhd
    model.py logs EXTENT BLOCK ENTRIES SECTORS < script     the logs of tracked disks behind it, as examples/damage.py reads them
    model.py trial N                                        what `lvhd trial N` prints
"""
import base64
import itertools
import pathlib
import random
import re
import struct
import sys

UUID = re.compile(r"[0-9a-fA-F]{8}(-[0-9a-fA-F]{4}){3}-[0-9a-fA-F]{12}$")
NUMBER = re.compile(r"(0|[1-9][0-9]*)$")
LAST_SEQUENCE = 2**48 - 1


class Image:
    """One image: what it says of itself, its blocks by slot, and what it holds, sector by sector."""

    def __init__(self, parent, size, extents):
        self.parent, self.size, self.extents = parent, size, extents
        self.hidden, self.slots, self.sectors = False, {}, {}

    def top(self):
        return max(self.slots.values(), default=-1) + 1

    def give(self, block):
        """A block without a slot gets the least free one."""
        if block not in self.slots:
            used = set(self.slots.values())
            self.slots[block] = next(slot for slot in range(len(used) + 1) if slot not in used)


class Disk:
    def __init__(self, label, origin, read_only):
        self.label, self.origin, self.read_only = label, origin, read_only


class Log:
    """What is tracked of a disk: the number by which other logs name it (0 for none), the number of the snapshot since which it has pieces (0 for
    none), and the pieces of 128 sectors that were written to."""

    def __init__(self, extents, tag, since, pieces):
        self.extents, self.tag, self.since, self.pieces = extents, tag, since, pieces


class Refused(Exception):
    pass


def is_vhd(name):
    return name.startswith("VHD-")


def uuid_of(name):
    return name[name.index("-") + 1 :]


def base_uuid(number):
    return f"6c766864-0000-8000-8000-{number:012x}"


def up(number, unit):
    return -(-number // unit)


class Machine:
    def __init__(self, extent, block, entries, sectors):
        self.extent, self.block, self.entries = extent // 512, block // 512, entries
        # The layout that gives more extents: they begin at one sector or at another, and are so many at most.
        self.extents = max(min(most, max(sectors - begin, 0) // self.extent) for begin, most in ((4096, 65536), (37376, 1048576)))
        self.sequence, self.disks, self.images, self.attached, self.operation, self.logs = 1, {}, {}, {}, None, {}

    # ---- numbers

    def thin(self, slots):
        return up(3 + up(self.entries, 128) + slots * (1 + self.block) + 1, self.extent)

    def thick(self, size):
        return self.thin(size // self.block)

    def free(self):
        return self.extents - up(512, self.extent) - sum(volume.extents for volume in [*self.images.values(), *self.logs.values()])

    def commit(self, count):
        self.sequence = min(self.sequence + count, LAST_SEQUENCE)

    # ---- images

    def is_written(self, name):
        """Whether it is the own image of a disk that is attached for writing."""
        return not self.images[name].hidden and self.attached.get(uuid_of(name)) == "rw"

    def own(self, disk):
        """The name of a disk's image."""
        return next(kind + disk for kind in ("VHD-", "LV-") if kind + disk in self.images and not self.images[kind + disk].hidden)

    def chain(self, name):
        names = []
        while name:
            names.append(name)
            name = self.images[name].parent
        return names

    def children(self, name):
        return sorted(child for child, image in self.images.items() if image.parent == name)

    def read_sector(self, name, sector):
        for name in self.chain(name):
            image = self.images[name]
            if sector >= image.size:
                break
            if sector in image.sectors:
                return image.sectors[sector]
            if not is_vhd(name):
                break
        return bytes(512)

    # ---- lines

    def command_of(self, line):
        """The words of a line that spells a command, with its numbers and bytes read; None where it spells none."""
        words = line.split(" ")
        shape = {
            "create": "USKL", "delete": "U", "attach": "UM", "detach": "U", "snapshot": "UU", "clone": "UU", "resize": "US", "label": "UL",
            "write": "USH", "fill": "USSB", "read": "USS", "flush": "U", "gc": "", "list": "", "stat": "", "cbt": "UO", "changed": "UU",
        }.get(words[0])
        if shape is None or len(words) != len(shape) + 1 or len(line) > 65536:
            return None
        tests = {
            "U": lambda word: word.lower() if UUID.match(word) else None,
            "S": lambda word: int(word) if NUMBER.match(word) and int(word) < 2**64 else None,
            "K": lambda word: word if word in ("raw", "vhd") else None,
            "M": lambda word: word if word in ("ro", "rw") else None,
            "O": lambda word: word if word in ("on", "off") else None,
            "L": lambda word: word if re.match(r"[!-~]{1,64}$", word) else None,
            "H": lambda word: bytes.fromhex(word) if re.match(r"([0-9a-fA-F]{1024})+$", word) else None,
            "B": lambda word: bytes.fromhex(word) if re.match(r"[0-9a-fA-F]{2}$", word) else None,
        }
        read = [tests[kind](word) for kind, word in zip(shape, words[1:])]
        return None if None in read else [words[0], *read]

    def answer(self, line):
        command = self.command_of(line)
        if command is None:
            return "no BadLine"
        try:
            return getattr(self, command[0])(*command[1:])
        except Refused as refused:
            return f"no {refused}"

    # ---- refusals

    def test(self, is_refused, refusal):
        if is_refused:
            raise Refused(refusal)

    def test_names(self, disk, new):
        """The causes that look at names: of the disk that is named, and of the new one."""
        self.test(new and (new == str(base_uuid(0)).replace("6c766864", "00000000").replace("8000", "0000") or new.startswith(base_uuid(0)[:24])), "ReservedName")
        self.test(disk and disk not in self.disks, "UnknownDisk")
        self.test(new and (new in self.disks or any(uuid_of(name) == new for name in self.images)), "NameTaken")

    def test_fork(self, name, need):
        """The causes that look at how many images there are, and at the sequence number."""
        if name:
            depth = len(self.chain(name))
            self.test(depth >= 30, f"ChainTooLong depth {depth}")
        self.test(len(self.images) + need > 500, f"TooMany have {len(self.images)} need {need}")
        self.test(self.sequence >= 2**48 - 16, "SequenceSpent")

    def test_room(self, need):
        self.test(need > self.free(), f"NoSpace need {need} free {self.free()}")

    def test_size(self, size, raw):
        unit = self.extent if raw else self.block
        rounded = up(size, unit * 512) * unit
        self.test(size == 0 or rounded > self.entries * self.block or raw and rounded > self.extents * self.extent, "BadSize")
        return rounded

    def give_up(self, name):
        """The folding of a leaf is given up by a call on its disk."""
        if self.operation and self.operation[0] in ("leaf", "live") and self.operation[1] == name:
            self.operation = None
            self.commit(1)

    def lacking(self, name, size):
        """The extents that an image lacks for being written to in each block of so many sectors."""
        return max(0, self.thick(size) - self.images[name].extents) if is_vhd(name) else 0

    def enlarge(self, image, need):
        if need:
            image.extents += need
            self.commit(3)

    # ---- calls

    def create(self, disk, size, kind, label):
        self.test_names(None, disk)
        raw = kind == "raw"
        size = self.test_size(size, raw)
        self.test_fork(None, 1)
        need = size // self.extent if raw else self.thin(0)
        self.test_room(need)
        self.images[("LV-" if raw else "VHD-") + disk] = Image(None, size, need)
        self.disks[disk] = Disk(label, None, False)
        self.commit(2)
        return f"ok {size * 512}"

    def delete(self, disk):
        self.test_names(disk, None)
        self.test(disk in self.attached, "InUse")
        name = self.own(disk)
        self.give_up(name)
        del self.images[name], self.disks[disk]
        self.commit(1)
        if disk in self.logs:
            self.end_log(disk)
        return "ok"

    def attach(self, disk, mode):
        self.test_names(disk, None)
        self.test(disk in self.attached, "InUse")
        self.test(mode == "rw" and self.disks[disk].read_only, "ReadOnly")
        name = self.own(disk)
        image = self.images[name]
        need = self.lacking(name, image.size) if mode == "rw" else 0
        self.test_room(need)
        self.give_up(name)
        self.enlarge(image, need)
        self.attached[disk] = mode
        return "ok"

    def detach(self, disk):
        self.test_names(disk, None)
        self.test(disk not in self.attached, "NotAttached")
        self.give_up(self.own(disk))
        del self.attached[disk]
        return "ok"

    def fork(self, disk, twin, read_only):
        self.test_names(disk, twin)
        name = self.own(disk)
        self.test_fork(name, 2)
        size = self.images[name].size
        own = self.thick(size) if self.attached.get(disk) == "rw" else self.thin(0)
        log, number = self.logs.get(disk) if read_only else None, self.sequence
        self.test_room(own + self.thin(0) + (log.extents if log else 0))
        base = name[: name.index("-") + 1] + base_uuid(number)
        self.give_up(name)
        self.images[base] = self.images.pop(name)
        self.images[base].hidden = True
        self.images["VHD-" + disk] = Image(base, size, own)
        self.images["VHD-" + twin] = Image(base, size, self.thin(0))
        self.disks[twin] = Disk(self.disks[disk].label, disk, read_only)
        self.commit(8)
        if log:
            self.logs[twin] = Log(log.extents, number, log.since, log.pieces)
            log.since, log.pieces = number, set()
            self.commit(2)
        return "ok"

    def snapshot(self, disk, twin):
        return self.fork(disk, twin, True)

    def clone(self, disk, twin):
        return self.fork(disk, twin, False)

    def resize(self, disk, size):
        self.test_names(disk, None)
        self.test(self.attached.get(disk) == "ro", "InUse")
        self.test(self.disks[disk].read_only, "ReadOnly")
        name = self.own(disk)
        image = self.images[name]
        self.test(not is_vhd(name), "RawDisk")
        self.test(disk in self.logs, "Tracked")
        size = self.test_size(size, False)
        self.test(size < image.size, "Shrink")
        need = self.lacking(name, size) if disk in self.attached else 0
        self.test_room(need)
        self.give_up(name)
        self.enlarge(image, need)
        image.size = size
        return f"ok {size * 512}"

    def label(self, disk, text):
        self.test_names(disk, None)
        self.disks[disk].label = text
        return "ok"

    # ---- tracked disks

    def piece_count(self, disk):
        return up(self.images[self.own(disk)].size, 128)

    def end_log(self, disk):
        del self.logs[disk]
        self.commit(1)

    def cbt(self, disk, word):
        self.test_names(disk, None)
        if word == "off":
            self.test(disk not in self.logs, "NotTracked")
            self.end_log(disk)
            return "ok"
        self.test(self.disks[disk].read_only, "ReadOnly")
        self.test(disk in self.logs, "Tracked")
        need = up(1 + up(self.piece_count(disk), 4096), self.extent)
        self.test_room(need)
        self.logs[disk] = Log(need, 0, 0, set())
        self.commit(2)
        return "ok"

    def pieces_between(self, disk, later):
        """The pieces of the later disk's log and of those before it, back to the earlier disk's; None where they do not lead there."""
        found, met, at = set(), set(), later
        while at != disk:
            if at in met or at not in self.logs:
                return None
            log = self.logs[at]
            found |= log.pieces
            met.add(at)
            at = next((one for one, other in self.logs.items() if other.tag == log.since), None) if log.since else None
        return found

    def differing(self, disk, later):
        """The pieces in which the sectors of two disks differ."""
        one, other = self.own(disk), self.own(later)
        sectors = range(max(self.images[one].size, self.images[other].size))
        return {sector // 128 for sector in sectors if self.read_sector(one, sector) != self.read_sector(other, sector)}

    def changed(self, disk, later):
        self.test_names(disk, None)
        self.test_names(later, None)
        pieces = self.pieces_between(disk, later)
        self.test(pieces is None, "NotTracked")
        assert self.differing(disk, later) <= pieces, "a piece that differs is not named"
        bits = bytearray(up(self.piece_count(disk), 8))
        for piece in pieces:
            bits[piece // 8] |= 128 >> piece % 8
        return f"ok {base64.b64encode(bits).decode()}"

    # ---- guests

    def guest(self, disk, sector, count, writes):
        """The causes of a guest's line, and the disk's image."""
        self.test_names(disk, None)
        self.test(disk not in self.attached, "NotAttached")
        self.test(writes and self.attached[disk] == "ro", "ReadOnly")
        image = self.images[self.own(disk)]
        self.test(count == 0 or sector + count > image.size or not writes and count > 128, "OutOfRange")
        return image

    def put(self, disk, sector, sectors):
        image = self.guest(disk, sector, len(sectors), True)
        name = self.own(disk)
        for place, data in enumerate(sectors, sector):
            if is_vhd(name):
                image.give(place // self.block)
            if self.operation and self.operation[:2] == ("live", name) and place // self.block < self.operation[3]:
                self.dirty.add(place // self.block)
            image.sectors[place] = data
            if disk in self.logs:
                self.logs[disk].pieces.add(place // 128)
        return "ok"

    def write(self, disk, sector, data):
        return self.put(disk, sector, [data[at : at + 512] for at in range(0, len(data), 512)])

    def fill(self, disk, sector, count, byte):
        self.guest(disk, sector, count, True)
        return self.put(disk, sector, [byte * 512] * count)

    def read(self, disk, sector, count):
        self.guest(disk, sector, count, False)
        name = self.own(disk)
        return "ok " + b"".join(self.read_sector(name, place) for place in range(sector, sector + count)).hex()

    def flush(self, disk):
        self.test_names(disk, None)
        self.test(disk not in self.attached, "NotAttached")
        return "ok"

    # ---- disks as VHD files

    def has_block(self, name, block):
        return block in self.images[name].slots if is_vhd(name) else block * self.block < self.images[name].size

    def file(self, disk, stamp):
        """The file that a disk is exported as: footer, header, table, and each block that an image of its chain has, in rising order."""
        name = self.own(disk)
        size = self.images[name].size
        blocks = size // self.block
        there = [block for block in range(blocks) if any(self.has_block(image, block) for image in self.chain(name))]
        front = 3 + up(blocks, 128)
        entries = [0xFFFFFFFF] * (128 * up(blocks, 128))
        for count, block in enumerate(there):
            entries[block] = front + count * (1 + self.block)
        footer = vhd_footer(size, bytes.fromhex(disk.replace("-", "")), stamp)
        parts = [footer, vhd_header(blocks, self.block * 512), struct.pack(f">{len(entries)}I", *entries)]
        for block in there:
            parts.append((b"\xff" * (self.block // 8)).ljust(512, b"\0"))
            parts += [self.read_sector(name, sector) for sector in range(block * self.block, (block + 1) * self.block)]
        return b"".join([*parts, footer])

    # ---- what stands

    def list(self):
        rows = [
            f"{uuid},{self.images[self.own(uuid)].size * 512},{'ro' if disk.read_only else 'rw'},{disk.origin or '-'},{disk.label}"
            for uuid, disk in sorted(self.disks.items())
        ]
        return " ".join(["ok", str(len(rows)), *rows])

    def stat(self):
        uses = [name for disk in self.attached for name in self.chain(self.own(disk))]
        rows = [
            f"{name},{'h' if image.hidden else 'v'},{image.parent or '-'},{image.size * 512},{len(image.slots)},{image.extents},{uses.count(name)}"
            for name, image in sorted(self.images.items())
        ]
        operation = ",".join(map(str, self.operation)) if self.operation else "none"
        operation += f",{len(self.dirty)}" if operation.startswith("live") else ""
        return " ".join(["ok seq", str(self.sequence), "free", str(self.free()), "op", operation, "images", str(len(rows)), *rows])

    # ---- the collector

    def target(self, child, parent):
        """The extents of the parent once the child is folded into it: those for all blocks where a guest writes to the child."""
        above, below = self.images[child], self.images[parent]
        if not is_vhd(parent):
            return below.extents
        if self.is_written(child):
            return max(below.extents, self.thick(above.size))
        return max(below.extents, self.thin(max(below.top(), len(set(below.slots) | set(above.slots)))))

    def begin(self, kind, child, parent):
        below = self.images[parent]
        target = self.target(child, parent)
        if target > below.extents:
            self.commit(3)
        below.extents, below.size = target, self.images[child].size
        self.operation, self.dirty = (kind, child, parent, 0), set()
        self.commit(1)

    def copy(self, kind, child, parent, block):
        above, below = self.images[child], self.images[parent]
        if is_vhd(parent):
            below.give(block)
        below.sectors.update({place: data for place, data in above.sectors.items() if place // self.block == block})
        self.dirty.discard(block)
        self.operation = (kind, child, parent, max(self.operation[3], block + 1))
        return f"ok gc copy {child} {block}"

    def go_on(self):
        """The next step of the operation that runs."""
        kind, child, parent = self.operation[:3]
        if kind == "relink":
            children = self.children(child)
            if children:
                self.images[children[0]].parent = parent
                return f"ok gc relink {children[0]}"
            self.operation = None
            self.commit(1)
            return f"ok gc finish {child}"
        if kind == "copy" and not self.children(child):
            self.operation = None
            self.commit(1)
            return f"ok gc abandon {child}"
        left = [block for block in self.images[child].slots if block >= self.operation[3]]
        if left:
            return self.copy(kind, child, parent, min(left))
        if kind == "live" and len(self.dirty) > 16:
            return self.copy(kind, child, parent, min(self.dirty))
        for block in sorted(self.dirty):
            self.copy(kind, child, parent, block)
        if kind == "copy":
            self.operation = ("relink", child, parent)
            self.commit(1)
            return f"ok gc turn {child}"
        self.images[child] = self.images.pop(parent)
        self.images[child].hidden = False
        self.operation = None
        self.commit(5)
        return f"ok gc swap {child}"

    def is_pair(self, name):
        """A hidden image with children, whose parent has no other child, and is a VHD image or as large."""
        image = self.images[name]
        if not (is_vhd(name) and image.hidden and image.parent and self.children(name)):
            return False
        return len(self.children(image.parent)) == 1 and (is_vhd(image.parent) or self.images[image.parent].size == image.size)

    def is_leaf(self, name):
        """A disk's VHD image whose parent is a VHD image and has no other child."""
        image = self.images[name]
        if image.hidden or not is_vhd(name) or not image.parent:
            return False
        return is_vhd(image.parent) and len(self.children(image.parent)) == 1

    def is_idle_leaf(self, name):
        return self.is_leaf(name) and uuid_of(name) not in self.attached

    def is_live_leaf(self, name):
        return self.is_leaf(name) and uuid_of(name) in self.attached

    def tidy(self):
        """A hidden image without children goes; one that has more extents than it needs is cut."""
        for name, image in sorted(self.images.items()):
            if image.hidden and not self.children(name):
                del self.images[name]
                self.commit(1)
                return f"ok gc remove {name}"
        for name, image in sorted(self.images.items()):
            if is_vhd(name) and not self.is_written(name) and image.extents > self.thin(image.top()):
                image.extents = self.thin(image.top())
                self.commit(1)
                return f"ok gc deflate {name}"
        return None

    def gc(self):
        if self.operation:
            return self.go_on()
        done = self.tidy()
        if done:
            return done
        needs = []
        for word, kind, fits in (("begin", "copy", self.is_pair), ("leaf", "leaf", self.is_idle_leaf), ("live", "live", self.is_live_leaf)):
            for name in sorted(filter(fits, self.images)):
                parent = self.images[name].parent
                need = self.target(name, parent) - self.images[parent].extents
                if need <= self.free():
                    self.begin(kind, name, parent)
                    return f"ok gc {word} {name}"
                needs.append(need)
        return f"ok gc blocked need {min(needs)} free {self.free()}" if needs else "ok gc idle"


def geometry(sectors):
    """Cylinders, heads and sectors of a track, by the appendix of the VHD specification."""
    sectors = min(sectors, 65535 * 16 * 255)
    track, heads = 255, 16
    if sectors < 65535 * 16 * 63:
        track = 17
        heads = max(4, up(sectors // track, 1024))
        for longer in (31, 63):
            if sectors // track >= heads * 1024 or heads > 16:
                track, heads = longer, 16
    return sectors // track // heads, heads, track


def summed(data, at):
    """The bytes with their checksum at its place: the complement of the sum of all others."""
    return data[:at] + struct.pack(">I", ~sum(data) % 2**32) + data[at + 4 :]


def vhd_footer(sectors, unique_id, stamp):
    size = sectors * 512
    fields = b"conectix" + struct.pack(">IIQI4sIIQQHBBII", 2, 0x10000, 512, stamp, b"lvhd", 0x10000, 0, size, size, *geometry(sectors), 3, 0)
    return summed((fields + unique_id).ljust(512, b"\0"), 64)


def vhd_header(blocks, block):
    fields = b"cxsparse" + struct.pack(">QQIIII", 2**64 - 1, 1536, 0x10000, blocks, block, 0)
    return summed(fields.ljust(1024, b"\0"), 36)


DISKS = [f"00000000-0000-4000-8000-0000000000{number:02d}" for number in range(8)]
SPARE = "00000000-0000-4000-8000-000000000099"


def random_line(draw, disk):
    """A line, most of them on this disk; each kind of line comes as often as its weight says."""
    weights = {
        "create": 5, "snapshot": 2, "clone": 1, "delete": 1, "attach rw": 3, "attach ro": 1, "detach": 2, "resize": 1, "fill": 6, "write": 1,
        "read": 4, "flush": 1, "gc": 4, "stat": 1, "list": 1, "label": 1,
    }
    kind = draw.choices(list(weights), list(weights.values()))[0]
    other, byte = draw.choice(DISKS), f"{draw.randrange(256):02x}"
    sector, count = draw.randrange(140), draw.randint(1, 16)
    rest = {
        "create": f"{disk} {4096 * draw.randint(1, 20)} {draw.choice(['vhd', 'vhd', 'vhd', 'raw'])} t{byte}",
        "snapshot": f"{disk} {other}", "clone": f"{disk} {other}", "attach rw": f"{disk} rw", "attach ro": f"{disk} ro",
        "resize": f"{disk} {4096 * draw.randint(1, 24)}", "fill": f"{disk} {sector} {count} {byte}",
        "write": f"{disk} {sector} {byte * 512 * draw.randint(1, 2)}", "read": f"{disk} {sector} {count}", "label": f"{disk} l{byte}",
        "gc": "", "stat": "", "list": "",
    }.get(kind, disk)
    return f"{kind.split()[0]} {rest}".rstrip()


def leaf_lines(draw):
    """Lines after which a detached disk alone reads through its base, so that its leaf is folded; then one on this disk, perhaps."""
    disk = draw.choice(DISKS)
    fills = [f"fill {disk} {draw.randrange(24)} {draw.randint(1, 16)} {draw.randrange(256):02x}" for _ in range(3)]
    gives_up = [f"attach {disk} rw", f"attach {disk} ro", f"snapshot {disk} {SPARE}", f"clone {disk} {SPARE}", f"resize {disk} {4096 * draw.randint(8, 24)}", f"delete {disk}"]
    return [
        f"create {disk} {4096 * draw.randint(8, 20)} vhd leaf", f"attach {disk} rw", fills[0], f"{draw.choice(['snapshot', 'clone'])} {disk} {SPARE}", *fills[1:],
        f"detach {disk}", f"delete {SPARE}", *["gc"] * draw.randint(2, 7), "stat", draw.choice(gives_up + ["gc"] * 4), "stat", *["gc"] * draw.randint(1, 6),
        f"attach {disk} ro", f"read {disk} 0 40", f"detach {disk}",
    ]


def live_lines(draw):
    """Lines under which the leaf of a disk that stays attached is folded while its guest writes. Either that goes on, and all blocks are written
    at the end of it; or it is given up at times and begun anew."""
    disk, goes_on, mode = draw.choice(DISKS), draw.randrange(2) == 0, draw.choice(["rw", "rw", "rw", "ro"])
    blocks = draw.choice([18, 21, 24] if goes_on else [8, 12, 18])

    def fill():
        return f"fill {disk} {draw.randrange(8 * blocks - 16)} {draw.randint(1, 16)} {draw.randrange(256):02x}"

    def whole():
        return f"fill {disk} 0 {8 * blocks} {draw.randrange(256):02x}"

    def gives_up():
        words = ["detach", "detach", f"snapshot {SPARE}", f"clone {SPARE}", f"resize {4096 * (blocks + draw.randint(0, 4))}", "delete", "attach ro", "resize 4096"]
        word, _, rest = draw.choice(words).partition(" ")
        return [f"{word} {disk} {rest}".rstrip(), "stat", f"attach {disk} {mode}", f"delete {SPARE}"]

    yield from [f"delete {disk}", f"create {disk} {4096 * blocks} vhd live", f"attach {disk} rw", fill(), f"snapshot {disk} {SPARE}", f"delete {SPARE}"]
    yield from [whole() if goes_on else fill(), f"detach {disk}", f"attach {disk} {mode}"]
    for step in range(blocks + draw.randint(-2, 4) if goes_on else draw.randint(2, 12)):
        yield "gc"
        if draw.randrange(3) == 0:
            yield fill()
        if not goes_on and draw.randrange(6) == 0:
            yield from gives_up()
    yield from [whole() if goes_on else fill(), "stat", *["gc"] * draw.randint(0, 4), "stat", *["gc"] * draw.randint(1, 6)]
    yield from [f"read {disk} 0 {min(128, 8 * blocks)}", f"detach {disk}"]


def random_lines(draw):
    """Single lines, and those of folded leaves, of detached and of attached disks, with single ones in between."""
    while True:
        kind = draw.randrange(20)
        lines = leaf_lines(draw) if kind == 0 else live_lines(draw) if kind == 1 else [""]
        for line in lines:
            if not line or draw.randrange(12) == 0:
                yield random_line(draw, draw.choice(DISKS))
            if line:
                yield line


def tracked_lines(draw):
    """Lines under which a disk is tracked and written, snapshots of it are taken, and of one of these at times, and some are deleted. Between any two
    of these disks it is asked what changed, and at times tracking ends and begins anew in between."""
    disk, *twins = draw.sample(DISKS, draw.randint(3, 6))
    blocks, kind = draw.randint(8, 64), draw.choice(["vhd", "vhd", "vhd", "raw"])

    def gone(one):
        return [f"detach {one}", f"delete {one}"]

    def asked(count):
        return [f"changed {draw.choice(there)} {draw.choice(there)}" for _ in range(count)]

    there = [disk]
    yield from [*gone(disk), f"create {disk} {4096 * blocks} {kind} tracked", f"cbt {disk} on", f"attach {disk} rw"]
    for twin in twins:
        for _ in range(draw.randrange(3)):
            yield f"fill {disk} {draw.randrange(8 * blocks)} {draw.randint(1, 24)} {draw.randrange(256):02x}"
        yield from [*gone(twin), f"snapshot {disk if draw.randrange(6) else draw.choice(there)} {twin}"]
        there.append(twin)
        yield from [*asked(2), *["gc"] * draw.randrange(4)]
    yield from [*asked(4), f"fill {disk} {draw.randrange(8 * blocks)} 1 {draw.randrange(256):02x}", *asked(2), *gone(draw.choice(twins)), *asked(4)]
    if draw.randrange(3) == 0:
        yield from [f"cbt {disk} off", *asked(3), f"cbt {disk} on", *asked(3)]
    yield from [f"detach {disk}", *["gc"] * draw.randint(4, 24)]


def lines_with_tracking(draw):
    """Those of random_lines, among them single lines on tracked disks and runs of them."""
    others = random_lines(draw)
    while True:
        kind = draw.randrange(16)
        if kind == 0:
            for line in tracked_lines(draw):
                yield line
                if draw.randrange(16) == 0:
                    yield next(others)
        elif kind < 3:
            one, other = draw.choice(DISKS), draw.choice(DISKS)
            yield draw.choice([f"cbt {one} on", f"cbt {one} on", f"cbt {one} off", f"changed {one} {other}", f"changed {one} {other}", f"cbt {one}"])
        else:
            yield next(others)


def trial_lines(number):
    """The 20,000 lines that a trial draws from its number."""
    state = number

    def draw(below):
        nonlocal state
        state = (state * 6364136223846793005 + 1442695040888963407) % 2**64
        return (state >> 33) % below

    def size():
        return 4096 * (1 + draw(64))

    def disk():
        return f"00000000-0000-4000-8000-0000000000{draw(12):02d}"

    for _ in range(20000):
        kind, one = draw(16), disk()
        if kind == 0:
            yield f"create {one} {size()} vhd t"
        elif kind in (1, 2):
            yield f"{'snapshot' if kind == 1 else 'clone'} {one} {disk()}"
        elif kind in (4, 5):
            yield f"attach {one} {'rw' if kind == 4 else 'ro'}"
        elif kind == 7:
            yield f"resize {one} {size()}"
        elif kind in (8, 9, 10):
            sector, count = draw(512), 1 + draw(16)
            yield f"fill {one} {sector} {count} {draw(256):02x}"
        elif kind == 11:
            sector = draw(512)
            yield f"read {one} {sector} {1 + draw(4)}"
        elif kind in (3, 6, 12):
            yield f"{ {3: 'delete', 6: 'detach', 12: 'flush'}[kind]} {one}"
        else:
            yield "gc"


def trial(number):
    """The one line that a trial prints, on 20,480 sectors."""
    machine = Machine(16384, 4096, 64, 20480)
    replies = [machine.answer(line) for line in trial_lines(number)]
    accepted = sum(reply.startswith("ok") for reply in replies)
    total = sum(sum(reply.encode()) + ord("\n") for reply in replies)
    disks, images, free = len(machine.disks), len(machine.images), machine.free()
    return f"trial {number} lines 20000 ok {accepted} no {20000 - accepted} disks {disks} images {images} free {free} sum {total}"


def main():
    if sys.argv[1] == "trial":
        print(trial(int(sys.argv[2])))
        return
    if sys.argv[1] in ("script", "tracked"):
        lines = random_lines if sys.argv[1] == "script" else lines_with_tracking
        for line in itertools.islice(lines(random.Random(int(sys.argv[2]))), int(sys.argv[3])):
            print(line)
        return
    machine = Machine(*map(int, sys.argv[2:6]))
    replies = [machine.answer(line) for line in sys.stdin.read().split("\n")[:-1]]
    if sys.argv[1] == "files":
        for disk in machine.disks:
            pathlib.Path(sys.argv[6], f"{disk}.vhd").write_bytes(machine.file(disk, 0))
        return
    if sys.argv[1] == "logs":
        for disk, log in sorted(machine.logs.items()):
            pieces = "".join("1" if piece in log.pieces else "0" for piece in range(machine.piece_count(disk)))
            print(f"{disk}: number {log.tag}, since {log.since}, pieces {pieces}")
        return
    for reply in replies:
        print(reply)


main()

#!/usr/bin/env python3
"""Reads a dynamic VHD file as the public standard says (Virtual Hard Disk Image Format Specification 1.0), whoever made it.

    vhd.py shown FILE       what footer, header and table say
    vhd.py raw FILE         the guest's bytes
    vhd.py unstamped FILE   the file with the stamp 0 in its footers
    vhd.py fixed FILE       a fixed VHD file of a guest's bytes
    vhd.py taken FREE FILE  what an import answers to the file, in a repository with extents of 32 sectors, blocks of 8 and 64 entries
                            and so many free extents: the guest's bytes, or the refusal on standard error
    vhd.py wrong N FILE     the file with one thing in it changed, of which the number N draws what
"""
import pathlib
import random
import struct
import sys

NOT_THERE = 0xFFFFFFFF


def checked(data, at):
    """Whether the checksum at this place is the complement of the sum of all other bytes."""
    return struct.unpack_from(">I", data, at)[0] == ~(sum(data) - sum(data[at : at + 4])) % 2**32


def unstamped(footer):
    """A footer with the stamp 0, and the checksum that it has then."""
    checksum = (struct.unpack_from(">I", footer, 64)[0] + sum(footer[24:28])) % 2**32
    return footer[:24] + bytes(4) + footer[28:64] + struct.pack(">I", checksum) + footer[68:]


class File:
    def __init__(self, data):
        self.data = data
        self.footer = self.sectors(0, 1)
        assert self.footer[:8] == b"conectix" and checked(self.footer, 64), "the first sector is no footer"
        assert self.sectors(len(data) // 512 - 1, 1) == self.footer, "the last sector is another footer"
        self.size, self.kind = struct.unpack_from(">Q", self.footer, 48)[0], struct.unpack_from(">I", self.footer, 60)[0]
        header = self.header = self.data[self.unpacked(">Q", 16) :][:1024]
        assert header[:8] == b"cxsparse" and checked(header, 36), "there is no header"
        table, self.entries, self.block = struct.unpack_from(">Q", header, 16)[0], *struct.unpack_from(">II", header, 28)
        self.table = struct.unpack_from(f">{self.entries}I", data, table)

    def unpacked(self, form, at):
        return struct.unpack_from(form, self.footer, at)[0]

    def sectors(self, place, count):
        return self.data[place * 512 : (place + count) * 512]

    def sector(self, number):
        """A sector of the guest: where its block is there and its bit is set what stands there, else zeros."""
        block, within = divmod(number, self.block // 512)
        place, bits = self.table[block], up(self.block // 512 // 8, 512)
        if place == NOT_THERE or not self.sectors(place, bits)[within // 8] & 0x80 >> within % 8:
            return bytes(512)
        return self.sectors(place + bits + within, 1)

    def raw(self):
        return b"".join(self.sector(number) for number in range(self.size // 512))


def up(number, unit):
    return -(-number // unit)


def shown(file):
    yield f"{len(file.data)} bytes, {len(file.data) // 512} sectors"
    yield f"type {file.kind}, size {file.size}, unique id {file.footer[68:84].hex()}, checksum with the stamp 0 {unstamped(file.footer)[64:68].hex()}"
    yield f"{file.entries} entries, blocks of {file.block} bytes, checksum {file.header[36:40].hex()}"
    yield "table " + " ".join("-" if place == NOT_THERE else str(place) for place in file.table)


def summed(data, at):
    """The bytes with their checksum at its place: the complement of the sum of all others."""
    rest = data[:at] + bytes(4) + data[at + 4 :]
    return data[:at] + struct.pack(">I", ~sum(rest) % 2**32) + data[at + 4 :]


def fixed(data):
    fields = b"conectix" + struct.pack(">IIQI4sIIQQIII", 2, 0x10000, 2**64 - 1, 0, b"test", 0, 0, len(data), len(data), 0, 2, 0)
    return data + summed(fields.ljust(512, b"\0"), 64)


# ---- what an import answers, by the tests of footer, header and table in their order

EXTENT, BLOCK, ENTRIES = 32, 8, 64


class Refused(Exception):
    pass


def footer_at(sector):
    """Type and size in bytes of a sector that reads as a footer, else None."""
    if sector[:8] != b"conectix" or not checked(sector, 64):
        return None
    version, offset, size, kind = struct.unpack_from(">IQ", sector, 12) + struct.unpack_from(">Q", sector, 48) + struct.unpack_from(">I", sector, 60)
    good = version == 0x10000 and size and size % 512 == 0 and kind in (2, 3, 4) and (kind == 2 or offset == 512)
    return (kind, size) if good else None


def is_volume(name):
    text = name.decode("utf-16-be", "replace").rstrip("\0")
    kind, _, uuid = text.partition("-")
    digits = uuid.split("-")
    shape = [len(part) for part in digits] == [8, 4, 4, 4, 12] and all(c in "0123456789abcdef" for part in digits for c in part)
    return kind in ("VHD", "LV") and shape and name == text.encode("utf-16-be").ljust(512, b"\0")


def header_of(header):
    """First sector of the table, its entries, the sectors of a block, and whether a parent is named, else None."""
    if header[:8] != b"cxsparse" or not checked(header, 36):
        return None
    table, version, entries, block = struct.unpack_from(">QIII", header, 16)
    parent = header[64:576]
    good = version == 0x10000 and table % 512 == 0 and table >= 1536 and 1 <= entries <= 1044480 and block in [2**n for n in range(12, 22)]
    return (table // 512, entries, block // 512, any(parent)) if good and (not any(parent) or is_volume(parent)) else None


class Taken:
    """A disk that is made of a file, sector by sector."""

    def __init__(self, free):
        self.free, self.disk, self.slots = free, {}, set()
        self.ask(self.thin(0), 0)

    def thin(self, slots):
        return up(3 + up(ENTRIES, 128) + slots * (1 + BLOCK) + 1, EXTENT)

    def ask(self, need, had):
        if need - had > self.free - had:
            raise Refused(f"NoSpace need {need - had} free {self.free - had}")

    def put(self, sector, data):
        if any(data) and sector // BLOCK not in self.slots:
            self.ask(self.thin(len(self.slots) + 1), self.thin(len(self.slots)))
            self.slots.add(sector // BLOCK)
        self.disk[sector] = data


def too_large(sectors):
    return up(sectors, BLOCK) > ENTRIES


def taken(data, free):
    """The guest's bytes of a file, in whole blocks of the repository."""
    count = len(data) // 512
    sectors = [data[512 * k :][:512] for k in range(count)]
    if not count:
        raise Refused("Cut sector 0")
    kind, size = footer_at(sectors[0]) or (0, 0)
    if kind == 4:
        raise Refused("Differencing")
    made, size = taken_dynamic(data, sectors, size // 512, free) if kind == 3 else taken_fixed(data, sectors, free)
    return b"".join(made.disk.get(k, bytes(512)) for k in range(up(size, BLOCK) * BLOCK))


def taken_fixed(data, sectors, free):
    made = Taken(free)
    for k in range(1, len(sectors)):
        if too_large(k):
            raise Refused("BadSize")
        made.put(k - 1, sectors[k - 1])
    if len(data) % 512:
        raise Refused(f"Cut sector {len(sectors)}")
    if footer_at(sectors[-1]) != (2, 512 * (len(sectors) - 1)):
        raise Refused(f"BadFile sector {len(sectors) - 1}")
    return made, len(sectors) - 1


def taken_dynamic(data, sectors, size, free):
    if too_large(size):
        raise Refused("BadSize")
    made = Taken(free)
    if len(sectors) < 3:
        raise Refused(f"Cut sector {len(sectors)}")
    header = header_of(sectors[1] + sectors[2])
    if header is None:
        raise Refused("BadFile sector 1")
    table, entries, block, parent = header
    if up(size, block) > entries:
        raise Refused("BadFile sector 0")
    if parent:
        raise Refused("BadFile sector 1")
    end = table + up(entries, 128)
    there = struct.unpack(f">{128 * max(0, min(end, len(sectors)) - table)}I", b"".join(sectors[table:end]))[: up(size, block)]
    places = sorted((place, b) for b, place in enumerate(there) if place != NOT_THERE)
    if any(place < end for place, _ in places) or any(b[0] <= a[0] + block for a, b in zip(places, places[1:])):
        raise Refused(f"BadFile sector {table}")
    if len(sectors) < end:
        raise Refused(f"Cut sector {len(sectors)}")
    for place, b in places:
        for i in range(block):
            if place + 1 + i >= len(sectors):
                raise Refused(f"Cut sector {len(sectors)}")
            if sectors[place][i // 8] & 0x80 >> i % 8 and b * block + i < size:
                made.put(b * block + i, sectors[place + 1 + i])
    if len(data) % 512:
        raise Refused(f"Cut sector {len(sectors)}")
    return made, size


def wrong(number, data):
    """A file with one thing changed: cut, a byte, or a field with the sum over it made right."""
    draw = random.Random(number)
    what = draw.randrange(6)
    if what == 0:
        return data[: draw.randrange(len(data))]
    if what == 1:
        at = draw.randrange(len(data))
        return data[:at] + bytes([draw.randrange(256)]) + data[at + 1 :]
    if what == 2:
        at, value = draw.choice([(12, b"\0\2\0\0"), (16, struct.pack(">Q", 1024)), (48, struct.pack(">Q", draw.choice([0, 511, 512, 4096, 262144, 262656]))), (60, struct.pack(">I", draw.randrange(6)))])
        return summed(data[:at] + value + data[at + len(value) : 512], 64) + data[512:]
    if what == 3:
        at, value = draw.choice([(16, struct.pack(">Q", draw.choice([512, 1536, 2048, 2560, 1537]))), (28, struct.pack(">I", draw.choice([0, 1, 15, 16, 17, 129, 2**32 - 1]))), (32, struct.pack(">I", draw.choice([2048, 4096, 8192, 2**21, 2**22]))), (64, "VHD-11111111-1111-4111-8111-111111111111".encode("utf-16-be")), (64, b"x")])
        return data[:512] + summed(data[512 : 512 + at] + value + data[512 + at + len(value) : 1536], 36) + data[1536:]
    if what == 4:
        at = 1536 + 4 * draw.randrange(16)
        return data[:at] + struct.pack(">I", draw.choice([0, 3, 4, 5, 12, 13, 14, draw.randrange(40), NOT_THERE])) + data[at + 4 :]
    return data + bytes(draw.choice([1, 511, 512, 5120]))


def main():
    if sys.argv[1] in ("fixed", "taken", "wrong"):
        data = pathlib.Path(sys.argv[-1]).read_bytes()
        try:
            made = {"fixed": lambda: fixed(data), "taken": lambda: taken(data, int(sys.argv[2])), "wrong": lambda: wrong(int(sys.argv[2]), data)}[sys.argv[1]]()
        except Refused as why:
            sys.exit(f"error {why}")
        sys.stdout.buffer.write(made)
        return
    file = File(pathlib.Path(sys.argv[2]).read_bytes())
    if sys.argv[1] == "shown":
        print(*shown(file), sep="\n")
    elif sys.argv[1] == "raw":
        sys.stdout.buffer.write(file.raw())
    else:
        sys.stdout.buffer.write(unstamped(file.footer) + file.data[512:-512] + unstamped(file.footer))


main()

#!/usr/bin/env python3
"""Damages a repository in one place: damage.py FILE PLACE. Sums that an opening tests earlier are made right, so that it goes on to this place.
`sequence` is no damage: it sets the sequence number to the first that is too high for a new image. `old` is none either: it writes a repository of
the narrow layout, whose text is short enough, as one of version 1, and puts zeros where that has nothing. Nor are `apart` and `dealt`: they deal all extents
out, each second one or each one, to VHD images without blocks that have one extent each, so that no two of an image are neighbours. Nor is `track`: it makes the
log of the first disk, of four pieces in which no bit is set; `logs` prints what the logs are read as, `marks` sets each bit of the first sector of bits of the first
disk's log, `strays` makes a log of a disk that is not there, and one that is new, and `circle` has the logs of the second and the third disk begun where the
other was taken, and sets the third's bits. `log` and the places that begin with it are of the first disk's log."""
import struct
import sys

ABSENT = b"55555555-5555-4555-8555-555555555555"
# By version and layout: the sector of the table header, those at which the two slots begin, and that at which the extents do.
OLD = (1, (2, 1026), 4096)
NARROW, WIDE = (2050, (2051, 2), 4096), (2050, (4096, 20736), 37376)


def total(data):
    return sum(data) & 0xFFFFFFFF


def sealed(sector):
    """A sector with the sum of its first 508 bytes behind them."""
    return sector[:508] + struct.pack(">I", total(sector[:508]))


def segments(extents):
    """Extents as the fewest pairs of a first extent and how many follow one another from it on."""
    pairs = []
    for extent in extents:
        if pairs and sum(pairs[-1]) == extent:
            pairs[-1][1] += 1
        else:
            pairs.append([extent, 1])
    return pairs


def log_head(tag, since, pieces):
    """The first sector of a log: letters, its number, that since which it has bits, and how many pieces it has, with the sum of all that."""
    return sealed(b"LVHDCBTL" + struct.pack(">QQI", tag, since, pieces) + bytes(484))


class Repository:
    """A label, a table header, and the table that it names: a sequence number, and volumes with name, flags (1 hidden, 2 new) and extents."""

    def __init__(self, path):
        self.file = open(path, "r+b")
        label = self.get(0)
        self.version, layout = struct.unpack(">I", label[8:12])[0], struct.unpack(">I", label[44:48])[0]
        self.extent, _, _, self.count = struct.unpack(">4I", label[28:44])
        self.header, slots, self.area = OLD if self.version == 1 else WIDE if layout else NARROW
        slot, length = struct.unpack(">II", self.get(self.header)[8:16])
        self.slot = slots[slot]
        text = self.get(self.slot, -(-length // 512))[:length]
        self.sequence, count = struct.unpack(">QI", text[:12])
        self.volumes, at = {}, 12
        for _ in range(count):
            end = at + 1 + text[at]
            flags, many = struct.unpack(">BI", text[end : end + 5])
            size = 4 * many if self.version == 1 else 8 * many
            numbers = struct.unpack(f">{size // 4}I", text[end + 5 : end + 5 + size])
            extents = numbers if self.version == 1 else [extent for first, count in zip(numbers[::2], numbers[1::2]) for extent in range(first, first + count)]
            self.volumes[text[at + 1 : end]] = [flags, list(extents)]
            at = end + 5 + size

    def get(self, sector, count=1):
        self.file.seek(512 * sector)
        return self.file.read(512 * count)

    def put(self, sector, data):
        self.file.seek(512 * sector)
        self.file.write(data)

    def change(self, sector, at, data, seal=lambda sector: sector):
        old = self.get(sector)
        self.put(sector, seal(old[:at] + data + old[at + len(data) :]))

    def spelled(self, extents):
        """Extents as the version spells them: one by one, or by segments."""
        pieces = [(extent,) for extent in extents] if self.version == 1 else segments(extents)
        return struct.pack(">I", len(pieces)) + b"".join(struct.pack(f">{len(piece)}I", *piece) for piece in pieces)

    def commit(self):
        """Writes the table over the one that stands, and its length and sum into the header."""
        text = struct.pack(">QI", self.sequence, len(self.volumes))
        for name, (flags, extents) in sorted(self.volumes.items()):
            text += struct.pack(f">B{len(name)}sB", len(name), name, flags) + self.spelled(extents)
        self.put(self.slot, text)
        self.change(self.header, 12, struct.pack(">II", len(text), total(text)), sealed)

    def become_old(self):
        """The same repository as version 1 has it, its table in slot 0."""
        assert self.area == 4096, "version 1 has the narrow layout alone"
        header = self.get(self.header)
        self.put(1, bytes(512 * 4095))
        self.version, (self.header, (self.slot, _), _) = 1, OLD
        self.put(self.header, header[:8] + bytes(4) + header[12:])
        self.commit()
        self.change(0, 8, struct.pack(">I", 1), sealed)

    def deal(self, step):
        """Gives all images, of one extent each, as many extents as there are: from behind the records on each `step`-th is dealt out to them in turn.
        The first has what the one had, and the last sector of the last the footer."""
        images = [volume for name, volume in sorted(self.volumes.items()) if name != b"MGT"]
        begins = [self.area + self.extent * extent for _, (extent,) in images]
        fronts = [self.get(sector, self.extent) for sector in begins]
        for sector in begins:
            self.put(sector, bytes(512 * self.extent))
        first = len(self.volumes[b"MGT"][1]) + step - 1
        many = (self.count - first) // (step * len(images))
        for number, (volume, front) in enumerate(zip(images, fronts)):
            volume[1] = [first + step * (number + len(images) * turn) for turn in range(many)]
            self.put(self.area + self.extent * volume[1][0], front)
            self.put(self.area + self.extent * (volume[1][-1] + 1) - 1, front[:512])
        self.commit()

    def add_log(self, disk, pieces, flags=0, tag=0, since=0):
        """Makes the log of a disk on the first free extent."""
        used = {extent for _, extents in self.volumes.values() for extent in extents}
        extent = next(extent for extent in range(self.count) if extent not in used)
        self.volumes[b"CBT-" + disk] = [flags, [extent]]
        self.put(self.area + self.extent * extent, log_head(tag, since, pieces) + bytes(512))

    def logs(self):
        """Of each log the disk, the two numbers, and a digit for each piece."""
        for name in sorted(name for name in self.volumes if name[:4] == b"CBT-"):
            head, bits = self.get(self.sector_of(name)), self.get(self.sector_of(name) + 1)
            _, tag, since, pieces = struct.unpack(">8sQQI", head[:28])
            assert head == log_head(tag, since, pieces), "no head"
            digits = "".join(str(bits[piece // 8] >> 7 - piece % 8 & 1) for piece in range(pieces))
            print(f"{name[4:].decode()}: number {tag}, since {since}, pieces {digits}")

    def volume(self, front):
        """The first volume whose name begins so."""
        return next(volume for name, volume in sorted(self.volumes.items()) if name.startswith(front))

    def sector_of(self, front):
        return self.area + self.extent * self.volume(front)[1][0]


def damage(it, place):
    if place == "label":
        it.change(0, 100, b"\1")
    elif place == "version":
        it.change(0, 8, struct.pack(">I", 3), sealed)
    elif place == "layout":
        it.change(0, 44, struct.pack(">I", 2), sealed)
    elif place == "old":
        it.become_old()
    elif place in ("apart", "dealt"):
        it.deal(2 if place == "apart" else 1)
    elif place == "header":
        it.change(it.header, 100, b"\1")
    elif place == "sum":
        it.change(it.slot, 7, bytes([(it.sequence + 1) % 256]))
    elif place == "record":
        it.change(it.sector_of(b"MGT"), 200, b"\1")
    elif place == "disk":
        it.put(it.sector_of(b"MGT"), bytes(512))
    elif place == "logs":
        it.logs()
    elif place in ("marks", "log", "log-sum", "log-number", "log-since", "log-twice"):
        change_log(it, place, it.sector_of(b"CBT-1"))
    elif place == "circle":
        second, third = it.sector_of(b"CBT-2"), it.sector_of(b"CBT-3")
        it.change(second, 16, it.get(third)[8:16], sealed)
        it.put(third + 1, b"\xff" * 512)
    elif place == "image":
        it.put(it.sector_of(b"VHD-1") + 1, bytes(512))
    else:
        change_table(it, place)
        it.commit()


def change_log(it, place, first):
    """Changes the first disk's log: its bits, its pieces, its head beside the sum, one of its numbers to one that is not yet used, or its number to the second log's."""
    if place == "marks":
        it.put(first + 1, b"\xff" * 512)
    elif place == "log":
        it.change(first, 27, b"\5", sealed)
    elif place == "log-sum":
        it.change(first, 100, b"\1")
    elif place == "log-twice":
        it.change(first, 8, it.get(it.sector_of(b"CBT-2"))[8:16], sealed)
    else:
        it.change(first, 8 if place == "log-number" else 16, struct.pack(">Q", it.sequence), sealed)


def change_table(it, place):
    if place == "sequence":
        it.sequence = 2**48 - 16
    elif place == "text":
        it.volume(b"LV-")[0] = 4
    elif place in ("mgt", "log-short"):
        it.volume(b"MGT" if place == "mgt" else b"CBT-")[1].pop()
    elif place == "images":
        used = {extent for _, extents in it.volumes.values() for extent in extents}
        free = [extent for extent in range(it.count) if extent not in used]
        for number in range(501 - sum(name[:2] in (b"VH", b"LV") for name in it.volumes)):
            it.volumes[b"LV-00000000-0000-4000-8000-%012d" % number] = [0, [free[number]]]
    elif place == "track":
        it.add_log(b"11111111-1111-4111-8111-111111111111", 4)
    elif place == "strays":
        it.add_log(ABSENT, 1, 0, 900)
        it.add_log(ABSENT[:-1] + b"6", 1, 2)
    elif place == "journal":
        it.volumes[b"inflate_" + ABSENT + b"_1"] = [0, []]
    elif place == "tree":
        it.volume(b"VHD-6c766864")[0] = 0


damage(Repository(sys.argv[1]), sys.argv[2])

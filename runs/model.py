#!/usr/bin/env python3
"""What `cckdrun` and `dasdinit` have to answer and to leave, by the rules of docs/FORMAT.md, docs/SPACE.md and docs/COMMANDS.md.

The rows take the files that a script leaves from here, so that no row is copied from the program. It knows nothing of stops, faults of
the disk and scripts past their limit, and keeps everything in the plainest form: free space is what nothing holds.

    runs/run runs/model.py writing/ mounting/      tries rows on this model, as though it were the program
"""

import os
import re
import struct
import sys
from dataclasses import dataclass, field

GROUP = 256
TABLE = 8 * GROUP
HEADERS = 1024
LAST_WORD = 0xFFFFFFFF
FORMAT_LIMIT = 2**31 - 8
OPEN = 0x80
END_MARK = b"\xff" * 8
MOST_STAGED = 256


def up8(number):
    return -(-number // 8) * 8


class Refused(Exception):
    """A refusal, whose text stands behind `refused: `."""


# ---- tracks


def count_of(cylinder, head, record, data):
    return struct.pack(">HHBBH", cylinder, head, record, 0, data)


def home_of(cylinder, head):
    return struct.pack(">BHH", 0, cylinder, head)


def filled(cylinder, head, length, byte):
    """The track of `fill`: record zero, and one record of so many bytes."""
    start = home_of(cylinder, head) + count_of(cylinder, head, 0, 8) + bytes(8)
    return start + count_of(cylinder, head, 1, length) + bytes([byte]) * length + END_MARK


def null_track(cylinder, head, form):
    if form == 0:
        return filled(cylinder, head, 0, 0)
    return home_of(cylinder, head) + count_of(cylinder, head, 0, 8) + bytes(8) + END_MARK


def home_fault(cylinder, head, content):
    if len(content) < 5:
        return f"no end at {len(content)}"
    if content[0] & 3:
        return f"compressed {content[0]}"
    if content[1:5] != home_of(cylinder, head)[1:]:
        return "wrong track {} {}".format(*struct.unpack(">HH", content[1:5]))
    return None


def records_fault(content):
    at = 5
    while True:
        if len(content) - at < 8:
            return f"no end at {at}"
        if content[at : at + 8] == END_MARK:
            if at == 5:
                return "bad record at 5"
            return f"bad record at {at + 8}" if len(content) > at + 8 else None
        number, key, data = struct.unpack(">BBH", content[at + 4 : at + 8])
        is_right = (number, key, data) == (0, 0, 8) if at == 5 else number != 0
        behind = at + 8 + key + data
        if not is_right or behind > len(content):
            return f"bad record at {at}"
        at = behind


def track_fault(cylinder, head, size, content):
    """The first fault of bytes that are no track, or None."""
    if len(content) > size:
        return f"track too long {len(content)} over {size}"
    return home_fault(cylinder, head, content) or records_fault(content)


# ---- images


@dataclass
class File:
    """The bytes of a file. Where it has a path, each change is made there at once."""

    content: bytearray
    path: str | None = None

    def write(self, position, more):
        gap = position - len(self.content)
        self.content += bytes(max(0, gap))
        self.content[position : position + len(more)] = more
        if self.path is not None:
            with open(self.path, "r+b") as stream:
                stream.seek(position)
                stream.write(more)

    def become(self, content):
        """Makes these all that the file holds."""
        self.content = bytearray(content)
        if self.path is not None:
            with open(self.path, "wb") as stream:
                stream.write(content)

    def is_there(self):
        start = self.content[:512]
        return len(self.content) > 0 and (len(start) < 512 or any(start))


@dataclass(frozen=True)
class Shape:
    """The geometry of a device."""

    device: int
    heads: int
    cylinders: int
    track_size: int

    def tracks(self):
        return self.heads * self.cylinders

    def groups(self):
        return -(-self.tracks() // GROUP)

    def area(self):
        return HEADERS + 4 * self.groups()

    def address(self, track):
        return divmod(track, self.heads)

    def tracks_of(self, group):
        return range(group * GROUP, min((group + 1) * GROUP, self.tracks()))


class Image:
    """The headers, words and entries that a file's bytes spell."""

    def __init__(self, file, is_shadow):
        self.file, self.is_shadow = file, is_shadow
        content = bytes(file.content[:HEADERS]).ljust(HEADERS, b"\0")
        self.order = ">" if content[515] & 2 else "<"
        heads, track_size, device = struct.unpack_from("<IIB", content, 8)
        self.shape = Shape(device, heads, struct.unpack_from("<I", content, 552)[0], track_size)
        self.sequence, self.null_form = content[17], content[556]
        self.counts = struct.unpack_from(self.order + "2I", content, 516)

    def number(self, position):
        return struct.unpack_from(self.order + "I", self.file.content, position)[0]

    def word(self, group):
        return self.number(HEADERS + 4 * group)

    def entry_bytes(self, track):
        """The eight bytes of a track's entry, or what stands for them where its group has no table."""
        word = self.word(track // GROUP)
        if word == LAST_WORD:
            return b"\xff" * 8
        if word == 0:
            return self.spelled((0, self.null_form, self.null_form))
        at = word + 8 * (track % GROUP)
        return bytes(self.file.content[at : at + 8])

    def entry(self, track):
        return struct.unpack(self.order + "IHH", self.entry_bytes(track))

    def spelled(self, entry):
        return struct.pack(self.order + "IHH", *entry)

    def header_faults(self):
        """All that is wrong in the headers, in the order in which it is told."""
        shape, length = self.shape, len(self.file.content)
        wanted = b"CKD_S370" if self.is_shadow else b"CKD_C370"
        if length < HEADERS or self.file.content[:8] != wanted:
            yield "not a CCKD image"
            return
        numbers = [
            ("heads", shape.heads, 1, 65536),
            ("cylinders", shape.cylinders, 1, 65536),
            ("tracks", shape.tracks(), 1, 1048576),
            ("track-size", shape.track_size, 37, 65024),
            ("sequence", self.sequence, 0, 1),
        ]
        for name, number, least, greatest in numbers:
            if not least <= number <= greatest:
                yield f"bad geometry {name} {number}"
        if self.counts[0] != shape.groups():
            yield f"bad count level-one {self.counts[0]}"
        if self.counts[1] != GROUP:
            yield f"bad count level-two {self.counts[1]}"
        if not shape.area() <= length <= FORMAT_LIMIT:
            yield f"bad count length {length}"
        if self.null_form > 1:
            yield f"bad null format {self.null_form}"

    def table_fault(self, group, word):
        if word == LAST_WORD and not self.is_shadow:
            return f"parent in base table {group}"
        if word not in (0, LAST_WORD) and not self.shape.area() <= word <= len(self.file.content) - TABLE:
            return f"bad table group {group} at {word}"
        return None

    def entry_fault(self, track):
        position, length, size = self.entry(track)
        if position == LAST_WORD:
            return None if self.is_shadow else f"parent in base track {track}"
        if position == 0:
            is_right = length <= 1
        else:
            is_right = position >= self.shape.area() and 1 <= length <= min(65528, size)
            is_right = is_right and position + length <= len(self.file.content)
        return None if is_right else f"bad entry track {track} at {position} length {length} size {size}"

    def survey(self):
        """The used spaces by position, or the first case by which the image is refused."""
        kept = {0: Space("header", self.shape.area(), self.shape.area())}
        groups = [(group, self.word(group)) for group in range(self.shape.groups())]
        for group, word in groups:
            if fault := self.table_fault(group, word):
                raise Refused(fault)
            if word not in (0, LAST_WORD):
                keep(kept, word, Space(f"table {group}", TABLE, TABLE))
        tabled = [group for group, word in groups if word not in (0, LAST_WORD)]
        for track in (track for group in tabled for track in self.shape.tracks_of(group)):
            if fault := self.entry_fault(track):
                raise Refused(fault)
            position, length, size = self.entry(track)
            if position not in (0, LAST_WORD):
                keep(kept, position, Space(f"track {track}", min(size, len(self.file.content) - position), length))
        return kept


# ---- space


@dataclass
class Space:
    """Bytes that something holds: how many, how many of them it needs, and whether they are Used, Reserved, Leaving or Pending."""

    owner: str
    size: int
    length: int
    kind: str = "Used"


def keep(kept, position, space):
    """Keeps one space more, where it shares no byte with a kept one."""
    met = [at for at, other in kept.items() if at < position + space.size and position < at + other.size]
    if met:
        at, other = min(met), kept[min(met)]
        raise Refused(f"overlap {other.owner} at {at} for {other.size} and {space.owner} at {position} for {space.size}")
    kept[position] = space


@dataclass
class Layer:
    """One image that may be written."""

    image: Image
    limit: int
    held: dict
    end: int = 0
    entries: dict = field(default_factory=dict)
    words: dict = field(default_factory=dict)
    is_marked: bool = False

    def __post_init__(self):
        self.file, self.shape = self.image.file, self.image.shape
        self.end = len(self.file.content)

    # -- where a space goes

    def free(self):
        """The free pieces, from low positions: where each starts and where it ends."""
        at, found = 0, []
        for position in sorted(self.held):
            if at < position:
                found.append((at, position))
            at = position + self.held[position].size
        return found + ([(at, self.end)] if at < self.end else [])

    def end_place(self):
        free = self.free()
        return up8(free[-1][0] if free and free[-1][1] == self.end else self.end)

    def place(self, need):
        for start, behind in self.free():
            if up8(start) + need <= behind:
                self.held[up8(start)] = Space("", need, need, "Reserved")
                return up8(start)
        at = self.end_place()
        if at + need > self.limit:
            largest = max([behind - up8(start) for start, behind in self.free()] + [0])
            raise Refused(f"full, need {need} largest {largest} room {max(0, self.limit - at)}")
        self.end = at + need
        self.held[at] = Space("", need, need, "Reserved")
        return at

    def give_back(self, position):
        del self.held[position]
        free = self.free()
        if free and free[-1][1] == self.end:
            self.end = max(free[-1][0], min(self.end, len(self.file.content)))

    def become(self, old, new):
        for space in self.held.values():
            if space.kind == old:
                space.kind = new

    def release(self):
        self.held = {at: space for at, space in self.held.items() if space.kind != "Pending"}

    # -- writing

    def word(self, group):
        return self.words.get(group, self.image.word(group))

    def entry(self, track):
        return self.entries.get(track, self.image.entry(track))

    def claim(self, group, need):
        """Places for the group's new table, where it wants one, and for so many bytes."""
        word, table = self.word(group), None
        if word in (0, LAST_WORD) or word % 8:
            table = self.place(TABLE)
        try:
            return table, self.place(need) if need else None
        except Refused:
            if table is not None:
                self.give_back(table)
            raise

    def claim_twice(self, group, need):
        """The same, and once more where spaces can be released."""
        try:
            return self.claim(group, need)
        except Refused:
            if not any(space.kind in ("Leaving", "Pending") for space in self.held.values()):
                raise
        self.harden()
        return self.claim(group, need)

    def complete(self):
        """The one entry whose space passes the file's end gets the size up to that end."""
        for track in self.tabled():
            position, length, size = self.image.entry(track)
            if position not in (0, LAST_WORD) and position + size > len(self.file.content):
                self.put_entry(track, (position, length, len(self.file.content) - position))

    def write(self, track, content):
        where = self.shape.address(track)
        if fault := track_fault(*where, self.shape.track_size, content):
            raise Refused(fault)
        if not self.is_marked:
            self.complete()
        # What is stored is the track's value, which has no flag bits.
        content = b"\0" + content[1:]
        if MOST_STAGED - len(self.entries) - len(self.words) < 2:
            self.commit()
        forms = [form for form in (0, 1) if content == null_track(*where, form)]
        table, at = self.claim_twice(track // GROUP, 0 if forms else up8(len(content)))
        self.mark()
        if at is None:
            entry = (0, forms[0], forms[0])
        else:
            entry = (at, len(content), up8(len(content)))
            self.file.write(at, content.ljust(entry[2], b"\0"))
        if table is not None:
            self.stage_table(track // GROUP, table)
        self.stage(track, entry)

    def mark(self):
        if not self.is_marked:
            self.file.write(515, bytes([self.file.content[515] | OPEN]))
            self.is_marked = True

    def stage_table(self, group, at):
        if (old := self.image.word(group)) not in (0, LAST_WORD):
            self.held[old].kind = "Leaving"
        self.words[group] = at

    def stage(self, track, entry):
        if track in self.entries:
            staged = self.entries[track][0]
            if staged:
                self.give_back(staged)
        elif (old := self.image.entry(track)[0]) not in (0, LAST_WORD):
            self.held[old].kind = "Leaving"
        self.entries[track] = entry

    # -- hardening and closing

    def put_entry(self, track, entry):
        self.file.write(self.image.word(track // GROUP) + 8 * (track % GROUP), self.image.spelled(entry))

    def new_table(self, group):
        """The entries as they are on the disk, those past the last track included, and the staged ones over them."""
        tracks = range(group * GROUP, (group + 1) * GROUP)
        staged = {track: self.image.spelled(entry) for track, entry in self.entries.items()}
        return b"".join(staged.get(track) or self.image.entry_bytes(track) for track in tracks)

    def commit(self):
        for group, at in self.words.items():
            self.file.write(at, self.new_table(group))
        self.release()
        for group, at in self.words.items():
            self.file.write(HEADERS + 4 * group, struct.pack(self.image.order + "I", at))
            self.held[at] = Space("", TABLE, TABLE)
        for track, entry in self.entries.items():
            if track // GROUP not in self.words:
                self.put_entry(track, entry)
            if entry[0]:
                self.held[entry[0]] = Space("", entry[2], entry[1])
        self.entries, self.words = {}, {}
        self.become("Leaving", "Pending")

    def harden(self):
        self.commit()
        self.release()

    def close(self):
        if not self.is_marked:
            return
        self.harden()
        order, size = self.image.order, len(self.file.content)
        chain = [(start, behind) for start, behind in self.free() if behind - start >= 8]
        for place, (start, behind) in enumerate(chain):
            after = chain[place + 1][0] if place + 1 < len(chain) else 0
            self.file.write(start, struct.pack(order + "2I", after, behind - start))
        lengths = [behind - start for start, behind in chain]
        used = sum(space.length for space in self.held.values())
        free = [chain[0][0] if chain else 0, sum(lengths), max(lengths, default=0), len(chain)]
        self.file.write(524, struct.pack(order + "7I", size, used, *free, size - used - free[1]))
        self.file.write(515, bytes([self.file.content[515] & ~OPEN]))
        self.is_marked = False

    # -- reading

    def stored(self, track):
        """The bytes of a track, or None where the file below is looked at."""
        position, length, _ = self.entry(track)
        if position == LAST_WORD:
            return None
        if position == 0:
            return null_track(*self.shape.address(track), length)
        return bytes(self.file.content[position : position + length])

    def tabled(self):
        """The tracks of the groups that have tables."""
        for group in range(self.shape.groups()):
            if self.word(group) not in (0, LAST_WORD):
                yield from self.shape.tracks_of(group)

    def count(self):
        """How many tracks the layer has."""
        whole = [group for group in range(self.shape.groups()) if self.word(group) == 0]
        found = sum(self.entry(track)[0] != LAST_WORD for track in self.tabled())
        return found + sum(len(self.shape.tracks_of(group)) for group in whole)


# ---- the disk


class Disk:
    """The layers of a base and its shadows. Each call answers the text of its reply, or is refused."""

    def __init__(self, files, limit=FORMAT_LIMIT):
        there = [slot for slot, file in enumerate(files) if file.is_there()]
        if 0 not in there:
            raise Refused("slot 0 not a CCKD image")
        for count, slot in enumerate(there):
            if count != slot:
                raise Refused(f"gap at slot {slot}")
        self.layers = []
        for slot in there:
            self.layers.append(self.mounted(slot, Image(files[slot], slot > 0), limit))
        self.shape, self.top = self.layers[0].shape, self.layers[-1]

    def mounted(self, slot, image, limit):
        try:
            for fault in image.header_faults():
                raise Refused(fault)
            if self.layers and image.shape != self.layers[0].shape:
                raise Refused("geometry differs")
            return Layer(image, limit, image.survey())
        except Refused as why:
            raise Refused(f"slot {slot} {why}") from None

    def track(self, cylinder, head):
        if cylinder >= self.shape.cylinders or head >= self.shape.heads:
            raise Refused("no such track")
        return cylinder * self.shape.heads + head

    def read(self, cylinder, head):
        track = self.track(cylinder, head)
        content = next(found for layer in reversed(self.layers) if (found := layer.stored(track)) is not None)
        if fault := track_fault(cylinder, head, self.shape.track_size, content):
            raise Refused(fault)
        return f"track {cylinder} {head} {len(content)} 00{content[1:].hex()}"

    def write(self, cylinder, head, content):
        self.top.write(self.track(cylinder, head), content)
        return f"written {cylinder} {head} {len(content)}"

    def fill(self, cylinder, head, length, byte):
        return self.write(cylinder, head, filled(cylinder, head, length, byte[0]))

    def harden(self):
        self.top.harden()
        return "hardened"

    def sfd(self):
        counts = [str(layer.count()) for layer in self.layers]
        return " ".join([f"layers {len(counts)}:"] + counts)

    def sfk(self, level=1):
        bad = sum(self.is_bad(layer, track, level) for layer in self.layers for track in layer.tabled())
        return f"checked {level}: {bad} bad"

    def is_bad(self, layer, track, level):
        where, content = self.shape.address(track), layer.stored(track)
        if level < 2 or content is None:
            return False
        if level == 2:
            fault = home_fault(*where, content)
        else:
            fault = track_fault(*where, self.shape.track_size, content)
        return fault is not None and not fault.startswith("compressed")

    def close(self):
        self.top.close()
        return "closed"


# ---- the script


def number_within(greatest, least=0):
    def value(token):
        if not re.fullmatch(rb"0|[1-9][0-9]{0,9}", token) or not least <= int(token) <= greatest:
            raise ValueError(token)
        return int(token)

    return value


def bytes_within(least, most):
    def value(token):
        if not re.fullmatch(rb"(?:[0-9a-fA-F]{2})+", token) or not least <= len(token) // 2 <= most:
            raise ValueError(token)
        return bytes.fromhex(token.decode())

    return value


ADDRESS = [number_within(65535)] * 2
# The kinds of the parts behind each word, and how many of them may be missing.
FORMS = {
    b"read": (ADDRESS, 0),
    b"write": (ADDRESS + [bytes_within(1, 65535)], 0),
    b"fill": (ADDRESS + [number_within(65498), bytes_within(1, 1)], 0),
    b"harden": ([], 0),
    b"sfd": ([], 0),
    b"sfk": ([number_within(3)], 1),
}


def parsed(line):
    """The call that a line asks and its values."""
    word, *tokens = line.split(b" ")
    if word not in FORMS:
        raise Refused("line fault at column 1")
    kinds, optional = FORMS[word]
    values, column = [], len(word) + 2
    for place, token in enumerate(tokens):
        try:
            values.append(kinds[place](token))
        except (IndexError, ValueError):
            raise Refused(f"line fault at column {column}") from None
        column += len(token) + 1
    if len(values) + optional < len(kinds):
        raise Refused(f"line fault at column {len(line) + 1}")
    return word.decode(), values


def answered(disk, line):
    """The line that a line of the script is answered by, or None where it asks nothing."""
    try:
        if len(line) > 131072:
            raise Refused("line too long")
        if not line or line.startswith(b"#"):
            return None
        word, values = parsed(line)
        return getattr(disk, word)(*values)
    except Refused as why:
        return f"refused: {why}"


def run(files, lines, limit=FORMAT_LIMIT, until=None):
    """The lines that are printed, one by one. `until` ends the run behind so many replies, as a stop would."""
    try:
        disk = Disk(files, limit)
    except Refused as why:
        yield f"refused: {why}"
        return
    count = 0
    for line in lines:
        if until is not None and count == until:
            return
        if (answer := answered(disk, line.removesuffix(b"\n"))) is not None:
            count += 1
            yield answer
    if until is None:
        yield disk.close()


def names_of(name):
    """The names of the nine slots."""
    return [name] + [f"{name}.sf{slot}" for slot in range(1, 9)]


def left(contents, name, script, limit=FORMAT_LIMIT, until=None):
    """What the files of a disk hold when a run over them has ended, by name; those that aren't there are left out."""
    files = {each: File(bytearray(contents.get(each, b""))) for each in names_of(name)}
    for _ in run(list(files.values()), script.splitlines(keepends=True), limit, until):
        pass
    return {each: bytes(file.content) for each, file in files.items() if each in contents}


# ---- the making of a base

# The devices that can be made: the type's byte, cylinders, heads, and the most data that a track's one record has.
DEVICES = {
    "2311": (0x11, 200, 10, 3625),
    "2314": (0x14, 200, 20, 7294),
    "3330": (0x30, 404, 19, 13030),
    "3350": (0x50, 555, 30, 19069),
    "3380": (0x80, 885, 15, 47476),
    "3380-E": (0x80, 1770, 15, 47476),
    "3380-K": (0x80, 2655, 15, 47476),
    "3390-1": (0x90, 1113, 15, 56664),
    "3390-2": (0x90, 2226, 15, 56664),
    "3390-3": (0x90, 3339, 15, 56664),
    "3390-9": (0x90, 10017, 15, 56664),
}
# Python's own table of EBCDIC.
EBCDIC = "cp037"


def shape_of(device):
    kind, cylinders, heads, most = DEVICES[device]
    return Shape(kind, heads, cylinders, -(-(37 + most) // 512) * 512)


def raw_base(shape):
    """A closed base in which no group has a table."""
    area = shape.area()
    device = struct.pack("<8sIIB", b"CKD_C370", shape.heads, shape.track_size, shape.device)
    counts = struct.pack("<9I", shape.groups(), GROUP, area, area, 0, 0, 0, 0, 0)
    compressed = bytes([0, 3, 1, 0]) + counts + struct.pack("<IBBh", shape.cylinders, 0, 0, -1)
    return (device.ljust(512, b"\0") + compressed).ljust(area, b"\0")


def keyed(number, key, data):
    """A record of track 0 whose key is text."""
    return struct.pack(">HHBBH", 0, 0, number, len(key), len(data)) + key.encode(EBCDIC) + data


def label_track(serial):
    """Track 0 of a labelled volume: nothing that could be started, and the label."""
    label = ("VOL1" + serial.ljust(6) + " ").encode(EBCDIC) + bytes(5) + (" " * 64).encode(EBCDIC)
    start = home_of(0, 0) + count_of(0, 0, 0, 8) + bytes(8)
    return start + keyed(1, "IPL1", bytes(24)) + keyed(2, "IPL2", bytes(144)) + keyed(3, "VOL1", label) + END_MARK


def new_base(device, serial=None):
    """The file of a new base. A label is written to a raw base as any track is, and the file is closed."""
    file = File(bytearray(raw_base(shape_of(device))))
    if serial is not None:
        disk = Disk([file])
        disk.write(0, 0, label_track(serial))
        disk.close()
    return bytes(file.content)


def made(file, device, serial):
    """Makes a base in a file, and answers the line and the status."""
    if file.is_there():
        return f"refused: not empty, {len(file.content)}", 3
    file.become(new_base(device, serial))
    shape = shape_of(device)
    numbers = f"{shape.cylinders} cylinders, {shape.heads} heads, {shape.groups()} groups, {len(file.content)} bytes"
    return f"made {device}: {numbers}", 0


# ---- the words


def is_name(word):
    return 1 <= len(os.fsencode(word)) <= 255 and not word.startswith("-")


def is_serial(word):
    return re.fullmatch("[A-Z0-9@#$]{1,6}", word) is not None


def base_read(words):
    """The file, the device and the serial, if there is one, of a new base, or the number of the first wrong or missing word."""
    options = set()
    for word in words[1:3]:
        if word in ("-0", "-r") and word not in options:
            options.add(word)
        else:
            break
    at, is_raw = 1 + len(options), "-r" in options
    if "-0" not in options:
        return at
    # What may stand at each place behind the options.
    tests = [is_name, DEVICES.__contains__] + ([] if is_raw else [is_serial])
    rest = words[at:]
    for place, test in enumerate(tests):
        if place >= len(rest) or not test(rest[place]):
            return at + place
    if len(rest) > len(tests):
        return at + len(tests)
    return rest if not is_raw else rest + [None]


def limit_of(word):
    limit = number_within(FORMAT_LIMIT, 4096)(os.fsencode(word))
    if limit % 8:
        raise ValueError(word)
    return limit


def words_read(words):
    """The limit and the name, or the number of the first wrong word."""
    if not words or words[0] != "cckdrun":
        return 0
    at, limit = 1, FORMAT_LIMIT
    if words[1:2] == ["-limit"]:
        try:
            limit, at = limit_of(words[2]), 3
        except (IndexError, ValueError):
            return 2
    if at >= len(words) or not is_name(words[at]):
        return at
    return at + 1 if len(words) > at + 1 else (limit, words[at])


def opened(path):
    if not os.path.exists(path):
        return File(bytearray(), path)
    with open(path, "rb") as stream:
        return File(bytearray(stream.read()), path)


def make_base(words):
    found = base_read(words)
    if isinstance(found, int):
        print(f"bad words at {found}")
        return 2
    name, device, serial = found
    line, status = made(opened(name), device, serial)
    print(line)
    return status


def main(words):
    if words[:1] == ["dasdinit"]:
        return make_base(words)
    found = words_read(words)
    if isinstance(found, int):
        print(f"bad words at {found}")
        return 2
    limit, name = found
    count, status = 0, 0
    for line in run([opened(path) for path in names_of(name)], sys.stdin.buffer, limit):
        print(line, flush=True)
        count, status = count + 1, status | line.startswith("refused: ")
    # A disk that isn't mounted is refused by its one line.
    return 3 if status and count == 1 and line != "closed" else int(status)


if __name__ == "__main__":
    sys.exit(main(sys.argv[1:]))

#!/usr/bin/env python3
"""Makes the images in this folder, which are the same byte for byte whenever they are made.

    python3 images/make.py            writes them
    python3 images/make.py --check    writes nothing; status 1 where a file is missing or differs

docs/FORMAT.md says what the fields mean.
"""

import struct
import sys
from pathlib import Path

# A 2311.
DEVICE_TYPE, CYLINDERS, HEADS, TRACK_SIZE = 0x11, 200, 10, 4096

GROUP = 256
GROUPS = -(-CYLINDERS * HEADS // GROUP)
AREA = 1024 + 4 * GROUPS
END_MARK = b"\xff" * 8
BASE, SHADOW = b"CKD_C370", b"CKD_S370"
# As a word or a position: what is asked is looked up in the file below.
LOOK_BELOW = 0xFFFFFFFF


def device_header(identifier):
    fields = struct.pack("<8sIIBBH", identifier, HEADS, TRACK_SIZE, DEVICE_TYPE, 0, 0)
    return fields.ljust(512, b"\0")


def compressed_header(order, size, used):
    """The second header of a closed image without free spaces. The cylinders are little-endian in either order."""
    counts = [GROUPS, GROUP, size, used]
    free = [0, 0, 0, 0]  # position, total, largest, number
    imbedded = size - used
    fields = struct.pack("<3sB", b"\x00\x03\x01", 2 if order == ">" else 0)
    fields += struct.pack(order + "9I", *counts, *free, imbedded) + struct.pack("<I", CYLINDERS)
    fields += struct.pack(order + "BBh", 0, 0, -1)  # null format, compression and its parameter
    return fields.ljust(512, b"\0")


def area(size, used, words, identifier=BASE, order="<"):
    """Both headers and the level-one table. The words of groups that aren't given are 0 in a base, and in a shadow all ff."""
    words = words + [0 if identifier == BASE else LOOK_BELOW] * (GROUPS - len(words))
    headers = device_header(identifier) + compressed_header(order, size, used)
    return headers + struct.pack(f"{order}{GROUPS}I", *words)


def record(number, data, cylinder=0, head=0):
    """A record without key."""
    return struct.pack(">HHBBH", cylinder, head, number, 0, len(data)) + data


def track_0(data):
    """Track 0 with one record."""
    home_address = struct.pack(">BHH", 0, 0, 0)
    return home_address + record(0, bytes(8)) + record(1, data) + END_MARK


def raw_2311():
    """A new base: every track is null."""
    return area(AREA, AREA, [])


def written_2311():
    """A base in which track 0 holds one record of eight bytes aa."""
    track = track_0(b"\xaa" * 8)
    space = -(-len(track) // 8) * 8
    table_at = AREA
    track_at = table_at + 8 * GROUP
    table = struct.pack("<IHH", track_at, len(track), space).ljust(8 * GROUP, b"\0")
    size = track_at + space
    used = AREA + len(table) + len(track)
    return area(size, used, [table_at]) + table + track.ljust(space, b"\0")


def shadow_2311():
    """A new shadow: every track is looked up below."""
    return area(AREA, AREA, [], SHADOW)


def big_shadow_2311():
    """A shadow with big-endian numbers. Track 0 holds one record of eight bytes bb, track 1 is null, and all others are looked up
    below."""
    track = track_0(b"\xbb" * 8)
    space = -(-len(track) // 8) * 8
    table_at = AREA
    track_at = table_at + 8 * GROUP
    table = struct.pack(">IHHIHH", track_at, len(track), space, 0, 0, 0).ljust(8 * GROUP, b"\xff")
    size = track_at + space
    used = AREA + len(table) + len(track)
    return area(size, used, [table_at], SHADOW, ">") + table + track.ljust(space, b"\0")


IMAGES = {
    "raw-2311.cckd": raw_2311,
    "written-2311.cckd": written_2311,
    "shadow-2311.cckd": shadow_2311,
    "big-shadow-2311.cckd": big_shadow_2311,
}


def is_kept(path, wanted):
    if path.is_file() and path.read_bytes() == wanted:
        return True
    print(f"images/{path.name} isn't what images/make.py makes")
    return False


def main(words):
    if words not in ([], ["--check"]):
        print(__doc__.strip(), file=sys.stderr)
        return 2
    folder = Path(__file__).resolve().parent
    made = {folder / name: make() for name, make in IMAGES.items()}
    if words:
        return 0 if all([is_kept(*image) for image in made.items()]) else 1
    for path, image in made.items():
        path.write_bytes(image)
    return 0


if __name__ == "__main__":
    sys.exit(main(sys.argv[1:]))

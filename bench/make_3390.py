#!/usr/bin/env python3
"""Writes a base of a 3390-9 in which each of the 150,255 tracks is stored, with one record of eight bytes.

    python3 bench/make_3390.py FILE
"""

import struct
import sys

CYLINDERS, HEADS, TRACK_SIZE, GROUP = 10_017, 15, 56_832, 256
TRACKS = CYLINDERS * HEADS
GROUPS = -(-TRACKS // GROUP)
AREA = 1024 + 4 * GROUPS
SPACE = 48


def track(number):
    address = struct.pack(">HH", *divmod(number, HEADS))
    records = b"".join(address + struct.pack(">BBH", n, 0, 8) + bytes([fill] * 8) for n, fill in ((0, 0), (1, 0xAA)))
    return (b"\0" + address + records + b"\xff" * 8).ljust(SPACE, b"\0")


def image():
    words, parts, at = [], [], (AREA + 7) // 8 * 8
    for group in range(GROUPS):
        members = range(GROUP * group, min(GROUP * (group + 1), TRACKS))
        words.append(at)
        first = at + 2048
        entries = [struct.pack("<IHH", first + SPACE * n, 45, SPACE) for n in range(len(members))]
        parts.append(b"".join(entries).ljust(2048, b"\0") + b"".join(track(t) for t in members))
        at = first + SPACE * len(members)
    used = AREA + 2048 * GROUPS + 45 * TRACKS
    device = struct.pack("<8sIIBBH", b"CKD_C370", HEADS, TRACK_SIZE, 0x90, 0, 0).ljust(512, b"\0")
    counts = struct.pack("<3sB10I", b"\0\3\1", 0, GROUPS, GROUP, at, used, 0, 0, 0, 0, at - used, CYLINDERS)
    second = (counts + struct.pack("<BBh", 0, 0, -1)).ljust(512, b"\0")
    front = device + second + struct.pack(f"<{GROUPS}I", *words)
    return front.ljust((AREA + 7) // 8 * 8, b"\0") + b"".join(parts)


if __name__ == "__main__":
    with open(sys.argv[1], "wb") as file:
        file.write(image())

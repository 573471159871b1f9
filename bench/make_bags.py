#!/usr/bin/env python3
"""Writes a table of two bags: make_bags.py ROWS FILE.

Both have so many rows with the same names, which rise. The second, 0x7f010001, is the parent of the first,
0x7f010000."""
import struct
import sys

from make_rows import chunk, type_spec

FIRST, SECOND = 0x7F010000, 0x7F010001
FIRST_NAME = 0x01010000


def bag(parent, rows):
    names = range(FIRST_NAME, FIRST_NAME + rows)
    return struct.pack("<HHIII", 16, 1, 0, parent, rows) + b"".join(
        struct.pack("<IHBBI", name, 8, 0, 0x10, name & 0xFFFF) for name in names
    )


def main():
    rows, path = int(sys.argv[1]), sys.argv[2]
    bags = [bag(SECOND, rows), bag(0, rows)]
    header = struct.pack("<BBHII", 1, 0, 0, 2, 8 + 12 + 52 + 8) + struct.pack("<I48x", 52)
    offsets = struct.pack("<2I", 0, len(bags[0]))
    children = type_spec(1, 2) + chunk(0x0201, header, offsets + b"".join(bags))
    package = chunk(0x0200, struct.pack("<I", 0x7F) + b"\0" * 276, children)
    pool = chunk(0x0001, b"\0" * 20, b"")
    with open(path, "wb") as out:
        out.write(chunk(0x0002, struct.pack("<I", 1), pool + package))


main()

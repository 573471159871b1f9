#!/usr/bin/env python3
"""Writes a table of simple values: make_rows.py ROWS FILE.

One package of 16 types, each with an equal number of entries; every entry has a value in the default
configuration, and every second type has a second configuration with values for all entries."""
import struct
import sys

NO_ENTRY = 0xFFFFFFFF


def chunk(kind, header, body):
    size = 8 + len(header)
    return struct.pack("<HHI", kind, size, size + len(body)) + header + body


def type_spec(type_id, count):
    return chunk(0x0202, struct.pack("<BBHI", type_id, 0, 0, count), b"\0" * 4 * count)


def type_chunk(type_id, count, density):
    record = struct.pack("<I10xH36x", 52, density)
    header = struct.pack("<BBHII", type_id, 0, 0, count, 8 + 12 + 52 + 4 * count) + record
    offsets = struct.pack(f"<{count}I", *range(0, 16 * count, 16))
    entries = b"".join(struct.pack("<HHIHBBI", 8, 0, n, 8, 0, 0x10, n) for n in range(count))
    return chunk(0x0201, header, offsets + entries)


def main():
    rows, path = int(sys.argv[1]), sys.argv[2]
    count = rows // 24
    children = []
    for type_id in range(1, 17):
        children.append(type_spec(type_id, count))
        children.append(type_chunk(type_id, count, 0))
        if type_id % 2 == 0:
            children.append(type_chunk(type_id, count, 320))
    package = chunk(0x0200, struct.pack("<I", 0x7F) + b"\0" * 276, b"".join(children))
    pool = chunk(0x0001, b"\0" * 20, b"")
    with open(path, "wb") as out:
        out.write(chunk(0x0002, struct.pack("<I", 1), pool + package))


if __name__ == "__main__":
    main()

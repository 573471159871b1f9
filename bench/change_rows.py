#!/usr/bin/env python3
"""Changes some rows of a table, as another build of it might have them: change_rows.py ROWS TABLE FILE.

The rows are numbers, dimensions and colors of the default configuration, spread over the table. Types have to be dense. Prints
the ids of the rows, one a line."""
import struct
import sys

TABLE, PACKAGE, TYPE = 0x0002, 0x0200, 0x0201
NO_ENTRY = 0xFFFFFFFF
BAG = 1
DIMENSION, DECIMAL, COLORS = 0x05, 0x10, range(0x1C, 0x20)


def types(table, start, end, package=0):
    """The places of types, each with the number of its package."""
    while start < end:
        kind, header, size = struct.unpack_from("<HHI", table, start)
        if kind == TYPE:
            yield start, package
        elif kind in (TABLE, PACKAGE):
            inner = struct.unpack_from("<I", table, start + 8)[0] if kind == PACKAGE else 0
            yield from types(table, start + header, start + size, inner)
        start += size


def values(table):
    """The places of the words of such values, by their ids."""
    found = {}
    for place, package in types(table, 0, len(table)):
        header, type_id, count, entries = struct.unpack_from("<2xH4xB3xII", table, place)
        if any(table[place + 24 : place + header]):
            continue
        for index, offset in enumerate(struct.unpack_from(f"<{count}I", table, place + header)):
            at = place + entries + offset
            if offset == NO_ENTRY or table[at + 2] & BAG:
                continue
            kind = table[at + 11]
            if kind in (DIMENSION, DECIMAL) or kind in COLORS:
                found.setdefault(package << 24 | type_id << 16 | index, at + 12)
    return found


def main():
    rows, path, out = int(sys.argv[1]), *sys.argv[2:]
    with open(path, "rb") as read:
        table = bytearray(read.read())
    found = sorted(values(table).items())
    for name, place in found[len(found) // (2 * rows) :: len(found) // rows][:rows]:
        table[place + 1] ^= 1
        print(f"0x{name:08x}")
    with open(out, "wb") as write:
        write.write(table)


if __name__ == "__main__":
    main()

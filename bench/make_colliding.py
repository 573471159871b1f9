#!/usr/bin/env python3
"""Writes an id map or a style of many ids, which follow each other or collide:

    make_colliding.py map|style row|colliding COUNT FILE

The colliding ones are those that a hash map of the toolchain with its fixed seed (`FoldHasher`) would look for in one
sixteenth of its groups, so that each would be found behind most of the others. The map is a JSON text with so many
targets of package 0x7f; the style, 0x7f010000, is in a table and has so many attributes."""
import struct
import sys

from make_rows import chunk, type_spec

FIRST_TARGET, FIRST_ATTRIBUTE = 0x7F000000, 0x01010000
SEED, MULTIPLIER = 0x243F6A8885A308D3, 0x9E3779B97F4A7C15
GROUP_LOAD = 9
SHARE = 16


def hash_of(number):
    """The 32 bits by which a number of four bytes is looked for."""
    product = (SEED ^ (number | number << 32)) * (MULTIPLIER ^ 8)
    folded = (product ^ product >> 64) & 0xFFFFFFFFFFFFFFFF
    return (folded ^ folded >> 32) & 0xFFFFFFFF


def colliding(first, count):
    groups = 1
    while GROUP_LOAD * groups < count:
        groups *= 2
    number = first
    while count:
        if hash_of(number) % groups < max(1, groups // SHARE):
            yield number
            count -= 1
        number += 1


def map_text(ids):
    return "[" + ",".join(f'["0x{target:08x}","0x7f010000"]' for target in ids) + "]"


def style_table(ids):
    rows = b"".join(struct.pack("<IHBBI", name, 8, 0, 0x10, 1) for name in ids)
    bag = struct.pack("<HHIII", 16, 1, 0, 0, len(ids)) + rows
    header = struct.pack("<BBHII", 1, 0, 0, 1, 8 + 12 + 52 + 4) + struct.pack("<I48x", 52)
    children = type_spec(1, 1) + chunk(0x0201, header, struct.pack("<I", 0) + bag)
    package = chunk(0x0200, struct.pack("<I", 0x7F) + b"\0" * 276, children)
    return chunk(0x0002, struct.pack("<I", 1), chunk(0x0001, b"\0" * 20, b"") + package)


def main():
    kind, how, count, path = sys.argv[1], sys.argv[2], int(sys.argv[3]), sys.argv[4]
    first = FIRST_TARGET if kind == "map" else FIRST_ATTRIBUTE
    ids = list(colliding(first, count) if how == "colliding" else range(first, first + count))
    with open(path, "wb") as out:
        out.write(map_text(ids).encode() if kind == "map" else style_table(ids))


main()

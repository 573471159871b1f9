#!/usr/bin/env python3
"""Writes a table whose entries share the rows of bags: make_shared_bags.py SHAPE ENTRIES ROWS FILE.

SHAPE says how the entries do it:
  shared   all are one bag of so many rows
  overlap  they are 1,000 bags of so many rows, each of which begins one row after the one before it
  turns    they are two bags of half as many rows, in alternation"""
import struct
import sys

from make_rows import chunk, type_spec

BAG_SIZE = 16


def bag(size, rows):
    return struct.pack("<HHIII", size, 1, 0, 0, rows)


def map_rows(count):
    return b"".join(struct.pack("<IHBBI", 0x01010000 + n, 8, 0, 0x10, n & 0xFFFF) for n in range(count))


def shared(entries, rows):
    return [0] * entries, bag(BAG_SIZE, rows) + map_rows(rows)


def overlap(entries, rows):
    bags = 1000
    # The rows stand after all heads; a head's size says how far away.
    heads = b"".join(bag(BAG_SIZE * (bags - n) + 12 * n, rows) for n in range(bags))
    return [BAG_SIZE * (n % bags) for n in range(entries)], heads + map_rows(rows + bags)


def turns(entries, rows):
    one = bag(BAG_SIZE, rows // 2) + map_rows(rows // 2)
    return [len(one) * (n % 2) for n in range(entries)], one + one


def main():
    shape, entries, rows, path = sys.argv[1], int(sys.argv[2]), int(sys.argv[3]), sys.argv[4]
    places, bags = {"shared": shared, "overlap": overlap, "turns": turns}[shape](entries, rows)
    header = struct.pack("<BBHII", 1, 0, 0, entries, 8 + 12 + 52 + 4 * entries) + struct.pack("<I48x", 52)
    offsets = struct.pack(f"<{entries}I", *places)
    children = type_spec(1, entries) + chunk(0x0201, header, offsets + bags)
    package = chunk(0x0200, struct.pack("<I", 0x7F) + b"\0" * 276, children)
    pool = chunk(0x0001, b"\0" * 20, b"")
    with open(path, "wb") as out:
        out.write(chunk(0x0002, struct.pack("<I", 1), pool + package))


main()

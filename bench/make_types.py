#!/usr/bin/env python3
"""Writes a table of many types: make_types.py PACKAGES TYPES FILE.

So many packages, the last of which has the id 0x7f, each of so many types. A type has 16 entries with
values in two configurations."""
import struct
import sys

from make_rows import chunk, type_chunk, type_spec

ENTRIES = 16
LAST_PACKAGE = 0x7F


def package(package_id, types):
    children = []
    for type_id in range(1, types + 1):
        children.append(type_spec(type_id, ENTRIES))
        children.append(type_chunk(type_id, ENTRIES, 0))
        children.append(type_chunk(type_id, ENTRIES, 320))
    return chunk(0x0200, struct.pack("<I", package_id) + b"\0" * 276, b"".join(children))


def main():
    packages, types, path = int(sys.argv[1]), int(sys.argv[2]), sys.argv[3]
    ids = range(LAST_PACKAGE + 1 - packages, LAST_PACKAGE + 1)
    pool = chunk(0x0001, b"\0" * 20, b"")
    body = pool + b"".join(package(package_id, types) for package_id in ids)
    with open(path, "wb") as out:
        out.write(chunk(0x0002, struct.pack("<I", packages), body))


main()

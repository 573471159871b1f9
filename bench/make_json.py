#!/usr/bin/env python3
"""Writes a JSON text as large as an input may be, or a part of that: make_json.py KIND PARTS FILE.

PARTS 1 is the largest; 16 is a sixteenth of it. KIND is one of those in TEXTS."""
import sys

MOST_BYTES = 268435456


def repeated(before, piece, between, behind):
    """A piece as often as there is room for it."""

    def text(size):
        count = (size - len(before) - len(behind) + len(between)) // (len(piece) + len(between))
        return before + (piece + between) * (count - 1) + piece + behind

    return text


def members(size):
    """An object of many members."""
    count = size // len('"00000000":0,') - 1
    return ("{" + ",".join(f'"{place:08d}":0' for place in range(count)) + "}").encode()


def pairs(size):
    """An id map, of which the targets follow each other."""
    count = min(size // len('["0x00000000","0x00000000"],') - 1, 1 << 24)
    return ("[" + ",".join(f'["0x{0x7F000000 + place:08x}","0x7f010000"]' for place in range(count)) + "]").encode()


TEXTS = {
    "opened-lists": repeated(b"", b"[", b"", b""),
    "opened-objects": repeated(b"", b'{"a":', b"", b""),
    "blanks": repeated(b"", b" ", b"", b""),
    "number": repeated(b"", b"1", b"", b""),
    "text": repeated(b'"', b"a", b"", b'"'),
    "escapes": repeated(b'"', b"\\u0041", b"", b'"'),
    "list-of-numbers": repeated(b"[", b"0", b",", b"]"),
    "list-of-lists": repeated(b"[", b"[0]", b",", b"]"),
    "list-of-objects": repeated(b"[", b'{"":0}', b",", b"]"),
    "members": members,
    "pairs": pairs,
}


def main():
    kind, parts, path = sys.argv[1], int(sys.argv[2]), sys.argv[3]
    with open(path, "wb") as out:
        out.write(TEXTS[kind](MOST_BYTES // parts))


main()

#!/usr/bin/env python3
"""Writes a table with one id, 0x7f010000, and a box: make_list.py COUNT TABLE BOX QUALIFIER..

Of each qualifier (locale, mnc) the box lists so many values, and the id has a row for each of them, beside its row in the
default configuration. So each value, or pair of values, has a trace of its own."""
import json
import struct
import sys

from make_rows import chunk, type_spec

LETTERS = "abcdefghijklmnopqrstuvwxyz"


def locales(count):
    """So many languages of the United States, in rising order."""
    return [f"{first}{second}-US" for first in LETTERS for second in LETTERS][:count]


def record(mnc=0, locale=""):
    language, _, region = locale.partition("-")
    return struct.pack("<IHH2s2s40x", 52, 0, mnc, language.encode(), region.encode())


def type_chunk(config, word):
    """A type with one entry, whose value is a whole number."""
    header = struct.pack("<BBHII", 1, 0, 0, 1, 8 + 12 + len(config) + 4) + config
    entry = struct.pack("<HHIHBBI", 8, 0, 0, 8, 0, 0x10, word)
    return chunk(0x0201, header, struct.pack("<I", 0) + entry)


def main():
    count, table, box, qualifiers = int(sys.argv[1]), sys.argv[2], sys.argv[3], sys.argv[4:]
    values = {"locale": locales(count), "mnc": list(range(1, count + 1))}
    configs = [record()] + [record(**{name: value}) for name in qualifiers for value in values[name]]
    types = b"".join(type_chunk(config, word) for word, config in enumerate(configs))
    package = chunk(0x0200, struct.pack("<I", 0x7F) + b"\0" * 276, type_spec(1, 1) + types)
    with open(table, "wb") as out:
        out.write(chunk(0x0002, struct.pack("<I", 1), chunk(0x0001, b"\0" * 20, b"") + package))
    with open(box, "w") as out:
        json.dump({"density": [160], **{name: values[name] for name in qualifiers}}, out)


if __name__ == "__main__":
    main()

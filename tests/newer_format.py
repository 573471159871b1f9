"""python3 newer_format.py TABLE: counts what a table has that restool reads wrong or passes over, since Android
8.1 does not know it. The status is 0 where it has none of it, 1 where it has any, and 2 where the file is not a
table or cannot be read."""
import struct
import sys

TABLE, PACKAGE, TYPE = 0x0002, 0x0200, 0x0201

SPARSE = 0x01
SHORT_OFFSETS = 0x02
COMPACT = 0x0008

# Where a type has its flags, the number of its entries, where they start, and its configuration. That begins with
# its size; restool reads its first 50 bytes, but not the grammatical gender.
FLAGS, COUNT, START, CONFIG = 9, 12, 16, 20
GENDER = 19
USED = 50


def number(form, bytes_, at):
    return struct.unpack_from("<" + form, bytes_, at)[0]


def types(chunks):
    """The chunks of types among these chunks and within them."""
    at = 0
    while at + 8 <= len(chunks):
        kind, header, size = struct.unpack_from("<HHI", chunks, at)
        chunk = chunks[at : at + size]
        if kind == TYPE:
            yield header, chunk
        elif kind in (TABLE, PACKAGE):
            yield from types(chunk[header:])
        at += max(size, 8)


def config(chunk):
    return chunk[CONFIG : CONFIG + number("I", chunk, CONFIG)]


def offsets(header, chunk):
    """The offsets of the entries of a type, in bytes. A sparse type has each behind the index of its entry."""
    count = number("I", chunk, COUNT)
    if chunk[FLAGS] & SPARSE:
        return [4 * number("H", chunk, header + 4 * n + 2) for n in range(count)]
    form, width, none, unit = ("H", 2, 0xFFFF, 4) if chunk[FLAGS] & SHORT_OFFSETS else ("I", 4, 0xFFFFFFFF, 1)
    all_offsets = [number(form, chunk, header + width * n) for n in range(count)]
    return [offset * unit for offset in all_offsets if offset != none]


def entries(header, chunk):
    """Where the entries of a type are in it."""
    return [number("I", chunk, START) + offset for offset in offsets(header, chunk)]


def is_compact(chunk, at):
    return at + 4 <= len(chunk) and number("H", chunk, at + 2) & COMPACT != 0


def compact_entries(header, chunk):
    return sum(is_compact(chunk, at) for at in entries(header, chunk))


def counts_of(table):
    """How often a table has each feature."""
    found = list(types(table))
    return {
        "types with 16-bit offsets": sum(chunk[FLAGS] & SHORT_OFFSETS != 0 for _, chunk in found),
        "compact entries": sum(compact_entries(*each) for each in found),
        "types with a grammatical gender": sum(config(chunk)[GENDER] != 0 for _, chunk in found),
        "types with other newer qualifiers": sum(any(config(chunk)[USED:]) for _, chunk in found),
    }


def is_table(bytes_):
    """Whether the first chunk is a table, and whole."""
    return len(bytes_) >= 8 and number("H", bytes_, 0) == TABLE and number("I", bytes_, 4) <= len(bytes_)


def stop(message):
    print(message, file=sys.stderr)
    sys.exit(2)


def main():
    if len(sys.argv) != 2:
        stop("usage: python3 newer_format.py TABLE")
    path = sys.argv[1]
    try:
        with open(path, "rb") as file:
            table = file.read()
    except OSError as error:
        stop(f"{path}: {error.strerror}")
    if not is_table(table):
        stop(f"not a resources.arsc: {path}")
    try:
        counts = counts_of(table)
    except (struct.error, IndexError):
        stop(f"a damaged resources.arsc: {path}")
    for name, count in counts.items():
        print(f"{name}: {count}")
    sys.exit(any(counts.values()))


main()

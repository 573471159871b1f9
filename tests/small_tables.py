"""Small tables that are easy to write. For the scripts beside it.

A table of rows: each is a line `ENTRY [QUALIFIERS] CELL`, as `0 [density=160,script=4c61746e] 2`, and a type chunk of its own, in
one package 0x7f with one type, so that entry 0 is the resource 0x7f010000. Behind `computed=` stands byte 52 of the configuration.
A cell is a decimal number, `@0x..`, `?0x..`, `empty`, `KIND:WORD` in hexadecimal, `string` for the first string of the table, or
`bag PARENT NAME=VALUE ..`."""
import struct

from made_layers import NO_STRINGS, chunk, table_of, type_chunk, type_spec
from plain_bags import Bag
from plain_rules import Record

TABLE_A = (
    bytes.fromhex("02000c00a001000001000000 01001c001c000000") + bytes(20)
    + bytes.fromhex("00022001780100007f000000") + bytes(276)
    + bytes.fromhex("0202100014000000010000000100000000000000 0102300044000000010000000100000034000000 1c000000") + bytes(24)
    + bytes.fromhex("00000000 0800000000000000 0800001005000000")
)
"""A table of one value, 0x7f010000, that was written byte by byte. Its package has no names."""


def pool_of_letter(letter):
    """A pool of one string of one letter."""
    return bytes.fromhex("01001c0024000000010000000000000000010000200000000000000000000000 0101") + letter + b"\0"


def changed(table, *pieces):
    """A table with other bytes from some places on, each a place and the bytes as digits."""
    for place, digits in pieces:
        some = bytes.fromhex(digits)
        table = table[:place] + some + table[place + len(some) :]
    return table


TABLE_B = changed(
    TABLE_A[:328] + pool_of_letter(b"s") + pool_of_letter(b"k") + TABLE_A[328:],
    (4, "e8010000"), (44, "c0010000"), (308, "20010000"), (316, "44010000"),
)
"""The same with names: it is s/k."""


def pool_of_string(strings, is_utf8=True, offset=0):
    """A pool whose one string stands at this offset of these bytes."""
    strings += bytes(-len(strings) % 4)
    header = struct.pack("<HHIIIIII", 1, 28, 32 + len(strings), 1, 0, 0x100 if is_utf8 else 0, 32, 0)
    return header + struct.pack("<I", offset) + strings


def pool_of_style(spans):
    """A pool of one style and no strings, whose spans are these bytes."""
    return chunk(0x0001, struct.pack("<IIIII", 0, 1, 0x100, 0, 32), struct.pack("<I", 0) + spans)


# ---- tables of rows


def record_of(text):
    given = dict(word.split("=") for word in text.split(",") if word)
    script, variant = (bytes.fromhex(given.pop(name, "")) for name in ("script", "variant"))
    computed = int(given.pop("computed", 0))
    return Record({name: value if name == "locale" else int(value) for name, value in given.items()}, script, variant, 0, computed)


def value_of(text):
    if text[0] in "@?":
        return "@?".index(text[0]) + 1, int(text[1:], 16)
    if ":" in text:
        kind, word = text.split(":")
        return int(kind, 16), int(word, 16)
    return {"empty": (0, 1), "string": (3, 0)}.get(text) or (0x10, int(text) & 0xFFFFFFFF)


def cell_of(text):
    if not text.startswith("bag "):
        return value_of(text)
    _, parent, *rows = text.split(" ")
    rows = (row.split("=") for row in rows)
    return Bag(int(parent, 16), [(int(name, 16), value_of(value)) for name, value in rows])


def row_of(line):
    entry, qualifiers, cell = line.split(" ", 2)
    return int(entry), record_of(qualifiers[1:-1]), cell_of(cell)


def table_of_lines(lines, strings=NO_STRINGS):
    rows = [row_of(line) for line in lines.splitlines()]
    count = 1 + max((entry for entry, _, _ in rows), default=0)
    return table_of(type_spec(1, count) + b"".join(type_chunk(count, *row) for row in rows), strings=strings)


def lines_of_chain(count, cell):
    """Entries 0 and on, so many, of which each has the next one's id in its cell: `@` or `bag `."""
    return "".join(f"{entry} [] {cell}0x{0x7F010001 + entry:08x}\n" for entry in range(count))

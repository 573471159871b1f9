#!/usr/bin/env python3
"""Writes small inputs that may cost much: the tables old.arsc and new.arsc, the lists of layers `old` and `new`, a `box` and `words`.

    make_hostile.py SHAPE N FOLDER

Each SHAPE is told at its function below; N says how large it is."""
import json
import os
import struct
import sys

sys.path.append(os.path.join(os.path.dirname(os.path.abspath(__file__)), "..", "tests"))
from made_layers import (
    NamedTable, Pool, Resource, chunk, entries_chunk, entry_bytes, ids_of, named_table_bytes, package_chunk, type_header, type_spec,
)
from plain_bags import Bag
from plain_rules import Record

ANY = Record({})
ONE_DEVICE = {"density": [160]}
FIRST_NAME = 0x02000000
SWITCHES = tuple("mcc mnc long round wideColor hdr orientation uiType night touchscreen keyboard navigation sdk".split())
"""Coordinates of which a device either has the number that a row asks for or not."""


def decimal(number):
    return 0x10, number


def rows_of(count, last=0):
    """So many rows, of which the last says this."""
    return [(FIRST_NAME + place, decimal(place)) for place in range(count - 1)] + [(FIRST_NAME + count - 1, decimal(last))]


def table_of(resources):
    return NamedTable(resources, ids_of(resources)).bytes


def style(name, *rows):
    return Resource("style", name, rows)


def one_type(names, chunks):
    """A table of one type, whose entries have these names, and the entries of its chunks."""
    children = type_spec(1, 1 + max(index for _, entries in chunks for index in entries))
    children += b"".join(entries_chunk(1, record, entries, False) for record, entries in chunks)
    return named_table_bytes(Pool(()), [package_chunk(0x7F, None, Pool(["style"]), Pool(names), children)])


# ---- the shapes: the table before and after, the box, and the file of words


def shared_bag(n):
    """n entries that are one bag of n rows, of which the last changes."""
    tables = []
    for last in (1, 2):
        bag = entry_bytes(Bag(0, rows_of(n, last)))
        tables.append(one_type(["name"], [(ANY, {index: bag for index in range(n)})]))
    return *tables, ONE_DEVICE, ""


def themed(n):
    """n styles below a theme of n attributes, of which the last changes."""
    below = [style(f"s{place:05}", (ANY, Bag("style/theme", []))) for place in range(n)]
    return *(table_of([style("theme", (ANY, Bag(0, rows_of(n, last)))), *below]) for last in (1, 2)), ONE_DEVICE, ""


def leaves(n):
    """A style of 400 rows below n parents, each with a row for some devices: 2 to the n leaves, at each of which one row
    changes."""
    switches = SWITCHES[:n]
    tables = []
    for last in (1, 2):
        chain = [style("leaf", (ANY, Bag("style/parent0", rows_of(400, last))))]
        for place, name in enumerate(switches):
            parent = f"style/parent{place + 1}" if place + 1 < n else 0
            bag = [Bag(parent, [(FIRST_NAME + 0x1000 + place, decimal(number))]) for number in (0, 1)]
            chain.append(style(f"parent{place}", (ANY, bag[0]), (Record({name: 2}), bag[1])))
        tables.append(table_of(chain))
    return *tables, {**ONE_DEVICE, **{name: [1, 2] for name in switches}}, ""


def many_names(n):
    """An id of n rows, each for an operator of its own, and each with another name. All say something else afterwards."""
    names = [f"n{place:05}" for place in range(n)]
    chunks = ([(Record({"mcc": place + 1}), {0: entry_bytes(decimal(said), place)}) for place in range(n)] for said in (1, 2))
    return *(one_type(names, list(some)) for some in chunks), {**ONE_DEVICE, "mcc": [1]}, ""


def by_sdk(n):
    """An id of n rows, each for a version of its own. All say something else afterwards."""
    rows = ([(Record({"sdk": place + 1}), decimal(2 * place + said)) for place in range(n)] for said in (0, 1))
    return *(table_of([Resource("dimen", "d", some)]) for some in rows), {**ONE_DEVICE, "sdk": {"from": 1, "to": n}}, ""


def by_sdk_and_night(n):
    """The same with a row for the night beside them."""
    night = Record({"night": 2}), decimal(7)
    rows = ([(Record({"sdk": place + 1}), decimal(2 * place + said)) for place in range(n)] + [night] for said in (0, 1))
    box = {**ONE_DEVICE, "sdk": {"from": 1, "to": n}, "night": [1, 2]}
    return *(table_of([Resource("dimen", "d", some)]) for some in rows), box, ""


def wide_bag(n):
    """Two thirds of n entries that are one bag of n rows."""
    bag = entry_bytes(Bag(0, rows_of(n)))
    table = one_type(["name"], [(ANY, {index: bag for index in range(2 * n // 3)})])
    return table, table, ONE_DEVICE, ""


def heads(n):
    """A table of 4,000 values, and an overlay that has bags for them. Their rows are the same n: the head of each bag says how
    far away these begin."""
    count = 4000
    names = [f"n{place:04}" for place in range(count)]
    ends = [struct.pack("<HHIII", 16 * (count - place), 1, place, 0, n) for place in range(count)]
    rows = entry_bytes(Bag(0, rows_of(n)))[16:]
    header = type_header(1, 0, ANY, count, 4 * count)
    offsets = struct.pack(f"<{count}I", *range(0, 16 * count, 16))
    children = type_spec(1, count) + chunk(0x0201, header, offsets + b"".join(ends) + rows)
    overlay = named_table_bytes(Pool(()), [package_chunk(0x7F, None, Pool(["style"]), Pool(names), children)])
    target = one_type(names, [(ANY, {place: entry_bytes(decimal(0), place) for place in range(count)})])
    return target, overlay, ONE_DEVICE, ""


def of_words(count, word, is_cut=False):
    """A table of 100 values, which may be cut, and a file that says this word so often."""
    table = table_of([Resource("dimen", f"d{place}", [(ANY, decimal(place))]) for place in range(100)])
    table = table[:-4] if is_cut else table
    return table, table, ONE_DEVICE, f"{word}\n" * count


SHAPES = {
    "shared-bag": shared_bag,
    "themed": themed,
    "leaves": leaves,
    "many-names": many_names,
    "by-sdk": by_sdk,
    "by-sdk-and-night": by_sdk_and_night,
    "wide-bag": wide_bag,
    "heads": heads,
    "stars": lambda n: of_words(n, "*"),
    "refused-stars": lambda n: of_words(n, "*", True),
    "refused-names": lambda n: of_words(n, "a/b", True),
}


def main():
    shape, n, folder = sys.argv[1], int(sys.argv[2]), sys.argv[3]
    *tables, box, words = SHAPES[shape](n)
    for name, table in zip(("old", "new"), tables):
        write(folder, f"{name}.arsc", table)
        write(folder, name, json.dumps([{"table": f"{name}.arsc"}]).encode())
    write(folder, "box", json.dumps(box).encode())
    write(folder, "words", words.encode())


def write(folder, name, some):
    with open(os.path.join(folder, name), "wb") as out:
        out.write(some)


main()

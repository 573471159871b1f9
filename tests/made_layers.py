"""Makes tables of rows, in the files that restool reads. For the scripts beside it."""
import os
import struct
import sys
from collections import namedtuple

sys.path.append(os.path.join(os.path.dirname(os.path.abspath(__file__)), "..", "bench"))
import make_strings
from make_rows import NO_ENTRY, chunk, type_spec
from make_strings import shown

from plain_bags import Bag
from plain_certificates import order_of
from plain_map import Row

PACKAGE_HEADER = 284


def record_bytes(record):
    """A configuration as a type holds it: of 52 bytes, or of 56 where byte 52 is not 0."""
    numbers = record.numbers
    rest = struct.pack("<B3x", record.computed) if record.computed else b""
    layout = numbers["layoutDirection"] << 6 | numbers["long"] << 4 | numbers["screenSize"]
    script, variant = record.script.ljust(4, b"\0"), record.variant.ljust(8, b"\0")
    fields = struct.pack(
        "<IHH4sBBHBBBBHHHHBBHHH4s8sBBxx",
        52 + len(rest),
        numbers["mcc"],
        numbers["mnc"],
        order_of(record.locale),
        numbers["orientation"],
        numbers["touchscreen"],
        numbers["density"],
        numbers["keyboard"],
        numbers["navigation"],
        numbers["navHidden"] << 2 | numbers["keysHidden"],
        record.spare,
        numbers["width"],
        numbers["height"],
        numbers["sdk"],
        numbers["minor"],
        layout,
        numbers["night"] << 4 | numbers["uiType"],
        numbers["smallestWidthDp"],
        numbers["widthDp"],
        numbers["heightDp"],
        script,
        variant,
        numbers["round"],
        numbers["hdr"] << 2 | numbers["wideColor"],
    )
    return fields + rest


def value_bytes(kind, word):
    return struct.pack("<HBBI", 8, 0, kind, word)


def entry_bytes(cell, key=0):
    """A value, or a bag, with the index of its name."""
    if isinstance(cell, Bag):
        rows = b"".join(struct.pack("<I", name) + value_bytes(*value) for name, value in cell.rows)
        return struct.pack("<HHIII", 16, 1, key, cell.parent, len(cell.rows)) + rows
    return struct.pack("<HHI", 8, 0, key) + value_bytes(*cell)


def type_chunk(count, entry, record, cell):
    """A type with one row: all its entries but this one are missing."""
    offsets = [0 if place == entry else NO_ENTRY for place in range(count)]
    return chunk(0x0201, type_header(1, 0, record, count, 4 * count), struct.pack(f"<{count}I", *offsets) + entry_bytes(cell))


def type_header(type_id, flags, record, count, size):
    """The header of a type, behind the first eight bytes. It has so many entries, and so many bytes say where they are."""
    config = record_bytes(record)
    return struct.pack("<BBHII", type_id, flags, 0, count, 20 + len(config) + size) + config


class Broken(namedtuple("Broken", "fault mark")):
    """A string of a pool that cannot be read, for this fault, `Cut` or `NotEnded`. Of one fault several are told apart by a mark."""


class Pool:
    """A pool of these texts, in UTF-8 or UTF-16. Two surrogates are a pair, also in UTF-8, where each has three bytes."""

    def __init__(self, texts, is_utf16=False):
        self.texts = list(texts)
        self.is_utf16 = is_utf16
        self.bytes = make_strings.pool_chunk(["x" if isinstance(text, Broken) else text for text in self.texts], is_utf16)
        for index, text in enumerate(self.texts):
            if isinstance(text, Broken):
                self.bytes = with_fault(self.bytes, index, text.fault, 4 if is_utf16 else 3)

    def get(self, index):
        """The text of an index, None where it is no text, and how it is printed."""
        fault = self.fault(index)
        if fault:
            return None, f"!{fault}"
        text = self.texts[index]
        whole = joined_pairs(text)
        return None if has_surrogate(whole) else whole, shown(whole if self.is_utf16 else text, self.is_utf16)

    def fault(self, index):
        """Why a string cannot be read, None where it can."""
        if not 0 <= index < len(self.texts):
            return "NoSuch"
        return getattr(self.texts[index], "fault", None)


def with_fault(pool, index, fault, end):
    """A pool of which one string stands outside, or is not closed by the zero that many bytes behind its beginning."""
    at = 28 + 4 * index
    offset = struct.unpack_from("<I", pool, at)[0]
    if fault == "Cut":
        return pool[:at] + struct.pack("<I", len(pool)) + pool[at + 4 :]
    zero = struct.unpack_from("<I", pool, 20)[0] + offset + end
    return pool[:zero] + b"x" + pool[zero + 1 :]


def joined_pairs(text):
    """A text in which two surrogates that make a pair are one character."""
    return text.encode("utf-16-le", "surrogatepass").decode("utf-16-le", "surrogatepass")


def has_surrogate(text):
    return any(0xD800 <= ord(character) <= 0xDFFF for character in text)


def entries_chunk(type_id, record, entries, is_sparse):
    """A type with these entries, the bytes of each by its index. The indexes rise. Equal bytes stand once."""
    starts, stored = {}, b""
    for entry in entries.values():
        if entry not in starts:
            starts[entry] = len(stored)
            stored += entry
    if is_sparse:
        offsets = b"".join(struct.pack("<HH", index, starts[entry] // 4) for index, entry in entries.items())
    else:
        dense = [starts[entries[index]] if index in entries else NO_ENTRY for index in range(1 + max(entries, default=-1))]
        offsets = struct.pack(f"<{len(dense)}I", *dense)
    header = type_header(type_id, is_sparse, record, len(offsets) // 4, len(offsets))
    return chunk(0x0201, header, offsets + stored)


NO_STRINGS = chunk(0x0001, b"\0" * 20, b"")


def table_of(children, package_id=0x7F, strings=NO_STRINGS):
    """A table of one package without names."""
    package = chunk(0x0200, struct.pack("<I", package_id) + b"\0" * 276, children)
    return chunk(0x0002, struct.pack("<I", 1), strings + package)


def table_bytes(rows):
    """A table of one package and one type. A row is an id, a configuration and a cell."""
    count = 1 + max((name & 0xFFFF for name, _, _ in rows), default=0)
    children = type_spec(1, count) + b"".join(type_chunk(count, name & 0xFFFF, *row) for name, *row in rows)
    return table_of(children, rows[0][0] >> 24 if rows else 0x7F)


# ---- tables with names


def package_chunk(package_id, offset, types, keys, children, name=""):
    """A package with these pools of names. Without an offset of its types it has the shorter header."""
    size = PACKAGE_HEADER if offset is None else PACKAGE_HEADER + 4
    named = name.encode("utf-16-le", "surrogatepass")
    header = struct.pack("<I256s4I", package_id, named, size, 0, size + len(types.bytes), 0)
    header += b"" if offset is None else struct.pack("<I", offset)
    return chunk(0x0200, header, types.bytes + keys.bytes + children)


def named_table_bytes(strings, packages):
    """A table of packages with a pool of strings."""
    return chunk(0x0002, struct.pack("<I", len(packages)), strings.bytes + b"".join(packages))


Text = namedtuple("Text", "text")
"""A value that is a string."""


class Resource(namedtuple("Resource", "type_name entry_name rows")):
    """A resource by its names, with its rows, each a configuration and a cell. In a cell a `Text` stands for a string of the
    table, `@color/clay` and `?attr/tint` for references and attributes, and in a bag `attr/tint` for the id of a row or of the
    parent."""

    @property
    def name(self):
        return f"{self.type_name}/{self.entry_name}"


def ids_of(resources, package_id=0x7F):
    """The id of each resource, by its name: types and entries are numbered in their order."""
    types, counts, ids = {}, {}, {}
    for resource in resources:
        type_id = types.setdefault(resource.type_name, len(types) + 1)
        index = counts[type_id] = counts.get(type_id, -1) + 1
        ids.setdefault(resource.name, package_id << 24 | type_id << 16 | index)
    return ids


class NamedTable:
    """A table of resources of one package, in which names stand for these ids. A type has a chunk for each configuration of its
    rows. The pool has first these strings, and then those of rows."""

    def __init__(self, resources, ids, package_id=0x7F, strings=(), is_utf16=False, is_sparse=False, name=""):
        self.ids, self.is_sparse, self.rows, self.packages = ids, is_sparse, [], [(package_id, name)]
        self.indexes = {text: index for index, text in enumerate(dict.fromkeys(strings))}
        types = list(dict.fromkeys(resource.type_name for resource in resources))
        keys = list(dict.fromkeys(resource.entry_name for resource in resources))
        self.types, self.keys = Pool(types, is_utf16), Pool(keys, is_utf16)
        self.key_of = {key: index for index, key in enumerate(keys)}
        children = b""
        for type_id, type_name in enumerate(types, 1):
            of_type = [resource for resource in resources if resource.type_name == type_name]
            children += type_spec(type_id, len(of_type)) + self.type_chunks(package_id << 24 | type_id << 16, of_type)
        self.strings = Pool(self.indexes, is_utf16)
        self.bytes = named_table_bytes(self.strings, [package_chunk(package_id, None, self.types, self.keys, children, name)])

    def type_chunks(self, first_id, resources):
        chunks = {}
        for index, resource in enumerate(resources):
            for place, (record, cell) in enumerate(resource.rows):
                before = sum(other is record for other, _ in resource.rows[:place])
                chunks.setdefault((record, before), {})[index] = self.cell(cell)
        return b"".join(self.entries(first_id, record, resources, cells) for (record, _), cells in chunks.items())

    def entries(self, first_id, record, resources, cells):
        """The chunk of one configuration."""
        type_id, entries = first_id >> 16 & 0xFF, {}
        type_name = self.types.get(type_id - 1)
        for index, cell in cells.items():
            key = self.key_of[resources[index].entry_name]
            names = type_name, self.keys.get(key)
            said = tuple(text for text, _ in names), "/".join(shown for _, shown in names)
            self.rows.append(Row(first_id | index, *said, record, cell))
            entries[index] = entry_bytes(cell, key)
        return entries_chunk(type_id, record, entries, self.is_sparse)

    def cell(self, cell):
        if not isinstance(cell, Bag):
            return self.value(cell)
        return Bag(self.id(cell.parent), [(self.id(name), self.value(value)) for name, value in cell.rows])

    def value(self, value):
        if isinstance(value, Text):
            return 3, self.indexes.setdefault(value.text, len(self.indexes))
        if isinstance(value, str):
            return "@?".index(value[0]) + 1, self.id(value[1:])
        return value

    def id(self, name):
        return self.ids.get(name, 0) if isinstance(name, str) else name

"""Random tables with few names, for the scripts beside it. Many names are in several tables, twice in one, or missing. A table
has up to three packages, whose names may be those of others, names in UTF-8 and UTF-16 of which some cannot be read or are no text, values and bags with references,
and several rows of an id with different names."""
from made_layers import Pool, entries_chunk, entry_bytes, named_table_bytes, package_chunk, type_spec
from plain_bags import Bag
from plain_map import Row
from plain_rules import Record

PACKAGES = (0x7F, 0x7F, 0x7F, 0x7F, 0x01, 0x02)
TYPE_NAMES = ("color", "dimen", "style")
ENTRY_NAMES = ("handle", "títle", "clay", 'a "b"')
PACKAGE_NAMES = ("android", "org.example.app", "org.example.app", "library", "", "0x02", "a:b", "half \ud83d")
ODD_NAMES = ("é", "x\n", "", "half \ud83d", "\ud83d\ude00", "😀")
TYPES, ENTRIES, MOST_ROWS = len(TYPE_NAMES), len(ENTRY_NAMES), 3


def random_id(chance):
    package = chance.choice(PACKAGES + (0,))
    return package << 24 | chance.randint(1, TYPES) << 16 | chance.randrange(ENTRIES)


def random_value(chance):
    return chance.choice((1, 1, 1, 2, 7, 8, 0x10)), random_id(chance)


def random_cell(chance):
    if chance.random() < 0.6:
        return random_value(chance)
    rows = [(random_id(chance), random_value(chance)) for _ in range(chance.randint(0, MOST_ROWS))]
    return Bag(chance.choice((0, random_id(chance))), rows)


def names_of(chance, texts):
    """A pool of these names in some order, of which some stand twice, are others, or are missing."""
    is_utf16 = chance.random() < 0.5
    names = chance.sample(texts, len(texts)) if chance.random() < 0.5 else list(texts)
    for place in range(len(texts)):
        if chance.random() < 0.1:
            names[place] = chance.choice(texts + ODD_NAMES)
    if chance.random() < 0.2:
        del names[chance.randint(0, len(texts)) :]
    return Pool(names, is_utf16)


class Table:
    """A table, its rows in the order of its bytes. It has no strings but names."""

    def __init__(self, chance):
        self.rows, self.packages, self.strings = [], [], Pool(())
        packages = [self.package(chance) for _ in range(chance.choice((0, 1, 1, 1, 1, 1, 2, 3)))]
        self.bytes = named_table_bytes(self.strings, packages)

    def package(self, chance):
        package_id, offset = chance.choice(PACKAGES), chance.choice((None, None, 0, 0, 1))
        name = "android" if package_id == 1 and chance.random() < 0.8 else chance.choice(PACKAGE_NAMES)
        self.packages.append((package_id, None if "\ud83d" in name else name))
        types, keys = names_of(chance, TYPE_NAMES), names_of(chance, ENTRY_NAMES)
        children = b""
        for type_id in chance.sample(range(1, TYPES + 1), chance.choice((1, TYPES, TYPES))):
            children += type_spec(type_id, ENTRIES)
            for _ in range(chance.choice((1, 1, 2))):
                named = types.get(type_id - 1 - (offset or 0))
                children += self.type_chunk(chance, package_id << 24 | type_id << 16, named, keys)
        return package_chunk(package_id, offset, types, keys, children, name)

    def type_chunk(self, chance, first_id, type_name, keys):
        entries, record = {}, Record({})
        for index in sorted(chance.sample(range(ENTRIES), chance.choice((0, 2, ENTRIES, ENTRIES)))):
            key, cell = chance.randint(0, ENTRIES) if chance.random() < 0.3 else index, random_cell(chance)
            entries[index] = entry_bytes(cell, key)
            names = type_name, keys.get(key)
            said = tuple(text for text, _ in names), "/".join(shown for _, shown in names)
            self.rows.append(Row(first_id | index, *said, record, cell))
        return entries_chunk(first_id >> 16 & 0xFF, record, entries, chance.random() < 0.2)

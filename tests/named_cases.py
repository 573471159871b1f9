"""Random certificates over layers whose resources have names and strings, of which many need escapes. For check_answer_json.py."""
from made_layers import Broken, Pool, entries_chunk, entry_bytes, named_table_bytes, package_chunk, type_spec
from named_tables import ENTRY_NAMES, ODD_NAMES, PACKAGE_NAMES
from plain_bags import Bag
from plain_diff import FORMATS, OF_ATTRIBUTES, QUANTITIES, STRING
from plain_rules import Record
from random_apps import TEXTS
from random_cases import ATTRIBUTES, ENTRIES, FIRST_ATTRIBUTE, CertifiedCase
from random_locales import CertifiedLocaleCase

MARKUP = """<b>a</b> &amp; '"' <!--"""
TYPE_NAMES = ("style", "style", "array", "plurals", "attr", "color", "a:b", "a/b", *ODD_NAMES)
RESOURCE_NAMES = (*ENTRY_NAMES, *ODD_NAMES, MARKUP, "Theme.Dark", "*", "@x", "a\u2028b", "tab\t", "back\\", "\x1b[2K", "\x7f")
STRINGS = (*TEXTS, MARKUP, "\0", "a\r\nb\t", "back\\", r"\u0041", "\x1b[2K", "\ufeff", Broken("Cut", 1))
MOST_STRINGS = 6
KINDS = (4, 5, 6, 7, 8, 0x11, 0x12, 0x1C, 0x1D, 0x1E, 0x1F, 0x55)
WORDS = (0, 1, 0x401, 0xC1, 0x3F800000, 0x80123456, 0xFFFFFFFF)
ROW_NAMES = (*OF_ATTRIBUTES, *QUANTITIES, 0x02000000, 0x02000001)
"""What names rows of arrays, of plurals and of attributes."""
FRAMEWORK = 0x01


class Named:
    """A case whose tables have names and strings. In most cases the attributes have names too, in a base behind all others."""

    def __init__(self, chance, has_styles=False):
        super().__init__(chance, has_styles)
        if chance.random() < 0.7:
            names = range(FIRST_ATTRIBUTE, FIRST_ATTRIBUTE + ATTRIBUTES)
            self.tables.append([(name, Record({}), Bag(rows=self.rows_of_attribute())) for name in names])
            self.maps.append(None)

    # ---- rows

    def rows_of_attribute(self):
        more = [(self.chance.choice(ROW_NAMES), self.other_value()) for _ in range(self.chance.randrange(3))]
        return [(FORMATS, (0x10, 1 << self.chance.randrange(18))), *more]

    def other_value(self):
        if self.chance.random() < 0.6:
            return STRING, self.chance.randint(0, MOST_STRINGS)
        return self.chance.choice(KINDS), self.chance.choice(WORDS)

    def value_of_row(self):
        return self.other_value() if self.chance.random() < 0.4 else super().value_of_row()

    def cell(self):
        return self.other_value() if self.chance.random() < 0.4 else super().cell()

    def style(self, name):
        bag = super().style(name)
        if self.chance.random() < 0.3:
            bag.rows += [(self.chance.choice(ROW_NAMES), self.value_of_row()) for _ in range(3)]
        return bag

    # ---- tables

    def table_bytes(self, rows):
        package_id = rows[0][0] >> 24 if rows else 0x7F
        is_framework = package_id == FRAMEWORK
        type_name = "attr" if is_framework else self.chance.choice(TYPE_NAMES)
        types, keys, strings = (self.pool(each) for each in ([type_name], self.names(), self.strings()))
        count = 1 + max((name & 0xFFFF for name, _, _ in rows), default=0)
        children = type_spec(1, count) + b"".join(self.type_chunk(*row) for row in rows)
        name = "android" if is_framework else self.chance.choice(PACKAGE_NAMES)
        return named_table_bytes(strings, [package_chunk(package_id, None, types, keys, children, name)])

    def pool(self, texts):
        return Pool(texts, self.chance.random() < 0.5)

    def names(self):
        """Of each entry, of which now and then two have the same, or some have none."""
        names = self.chance.sample(RESOURCE_NAMES, ENTRIES)
        return names[: self.chance.randint(0, ENTRIES)] if self.chance.random() < 0.1 else names

    def strings(self):
        return self.chance.sample(STRINGS, self.chance.randint(0, MOST_STRINGS))

    def type_chunk(self, name, record, cell):
        """A type with one row, which seldom has the name of another entry."""
        index = name & 0xFFFF
        key = self.chance.randrange(ENTRIES) if self.chance.random() < 0.1 else index
        return entries_chunk(1, record, {index: entry_bytes(cell, key)}, self.chance.random() < 0.1)


class NamedCase(Named, CertifiedCase):
    """With locales by language and region."""


class NamedLocaleCase(Named, CertifiedLocaleCase):
    """As a phone compares them."""

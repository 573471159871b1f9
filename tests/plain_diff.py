"""A plain reading of what two stacks of layers say differently, for one device at a time. For the scripts beside it.

A label is a name, `(package, type, entry)`, or an id. A content is `Said`, or, of a bag, its rows, each a `Row`. The difference of
two contents is what a line of a change says behind its label, and the lines of rows below it; None where they say the same."""
from collections import namedtuple
from itertools import zip_longest

import plain_devices
from plain_map import first_rows
from plain_names import label_text, said_text
from plain_notation import formats_text, xml_text
from plain_rules import COORDS, Layers, by_id, step_of, value_text
from plain_words import is_asked, parts_of

REFERENCE, ATTRIBUTE, STRING, BOOLEAN = 1, 2, 3, 0x12
NUMBERS = range(0x10, 0x20)
COMPLEX = 5, 6
FORMATS = 0x01000000
OF_ATTRIBUTES = dict(zip(range(FORMATS, FORMATS + 4), ("format", "min", "max", "localization")))
QUANTITIES = dict(zip(range(0x01000004, 0x0100000A), ("other", "zero", "one", "two", "few", "many")))

Said = namedtuple("Said", "text read")
"""What is no bag: how it is printed, and what a device reads of it."""
Row = namedtuple("Row", "key name said")
"""A row of a bag: its key, by which rows are in order, how that is printed, and what its value says."""


# ---- labels


def labels_of(rows):
    """The names of each id that are text, by the ids in the order of the rows."""
    labels = {}
    for row in rows:
        of_id = labels.setdefault(row.id, [])
        if None not in row.names:
            of_id.append((row.id >> 24, *row.names))
    return labels


def in_order(label):
    """Names by package, then by type and entry, byte by byte, and ids behind them."""
    return (1, label) if isinstance(label, int) else (0, label[0], *(text.encode() for text in label[1:]))


# ---- what a resource says


class Stack:
    """Layers over one another: each a table with its rows and strings, and the id map of an overlay, None at a base. What they say
    is printed in Android's notation, or raw."""

    def __init__(self, layers, layers_of=Layers, is_raw=False):
        self.is_raw = is_raw
        self.layers = layers_of([(by_id((row.id, row.record, row.cell) for row in table.rows), own) for table, own in layers])
        self.strings = [table.strings for table, _ in layers]
        bases = [table for table, own in layers if own is None]
        self.packages = [package for table in bases for package in table.packages]
        """Those by which resources are told."""
        rows = [row for table in bases for row in table.rows]
        self.first = first_rows(rows)
        self.names = {}
        """What each name stands for."""
        for row in rows:
            for label in labels_of([row])[row.id]:
                self.names.setdefault(label, row.id)
        self.labels = labels_of(rows)
        others = self.labels.keys() - self.names.values()
        self.ids = {**self.names, **{name: name for name in others}}
        """What each label stands for."""

    def shared_names(self):
        """How many ids have a name that stands for another."""
        return sum(any(self.names[label] != name for label in labels) for name, labels in self.labels.items())

    def label(self, name):
        """What an id is called: by the name of its first row, if that stands for the id."""
        row = self.first.get(name)
        label = row and (name >> 24, *row.names)
        return label if self.ids.get(label) == name else name

    def id_content(self, name):
        return label_text(self.packages, self.label(name))

    def string_content(self, layer, index):
        strings = self.strings[layer]
        fault = strings.fault(index)
        return f"!{fault} {index}" if fault else said_text(strings.texts[index], strings.is_utf16)

    def value_content(self, layer, kind, word):
        if kind == STRING:
            text = self.string_content(layer, word)
        elif (kind, word) == (REFERENCE, 0) and not self.is_raw:
            text = "@null"
        elif kind in (REFERENCE, ATTRIBUTE):
            text = f"{'@' if kind == REFERENCE else '?'}{self.id_content(word)}"
        else:
            text = value_text(kind, word) if self.is_raw else xml_text(kind, word_read(kind, word))
        return Said(text, read_of(kind, word, text))

    def row(self, type_name, place, name, layer, kind, word):
        """A row of a bag. Of the formats of an attribute it has the words."""
        key, text = self.key(type_name, place, name)
        said = self.value_content(layer, kind, word)
        if key == (2, (1, FORMATS)) and kind in NUMBERS and not self.is_raw:
            said = said._replace(text=formats_text(kind, word_read(kind, word)))
        return Row(key, text, said)

    def content(self, name, device):
        """What an id says at a device."""
        end = self.layers.way(name, device)[1]
        if end[0] == "value":
            return self.value_content(*end[1:])
        if end[0] == "bag":
            return self.bag_content(end[1], device)
        return self.no_content("absent" if end[0] == "absent" else "too many references", end[1])

    def no_content(self, why, name):
        text = f"{why} {self.id_content(name)}"
        return Said(text, text)

    def bag_content(self, name, device):
        rows = self.layers.way_of_bag(name, device)[1]
        if rows == "too long":
            return self.no_content("too many parents", name)
        first = self.first.get(name)
        type_name = first and first.names[0]
        said = [self.row(type_name, place, row, layer, *value) for place, (row, layer, value) in enumerate(rows)]
        return tuple(sorted(said, key=lambda row: row.key))

    def key(self, type_name, place, name):
        """The key of a row in a bag of a type, and how it is printed."""
        if type_name == "array":
            return (0, place), f"[{place}]"
        if type_name == "plurals" and name in QUANTITIES:
            return (1, name), QUANTITIES[name]
        label = self.label(name)
        text = label_text(self.packages, label)
        return (2, in_order(label)), text if self.is_raw else OF_ATTRIBUTES.get(label, text)

    def trace(self, name, device):
        """What the candidates of an id do, and those of its references and, of a bag, of its parents; and the end."""
        look_ups, end = self.layers.way(name, device)
        if end[0] == "bag":
            look_ups = look_ups + self.layers.way_of_bag(end[1], device)[0]
        return tuple(step_of(decided) for _, told in look_ups for _, decided in told), end


def word_read(kind, word):
    """What a device reads of a word: of a boolean whether it is 0, and not bits 6 and 7 of a dimension or a fraction."""
    if kind == BOOLEAN:
        return word and 0xFFFFFFFF
    return word & ~0xC0 if kind in COMPLEX else word


def read_of(kind, word, text):
    """What a device reads of a value: of numbers the word, of a boolean whether it is 0, of others what is printed."""
    if kind == BOOLEAN:
        return BOOLEAN, word != 0
    return ("number", word) if kind in NUMBERS else text


# ---- what two contents say differently


def rows_of(content):
    return () if isinstance(content, Said) else content


def row_lines(before, after):
    """What becomes of the rows of each key, in the order of keys: the first before with the first after, and so on."""
    for key in sorted({row.key for row in before + after}):
        of_key = ([row for row in rows if row.key == key] for rows in (before, after))
        for old, new in zip_longest(*of_key):
            if new is None:
                yield f"  removed {old.name} {old.said.text}"
            elif old is None:
                yield f"  added {new.name} {new.said.text}"
            elif old.said.read != new.said.read:
                yield f"  {new.name} {old.said.text} -> {new.said.text}"


def difference(before, after):
    lines = tuple(row_lines(rows_of(before), rows_of(after)))
    if not isinstance(before, Said) and not isinstance(after, Said):
        return ("", lines) if lines else None
    if isinstance(before, Said) and isinstance(after, Said) and before.read == after.read:
        return None
    texts = (content.text if isinstance(content, Said) else "bag" for content in (before, after))
    return f" {' -> '.join(texts)}", lines


def all_said(content):
    """What a line says of a content alone."""
    if isinstance(content, Said):
        return f" {content.text}", ()
    return "", tuple(f"  {row.name} {row.said.text}" for row in content)


# ---- two stacks


class Both:
    """Two stacks, of which an id of each is asked at once. Resources of both are told by the packages of both."""

    def __init__(self, old, new):
        self.stacks = old, new
        self.packages = old.packages = new.packages = old.packages + new.packages

    def difference(self, ids, device):
        return difference(*(stack.content(name, device) for stack, name in zip(self.stacks, ids)))

    def said(self, ids, device):
        """What the stack after says alone."""
        return all_said(self.stacks[1].content(ids[1], device))

    def trace(self, ids, device):
        return tuple(stack.trace(name, device) for stack, name in zip(self.stacks, ids))

    def counts(self):
        """The lines of what both stacks count, where they count some."""
        shared = [stack.shared_names() for stack in self.stacks]
        set_aside = [stack.layers.set_aside() for stack in self.stacks]
        for words, counts in (("warning shared-names", shared), ("set-aside", set_aside)):
            if any(counts):
                yield f"{words} {counts[0]} {counts[1]}"

    def counts_of_one(self):
        """The same of the stack after alone."""
        for words, count in (("warning shared-names", self.stacks[1].shared_names()), ("set-aside", self.stacks[1].layers.set_aside())):
            if count:
                yield f"{words} {count}"


def pairs_of(old, new):
    """The labels of two stacks in their order, each with the ids that it stands for before and after, None where for nothing."""
    for label in sorted(old.ids.keys() | new.ids.keys(), key=in_order):
        yield label, (old.ids.get(label), new.ids.get(label))


def asks_for(packages, word, pair):
    """Whether a word asks for a pair: by an id on either side, or by a name."""
    label, ids = pair
    if "/" not in word:
        return word == "*" or int(word, 16) in ids
    package, (type_name, entry_name) = parts_of(word)
    is_named = not isinstance(label, int) and label[1] == type_name and entry_name in ("*", label[2])
    return is_named and is_asked(packages, package, label[0])


# ---- devices


def values_text(box, name, values):
    if box.is_range(name):
        return f"{values[0]}..{values[-1]}" if len(values) > 1 else str(values[0])
    return ",".join("none" if value == "" else str(value) for value in values)


def set_of(box, name, values):
    """The values of a coordinate as plain_devices has them."""
    return (values[0], values[-1]) if box.is_range(name) else list(values)


def devices_text(box, part, is_raw):
    """The devices of a part of a box, which is the values of some coordinates: those where it is narrower."""
    if not is_raw:
        whole = {name: set_of(box, name, values) for name, values in box.sets.items()}
        return plain_devices.devices_text(whole, {name: set_of(box, name, values) for name, values in part.items()})
    said = [
        f" {name}={values_text(box, name, part[name])}"
        for name in COORDS
        if name in part and len(part[name]) < len(box.sets[name])
    ]
    return f" on{''.join(said)}" if said else ""


def part_of(box, text, is_raw):
    """The values of the coordinates that are written behind ` on`."""
    if not is_raw:
        whole = {name: set_of(box, name, values) for name, values in box.sets.items()}
        said = plain_devices.part_of(whole, text)
        return {
            name: range(values[0], values[1] + 1) if isinstance(values, tuple) else values
            for name, values in said.items()
            if values != whole[name]
        }
    return {name: values_of(box, name, said) for name, said in (word.split("=") for word in text.split()[1:])}


def values_of(box, name, text):
    if name == "locale":
        return ["" if value == "none" else value for value in text.split(",")]
    if not box.is_range(name):
        return [int(value) for value in text.split(",")]
    low, _, high = text.partition("..")
    return range(int(low), int(high or low) + 1)

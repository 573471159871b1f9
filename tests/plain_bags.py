"""A plain reading of bags and of attributes under styles, for one device at a time. For the scripts beside it.

A goal is an id, or an attribute with the styles that are applied before it is asked."""
from typing import NamedTuple

PARENTS = 64
ATTRIBUTES = 20
NULL, REFERENCE, ATTRIBUTE = 0, 1, 2
EMPTY = 1


class Bag:
    """A bag of a table: its parent, 0 where it has none, and its rows, each a name and `(kind, word)`."""

    def __init__(self, parent=0, rows=()):
        self.parent = parent
        self.rows = list(rows)


class Attribute(NamedTuple):
    attr: int
    styles: tuple


def insert_rows(merged, layer, rows):
    """Own rows go into merged ones from the front, in place."""
    at = 0
    for name, value in rows:
        while at < len(merged) and merged[at][0] < name:
            at += 1
        if at < len(merged) and merged[at][0] == name:
            merged[at] = (name, layer, value)
        else:
            merged.insert(at, (name, layer, value))
        at += 1


def look_up_bag(select, name):
    """The merged rows of a bag, None where there is none, or "too long". `select` gives what an id selects: the layer and
    the cell, None where it selects none."""
    chain = []
    while True:
        found = select(name)
        if found is None or not isinstance(found[1], Bag):
            break
        if len(chain) > PARENTS:
            return "too long"
        chain.append(found)
        name = found[1].parent
        if name == 0:
            break
    if not chain:
        return None
    merged = []
    for layer, bag in reversed(chain):
        insert_rows(merged, layer, bag.rows)
    return merged


def slot_of(theme, attr):
    """What an attribute reaches in a theme: the id of a reference, or an end."""
    for _ in range(ATTRIBUTES + 1):
        layer, (kind, word) = theme.get(attr, (0, (NULL, 0)))
        if kind == NULL and word != EMPTY:
            return None, ("absent", attr)
        if kind == REFERENCE and word != 0:
            return word, None
        if kind != ATTRIBUTE:
            return None, ("value", layer, kind, word)
        attr = word
    return None, ("too long", attr)

"""The id map of an overlay, by a plain reading of its rules. For check_map.py."""
import json
from collections import namedtuple

from plain_bags import Bag
from plain_certificates import id_text

REFERENCE, ATTRIBUTE = 1, 2

Row = namedtuple("Row", "id names shown record cell")
"""A row of a table: its id, the names of its type and entry, how these are printed, its configuration, and what it holds. A
name that cannot be read, or is no text, is None."""


def first_rows(rows):
    """The first row of each id, by the ids in their order."""
    first = {}
    for row in rows:
        first.setdefault(row.id, row)
    return dict(sorted(first.items()))


def made_map(target, overlay):
    """For each id of the target, but those of other packages than its first row's, the overlay's id of the same names."""
    own_of = {}
    for row in overlay:
        own_of.setdefault(row.names, row.id)
    found = {}
    for row in first_rows(target).values():
        is_of_package = row.id >> 24 == target[0].id >> 24
        if is_of_package and None not in row.names and row.names in own_of:
            found[row.id] = own_of[row.names]
    return found


def ids_named(cell):
    """The ids that a value or a bag names, in their order."""
    if isinstance(cell, Bag):
        return [cell.parent] + [name for row, value in cell.rows for name in [row, *ids_named(value)]]
    kind, word = cell
    return [word] if kind in (REFERENCE, ATTRIBUTE) else []


def unmapped(overlay, own_of):
    """The first rows of the ids that stand for no target."""
    carried = set(own_of.values())
    return [row for row in first_rows(overlay).values() if row.id not in carried]


def astray(overlay, own_of):
    """The rows that refer to an id that does not stand for itself, with its first row."""
    first, carried = first_rows(overlay), set(own_of.values())
    for row in overlay:
        for name in ids_named(row.cell) if row.id in carried else []:
            if name in first and own_of.get(name) != name:
                yield row, first[name]


def lines_of(overlay, own_of):
    """What is said of a map."""
    for row in unmapped(overlay, own_of):
        yield f"unmapped {named(row)}"
    for row, other in astray(overlay, own_of):
        yield f"astray {named(row)} to {named(other)}"


def named(row):
    return f"{id_text(row.id)} {row.shown}"


def map_text(own_of):
    """The map as it is printed."""
    pairs = [f'["{id_text(target)}","{id_text(own)}"]' for target, own in own_of.items()]
    return "[" + ",\n ".join(pairs) + "]\n"


def with_name(row, **members):
    """With the names of a row, where both are text."""
    return members if None in row.names else {"name": "/".join(row.names), **members}


def json_text(overlay, own_of):
    """The map and what is said of it, as lines of JSON."""
    first = first_rows(overlay)
    lines = [
        *(with_name(first[own], line="pair", own=id_text(own), target=id_text(target)) for target, own in own_of.items()),
        *(with_name(row, id=id_text(row.id), line="unmapped") for row in unmapped(overlay, own_of)),
        *({"line": "astray", "from": with_name(row, id=id_text(row.id)), "to": with_name(other, id=id_text(other.id))}
          for row, other in astray(overlay, own_of)),
    ]
    return "".join(json.dumps(line, sort_keys=True, separators=(",", ":"), ensure_ascii=False) + "\n" for line in lines)

"""What `restool survey --json` prints, made of the lines that it prints as text. For the scripts beside it."""
import json
import re

FOUND = re.compile("(warning|note) layer ([0-9]+) ([a-z0-9-]+) ([0-9]+) first ([0-9a-fx]+)")
SHARED = re.compile("warning shared-names ([0-9]+) first ([0-9a-fx]+)")
QUALIFIER = re.compile("qualifier ([A-Za-z]+) rows ([0-9]+) from ([^ ]*) to ([^ ]*)")
LACKS = re.compile("warning box lacks ([A-Za-z]+)")
REFUSED = re.compile("refused: layer ([0-9]+) table: (.*)")


def first(text):
    return {"id": text} if text.startswith("0x") else {"place": int(text)}


def from_layer(place, paths):
    return {"layer": int(place), "path": paths[int(place)]}


def members(line, paths):
    """Those of a line, where the tables of the layers lie at these paths."""
    if parts := FOUND.fullmatch(line):
        weight, layer, name, count, place = parts.groups()
        return {"count": int(count), "finding": name, "first": first(place), "from": from_layer(layer, paths), "line": "finding",
                "warning": weight == "warning"}
    if parts := SHARED.fullmatch(line):
        return {"count": int(parts[1]), "first": first(parts[2]), "line": "shared-names", "warning": True}
    if parts := QUALIFIER.fullmatch(line):
        name, rows, *ends = parts.groups()
        least, greatest = ends if name == "locale" else map(int, ends)
        return {"greatest": greatest, "least": least, "line": "qualifier", "qualifier": name, "rows": int(rows)}
    if parts := LACKS.fullmatch(line):
        return {"line": "lacks", "qualifier": parts[1], "warning": True}
    parts = REFUSED.fullmatch(line)
    return {"fault": parts[2], "from": from_layer(parts[1], paths), "line": "refused"}


def as_json(text, paths):
    lines = [members(line, paths) for line in text.splitlines()]
    return "".join(json.dumps(line, sort_keys=True, separators=(",", ":"), ensure_ascii=False) + "\n" for line in lines)

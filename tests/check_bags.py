#!/usr/bin/env python3
"""Holds `restool bag` and `restool attr` against `restool rows` and `restool explain`:

    check_bags.py PROGRAM LAYERS DEVICE [JOBS]

for each id of the layers that has a bag, and for random attributes after random styles. What an id selects is
read from its explanation; rows are merged and styles applied here, one row after the other. It is run from the
folder that the paths of the layers are relative to. The last line is the number of bags, and of attributes."""
import random
import sys
from concurrent.futures import ThreadPoolExecutor

from plain_bags import ATTRIBUTES, PARENTS, insert_rows
from printed import CANDIDATE, TAKES_OVER, Restool

STYLE_LISTS = 200
ATTRIBUTES_ASKED = 3


def selected(restool, name):
    """The place of the layer and the row that an id selects, None where it selects none."""
    best = None
    for line in restool.ask("explain", name)[0][1:]:
        parts = CANDIDATE.fullmatch(line)
        if not parts:
            break
        if parts[4].startswith(TAKES_OVER):
            best = int(parts[1])
    return None if best is None else restool.candidates(name)[best]


def bag_of(selections, name):
    """The rows of a bag, or why there are none."""
    found = selections.get(name)
    if found is None:
        return "Absent"
    if found[1].value != "bag":
        return "Plain"
    chain = [found]
    while True:
        parent = chain[-1][1].parent
        above = None if parent == "0x00000000" else selections.get(parent)
        if above is None or above[1].value != "bag":
            break
        if len(chain) > PARENTS:
            return "BagDepth"
        chain.append(above)
    merged = []
    for layer, row in reversed(chain):
        insert_rows(merged, layer, row.rows)
    return merged


def check_bag(restool, selections, name):
    rows = bag_of(selections, name)
    lines, status = restool.ask("bag", name)
    if isinstance(rows, str):
        right = lines == [f"no bag {rows}"] and status == 1
    else:
        right = lines == [f"{name} layer {layer} {value}" for name, layer, value in rows] and status == 0
    return [] if right else [f"{name}: {lines[:3]}, status {status}"]


def theme_of(bags, styles, force):
    """What is set for each attribute after styles."""
    theme = {}
    for style in styles:
        for name, layer, value in bags[style]:
            if force or theme.get(name, (0, "null"))[1].startswith("null"):
                theme[name] = (layer, value)
    return theme


def end_of_attribute(restool, theme, attr):
    """Where an attribute ends. After a reference that is where `query` of its id ends."""
    for _ in range(ATTRIBUTES + 1):
        layer, value = theme.get(attr, (0, "null"))
        if value.startswith("null"):
            return f"absent {attr}"
        if value.startswith("@") and value != "@0x00000000":
            return restool.ends([value[1:]])[value[1:]]
        if not value.startswith("?"):
            return f"value layer {layer} {value}"
        attr = value[1:]
    return f"too long {attr}"


def check_attribute(restool, bags, styles, force, attr):
    end = end_of_attribute(restool, theme_of(bags, styles, force), attr)
    keep = [] if force else ["--keep"]
    lines, status = restool.run("attr", *keep, *restool.of_device, attr, *styles)
    right = lines == [f"{attr} {end}"] and status == int(end.startswith(("absent", "too long")))
    return [] if right else [f"{attr} after {styles} {keep}: {lines[:3]}, status {status}, wanted {end}"]


def attributes_asked(bags):
    """Random bags, taken for styles: lists of them, each with attributes that they set or, seldom, one that none
    sets, with force or without."""
    chance = random.Random(1)
    names = [name for name, rows in sorted(bags.items()) if not isinstance(rows, str) and rows]
    for _ in range(STYLE_LISTS):
        styles = chance.choices(names, k=chance.randint(1, 4))
        attrs = [row[0] for style in styles for row in bags[style]] + ["0x0101ffff"]
        for attr in chance.choices(attrs, k=ATTRIBUTES_ASKED):
            yield styles, chance.random() < 0.5, attr


def main():
    restool = Restool(*sys.argv[1:4])
    names = [name for name in restool.ids() if any(row.value == "bag" for _, row in restool.candidates(name))]
    with ThreadPoolExecutor(int(sys.argv[4]) if len(sys.argv) > 4 else 1) as pool:
        found = dict(zip(names, pool.map(lambda name: selected(restool, name), names)))
        bags = {name: bag_of(found, name) for name in names}
        faults = list(pool.map(lambda name: check_bag(restool, found, name), names))
        asked = list(attributes_asked(bags))
        faults += pool.map(lambda asks: check_attribute(restool, bags, *asks), asked)
    for of_one in faults:
        for fault in of_one:
            print(fault)
    print(f"{len(names)} bags, {len(asked)} attributes")
    sys.exit(any(faults))


main()

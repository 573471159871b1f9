#!/usr/bin/env python3
"""Holds what commands print with `--android` against what they print without it, by a plain reading of Android's notation
(plain_notation.py):

    check_notation.py PROGRAM LAYERS DEVICE [JOBS]

for each table of the layers, for each id, and for random attributes after styles. It is run from the folder that their paths are relative to. The names are those of
`dump`, and the strings too, which therefore have to be plain. The last line is the number of ids, and of rows."""
import json
import random
import re
import sys
import unicodedata
from concurrent.futures import ThreadPoolExecutor

from plain_notation import KINDS, NAMES, UNITS, config_of, formats_text, xml_text
from plain_names import label_text
from printed import CANDIDATE, Restool

ROW = re.compile(r'  (0x\w+) "(.*?)"/"(.*?)" (flags 0x\w+) (\[[^\]]*\]) (.*)')
RULES = (
    "mobile country code", "mobile network code", "locale", "layout direction", "smallest width", "available width and height",
    "screen size", "long screen", "round screen", "wide colors", "dynamic range", "orientation", "UI mode", "night mode", "density",
    "touchscreen", "hidden keys", "hidden navigation", "keyboard", "navigation", "width and height in pixels", "platform version",
    "minor version",
)
QUANTITIES = {4: "other", 5: "zero", 6: "one", 7: "two", 8: "few", 9: "many"}
OWN_KEYS = {0: "format", 1: "min", 2: "max", 3: "localization"}
ATTRIBUTES_ASKED = 60
FOLLOWED = 20


def value_of(text):
    """The kind and the word of a value that is printed."""
    if text in ("true", "false"):
        return KINDS["boolean"], 0xFFFFFFFF * (text == "true")
    if text in ("null", "empty"):
        return 0, int(text == "empty")
    if text[0] in "@?":
        return 1 + "@?".index(text[0]), int(text[1:], 16)
    name, said = text.split(" ", 1)
    if name in ("dimension", "fraction"):
        kind = 5 + (name == "fraction")
        number, unit = said.split(" ", 1)
        mantissa, bits = number.split("/2^")
        place = int(unit[len("unit ") :]) if unit.startswith("unit ") else UNITS[kind].index(unit)
        return kind, int(mantissa) % (1 << 24) << 8 | (0, 7, 15, 23).index(int(bits)) << 4 | place
    if name == "kind":
        return tuple(int(it, 16) for it in said.split(" "))
    kind = {"string": 3, "dynamic": 7}.get(name) or KINDS[name]
    return kind, int(said.lstrip("#"), 16 if "x" in said or "#" in said else 10) % (1 << 32)


class Table:
    """What `dump` prints of a table: its packages, the names of ids, and its strings."""

    def __init__(self, restool, path):
        self.path = path
        self.lines, _ = restool.run("dump", path)
        self.packages = [(int(line[8:12], 16), line[14:-1]) for line in self.lines if line.startswith("package ")]
        self.rows = [match.groups() for match in map(ROW.fullmatch, self.lines) if match]
        self.strings = dict(re.findall(r'string (\d+) (".*")$', "\n".join(self.lines), re.M))


class Naming:
    """What ids, values and layers are told by. A name stands for the id of the first row that has it."""

    def __init__(self, tables, bases, paths):
        self.tables, self.paths = tables, paths
        self.packages = [package for table in bases for package in table.packages]
        self.names, self.types, owners = {}, {}, {}
        for table in bases:
            for name, type_name, entry_name, *_ in table.rows:
                self.types.setdefault(name, type_name)
                called = int(name[2:4], 16), type_name, entry_name
                self.names.setdefault(name, called)
                owners.setdefault(called, name)
        self.owners = owners

    def word(self, name):
        return label_text(self.packages, self.names[name])

    def id(self, name):
        return self.word(name) if name in self.names and self.owners[self.names[name]] == name else name

    def value(self, layer, text):
        """That of a value that is printed, with or without its string."""
        text = re.sub(r"^(string \d+) .*", r"\1", text)
        kind, word = value_of(text)
        if kind == 3:
            return self.tables[layer].strings[f"{word}"]
        if kind == 1 and word == 0:
            return "@null"
        return "@?"[kind - 1] + self.id(f"0x{word:08x}") if kind in (1, 2) else xml_text(kind, word)

    def row_value(self, layer, name, text):
        return formats_text(*value_of(text)) if name == "0x01000000" else self.value(layer, text)

    def key(self, owner, place, name):
        number = int(name, 16)
        if self.types.get(owner) == "array":
            return f"[{place}]"
        if self.types.get(owner) == "plurals" and number - 0x01000000 in QUANTITIES:
            return QUANTITIES[number - 0x01000000]
        own = OWN_KEYS.get(number - 0x01000000)
        return own if own and self.id(name) == name else self.id(name)

    def held(self, layer, text):
        """What a row holds: a value, or a bag with its parent and its count."""
        bag = re.fullmatch(r"bag parent (\w+) count (\d+)", text)
        if not bag:
            return self.value(layer, text)
        parent = f" parent {self.id(bag[1])}" if int(bag[1], 16) else ""
        return f"bag{parent} count {bag[2]}"

    def origin(self, layer, record):
        return f" from {self.paths[layer]} {config_of(record)}"


def told_rows(naming, lines, front, indent):
    """The lines of rows as they are told: those that `front` reads, and behind them those of bags."""
    told, owner, place = [], None, 0
    for line in lines:
        head = front(line)
        if head:
            before, owner, record, held = head
            told.append(f"{before} {config_of(record)} {naming.held(0, held)}")
            place = 0
        elif line.startswith(indent):
            name, value = line[len(indent) :].split(" ", 1)
            told.append(f"{indent}{naming.key(owner, place, name)} {naming.row_value(0, name, value)}")
            place += 1
        else:
            told.append(line)
    return told


def check_table(restool, table):
    """The faults of the rows of a table by itself."""
    naming = Naming([table], [table], [])

    def front_of_row(line):
        head = re.fullmatch(r"row (0x\w+) (\[[^\]]*\]) (.*)", line)
        return head and (f"row {head[1]}", head[1], head[2], head[3])

    def front_of_dump(line):
        head = ROW.fullmatch(line)
        return head and (f"  {head[1]} {naming.word(head[1])} {head[4]}", head[1], head[5], head[6])

    plain, _ = restool.run("rows", table.path)
    faults = compared(f"rows {table.path}", restool.run("rows", "--android", table.path)[0], told_rows(naming, plain, front_of_row, "  "))
    return faults + compared(
        f"dump {table.path}", restool.run("dump", "--android", table.path)[0], told_rows(naming, table.lines, front_of_dump, "    ")
    )


def compared(what, printed, due):
    if printed == due:
        return []
    place = next((it for it, lines in enumerate(zip(printed, due)) if lines[0] != lines[1]), min(len(printed), len(due)))
    return [f"{what}: line {place + 1}: {printed[place : place + 1]}, wanted {due[place : place + 1]}"]


# ---- a device


class Chain:
    """The look-ups of an id as `explain` prints them, each with its candidates, and its end."""

    def __init__(self, restool, name):
        self.look_ups = []
        lines, self.status = restool.ask("explain", name)
        for line in lines[:-1]:
            if line.startswith("lookup "):
                self.look_ups.append((line[7:], []))
            else:
                _, layer, record, decision = CANDIDATE.fullmatch(line).groups()
                self.look_ups[-1][1].append((int(layer), record, decision))
        self.end = lines[-1][4:]
        taken = [it for it in self.look_ups[-1][1] if it[2].startswith(("first", "took over"))]
        self.last = taken[-1][:2] if taken else None


def told_end(naming, chain):
    what, _, rest = chain.end.partition(" ")
    if what == "value":
        layer, value = re.fullmatch(r"layer (\d+) (.*)", rest).groups()
        return naming.value(int(layer), value) + naming.origin(*chain.last)
    if what == "bag":
        return "bag" + naming.origin(*chain.last)
    return "absent " + naming.id(rest) if what == "absent" else "too many references " + naming.id(rest[5:])


def told_decision(decision):
    by_rule = re.fullmatch(r"(took over|kept out) P(\d+)", decision)
    if by_rule:
        return f"{by_rule[1]}: {RULES[int(by_rule[2]) - 1]} (P{by_rule[2]})"
    words = {"took over equal": "took over: same configuration, of an overlay", "kept out": "kept out: not better"}
    words["set aside"] = "no match: script or variant"
    return words.get(decision) or decision.replace("no match ", "no match: ")


def in_columns(lines):
    widths = [max((width_of(line[column]) for line in lines), default=0) for column in range(3)]
    return ["  " + "  ".join([*(text + " " * (width - width_of(text)) for text, width in zip(line, widths)), line[3]]) for line in lines]


def width_of(text):
    """How many cells of a terminal a text takes: marks on letters none, the characters of East Asia two, lam and alef one."""
    seen = "".join(it for it in text if unicodedata.category(it) not in ("Mn", "Me", "Cf"))
    wide = sum(unicodedata.east_asian_width(it) in "WF" for it in seen)
    return len(seen) + wide - len(re.findall("\u0644[\u0622\u0623\u0625\u0627]", seen))


def told_look_up(restool, naming, name, candidates, is_all):
    lines, hidden = [naming.id(name)], 0
    shown = []
    for (layer, record, decision), (_, row) in zip(candidates, restool.candidates(name)):
        if is_all or not decision.startswith(("no match", "set aside")):
            held = "bag" if row.value == "bag" else naming.value(layer, row.value)
            shown.append((naming.paths[layer], config_of(record), held, told_decision(decision)))
        else:
            hidden += 1
    lines += in_columns(shown)
    if hidden:
        lines.append(f"  {hidden}{' more' * bool(shown)} {'row does' if hidden == 1 else 'rows do'} not match")
    return lines


def check_id(restool, naming, name):
    chain = Chain(restool, name)
    end = told_end(naming, chain)
    faults = []
    for option in ([], ["--all"]):
        due = [line for it in chain.look_ups for line in told_look_up(restool, naming, *it, bool(option))]
        printed, status = restool.ask("explain", "--android", *option, name)
        faults += compared(f"explain {name} {option}", printed, [*due, end])
        faults += [f"{name}: status {status}"] * (status != chain.status)
    printed, status = restool.ask("query", "--android", name)
    faults += compared(f"query {name}", printed[:-1], [f"{naming.id(name)} {end}"])
    return faults + [f"{name}: status {status}"] * (status != chain.status) + check_bag(restool, naming, name)


def check_bag(restool, naming, name):
    lines, status = restool.ask("bag", name)
    due = []
    for place, (row, layer, value) in enumerate(bag_rows(restool, name)):
        told = naming.row_value(layer, row, value)
        due.append(f"{naming.key(name, place, row)} {told} from {naming.paths[layer]}")
    printed, android_status = restool.ask("bag", "--android", name)
    return compared(f"bag {name}", printed, due if status == 0 else lines) + [f"{name}: status {android_status}"] * (status != android_status)


# ---- attributes


def is_undefined(row):
    return row is None or row[1].startswith("null")


def set_after(force, attr, before, rows):
    """The layer and the value that set an attribute after rows, where these set it before."""
    for name, layer, value in rows:
        if name == attr and (force or is_undefined(before)):
            before = (layer, value)
    return before


def told_slot(restool, naming, force, rows_of, attr):
    """The lines of what an attribute refers to, and its end."""
    for _ in range(FOLLOWED + 1):
        found = None
        for rows in rows_of:
            found = set_after(force, attr, found, rows)
        if is_undefined(found):
            return [f"absent {naming.id(attr)}"]
        layer, value = found
        if value.startswith("@") and value != "@0x00000000":
            chain = Chain(restool, value[1:])
            lines = [line for it in chain.look_ups[:FOLLOWED] for line in told_look_up(restool, naming, *it, False)]
            # the reference of the style is the first of those that are followed
            beyond = [f"too many references {naming.id(name)}" for name, _ in chain.look_ups[FOLLOWED:]]
            return [*lines, *(beyond or [told_end(naming, chain)])]
        if not value.startswith("?"):
            return [f"{naming.value(layer, value)} from {naming.paths[layer]}"]
        attr = value[1:]
    return [f"too many references {naming.id(attr)}"]


def check_attribute(restool, naming, bags, styles, force, attr):
    keep = [] if force else ["--keep"]
    lines, found = [], None
    for style in styles:
        own = set_after(force, attr, None, bags[style])
        if own is None:
            lines.append((naming.id(style), "", "", "not set"))
        else:
            words = "first" if found is None else "took over" if force or is_undefined(found) else "kept out: set already"
            lines.append((naming.id(style), naming.value(*own), naming.paths[own[0]], words))
        found = set_after(force, attr, found, bags[style])
    due = [naming.id(attr), *in_columns(lines), *told_slot(restool, naming, force, [bags[style] for style in styles], attr)]
    plain = restool.run("attr", *keep, *restool.of_device, attr, *styles)
    printed, status = restool.run("attr", "--android", *keep, *restool.of_device, attr, *styles)
    return compared(f"attr {attr} {styles} {keep}", printed, due) + [f"{attr}: status {status}"] * (status != plain[1])


def attributes_asked(bags):
    """Random bags, taken for styles: lists of them, each with an attribute that they set or, seldom, one that none sets."""
    chance = random.Random(2)
    names = [name for name, rows in sorted(bags.items()) if rows]
    for _ in range(ATTRIBUTES_ASKED if names else 0):
        styles = chance.choices(names, k=chance.randint(1, 4))
        attrs = [row[0] for style in styles for row in bags[style]] + ["0x0101ffff"]
        yield styles, chance.random() < 0.5, chance.choice(attrs)


def bag_rows(restool, name):
    """The rows of a bag, each its name, its layer and its value."""
    lines, status = restool.ask("bag", name)
    rows = (re.fullmatch(r"(0x\w+) layer (\d+) (.*)", line).groups() for line in (lines if status == 0 else []))
    return [(row, int(layer), value) for row, layer, value in rows]


def main():
    restool = Restool(*sys.argv[1:4])
    with open(sys.argv[2]) as text:
        listed = json.load(text)
    tables = [Table(restool, layer["table"]) for layer in listed]
    bases = [table for table, layer in zip(tables, listed) if "map" not in layer]
    naming = Naming(tables, bases, [table.path for table in tables])
    names = [*restool.ids(), "0x7fff0000"]
    with ThreadPoolExecutor(int(sys.argv[4]) if len(sys.argv) > 4 else 1) as pool:
        faults = [fault for found in pool.map(lambda name: check_id(restool, naming, name), names) for fault in found]
    for table in tables:
        faults += check_table(restool, table)
    bags = {name: bag_rows(restool, name) for name in names}
    for asked in attributes_asked(bags):
        faults += check_attribute(restool, naming, bags, *asked)
    for fault in faults:
        print(fault)
    print(f"{len(names)} ids, {sum(len(table.rows) for table in tables)} rows")
    sys.exit(bool(faults))


if __name__ == "__main__":
    main()

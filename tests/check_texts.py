#!/usr/bin/env python3
"""Holds what restool reads of JSON texts, and what it refuses, against a plain reading of them (plain_texts.py):

    check_texts.py PROGRAM [TEXTS [JOBS [FIRST]]]

for so many random texts of each kind: layers, id-map, device, box, certificate. Most of them are changed: a value is another one, a
member is missing, has another name or stands twice, or some bytes are gone, others or new. What the kind's schema refuses has to
be refused; what is read of a device has to be its members. The last line counts the texts, by the first words of their faults."""
import json
import os
import random
import subprocess
import sys
import tempfile
from collections import Counter
from concurrent.futures import ProcessPoolExecutor

from check_schemas import SCHEMAS, fault_told, is_valid
from made_layers import table_bytes
from plain_rules import COORDS
from plain_texts import FAULTS, MOST_STYLES, MOST_VALUES, reading

TEXTS, TEXTS_OF_A_JOB, SHOWN = 300, 50, 300
LOCALES = ["", "fr", "fr-CA", "es-419", "fil", "zh-TW", "-FR", "de-de", "sr-Latn", "DE", "x"]
NUMBERS = [0, 1, 2, 3, 4, 15, 16, 160, 255, 256, 480, 32767, 32768, 65535, 65536, 2**32 - 1, 2**32, 2**64 - 1, 2**64]
ODD = ["null", "true", "-0", "-1", "1.0", "1e2", "1e309", "01", "+1", '"0x7f010000"', '"0X7F010000"', '"0x7f01000"', '"density"', '"\\ud800"',
       '"\\u0064ensity"', "[]", "{}", "[[]]", '{"a":1}', "[1,2]", '["fr"]', "[" * 130 + "]" * 130, '{"from":1,"to":2}', '{"from":3,"to":2,"from":1}']
NAMES = ["table", "map", "from", "to", "version", "goals", "id", "attr", "styles", "nodes", "coord", "atMost", "in", "layer", "kind", "word",
         "bag", "density", "locale", "night", "other", ""]
BYTES = [b"[", b"]", b"{", b"}", b",", b":", b'"', b"\\", b"0", b"-", b".", b"e", b" ", b"\n", b"\x00", b"\xff", b"\xc3", "é".encode(), b"\xef\xbb\xbf"]


class Members(list):
    """An object as the list of its members, of which some may have one name."""


class Raw(str):
    """A value as it is written."""


# ---- random values of each kind


def number(chance):
    return chance.choice(NUMBERS[:9]) if chance.random() < 0.9 else chance.choice(NUMBERS)


def name_of_id(chance):
    return f"0x{chance.choice((0x01, 0x7F)):02x}01{chance.randrange(6):04x}"


def some(chance, most, make):
    """A list of some values, seldom of one more than there may be."""
    count = chance.choice((most, most + 1)) if chance.random() < 0.02 else chance.randrange(4)
    return [make(chance) for _ in range(count)]


def locale(chance):
    return chance.choice(LOCALES[:6]) if chance.random() < 0.95 else chance.choice(LOCALES)


def layers(chance):
    count = chance.choice((64, 65)) if chance.random() < 0.02 else chance.randrange(4)
    return [Members([("table", "table")] + [("map", "map")] * (chance.random() < 0.3)) for _ in range(count)]


def id_map(chance):
    package = chance.choice((0x01, 0x7F))
    ids = [f"0x{package:02x}01{entry:04x}" for entry in range(8)]
    pairs = [[target, name_of_id(chance)] for target in chance.sample(ids, chance.randrange(6))]
    return pairs + [[name_of_id(chance), name_of_id(chance)]] * (chance.random() < 0.1)


def in_range(chance, name):
    return number(chance) if chance.random() < 0.05 else chance.randint(int(name == "density"), 3)


def coords(chance, held):
    names = [name for name in COORDS if chance.random() < 0.2 or name == "density" and chance.random() < 0.95]
    chance.shuffle(names)
    return Members((name, held(name)) for name in names)


def device(chance):
    return coords(chance, lambda name: locale(chance) if name == "locale" else in_range(chance, name))


def box(chance):
    def held(name):
        if name == "locale":
            return some(chance, MOST_VALUES, locale) or [""]
        if chance.random() < 0.3:
            ends = sorted(in_range(chance, name) for _ in range(2))
            return Members(zip(("from", "to"), ends))
        return some(chance, MOST_VALUES, lambda chance: in_range(chance, name)) or [1]

    return coords(chance, held)


def node(chance):
    form = chance.randrange(4)
    coord = chance.choice(list(COORDS))
    if form == 0:
        return Members([("coord", coord), ("atMost", number(chance))])
    if form == 1:
        return Members([("coord", coord), ("in", some(chance, MOST_VALUES, locale if coord == "locale" else number))])
    if form == 2:
        return Members([("layer", chance.randrange(3)), ("kind", chance.randrange(32)), ("word", number(chance))])
    return Members([("bag", name_of_id(chance))])


def certificate(chance):
    def goal(chance):
        nodes = ("nodes", [node(chance) for _ in range(chance.randrange(4))])
        if chance.random() < 0.7:
            return Members([("id", name_of_id(chance)), nodes])
        return Members([("attr", name_of_id(chance)), nodes, ("styles", some(chance, MOST_STYLES, name_of_id))])

    goals = [goal(chance) for _ in range(chance.randrange(4))]
    made = Members([("goals", goals), ("version", chance.choice((1, 2, 2)))])
    if chance.random() < 0.3:
        made.reverse()
    return made


VALUES = {"layers": layers, "id-map": id_map, "device": device, "box": box, "certificate": certificate}

# ---- changes


def inner_lists(value):
    """All lists and objects of a value."""
    if isinstance(value, list):
        yield value
        for item in value:
            yield from inner_lists(item[1] if isinstance(value, Members) else item)


def change(chance, value):
    """Changes some list or object within a value."""
    held = chance.choice(list(inner_lists(value)))
    other = Raw(chance.choice(ODD)) if chance.random() < 0.7 else chance.choice(NUMBERS)
    place = chance.randrange(len(held)) if held else 0
    how = chance.randrange(5) if held else 4
    if how == 0:
        del held[place]
    elif how == 1:
        held.insert(chance.randrange(len(held) + 1), held[place])
    elif isinstance(held, Members):
        name = held[place][0] if held and chance.random() < 0.7 else chance.choice(NAMES)
        changed = (name, other) if how != 2 else (name, held[place][1])
        if how == 3:
            held[place] = changed
        else:
            held.insert(chance.randrange(len(held) + 1), changed)
    elif how == 3:
        held[place] = other
    else:
        held.insert(place, other)


def change_bytes(chance, text):
    place = chance.randrange(len(text) + 1)
    taken = chance.randrange(3)
    return text[:place] + chance.choice(BYTES + [b""]) + text[place + taken :]


def written(chance, value):
    """A text of a value, with blanks here and there."""
    blank = " " * (chance.random() < 0.05)
    if isinstance(value, Raw):
        return str(value)
    if isinstance(value, Members):
        return "{" + ",".join(f"{blank}{json.dumps(name)}:{blank}{written(chance, held)}" for name, held in value) + "}"
    if isinstance(value, list):
        return "[" + ",".join(blank + written(chance, item) for item in value) + blank + "]"
    return json.dumps(value, ensure_ascii=chance.random() < 0.5)


def text_of(chance, kind):
    value = VALUES[kind](chance)
    for _ in range(chance.choice((0, 0, 1, 1, 2))):
        change(chance, value)
    text = written(chance, value).encode()
    for _ in range(chance.choice((0, 0, 0, 0, 1, 2))):
        text = change_bytes(chance, text)
    return text


# ---- what restool says of them


def is_refused_by_the_schema(kind, value):
    schema = json.load(open(os.path.join(SCHEMAS, f"{kind}.json")))
    return not is_valid(schema, schema, value)


def faults_of_device(program, value):
    """Of what is read of a device."""
    done = subprocess.run([program, "device", "device"], capture_output=True, text=True)
    due = {name: held for name, held in value.items() if held}
    return [] if done.returncode == 0 and json.loads(done.stdout) == due else [f"read as {done.stdout}"]


def check_text(program, kind, seed):
    text = text_of(random.Random(f"{kind} {seed}"), kind)
    value, due = reading(kind, text)
    told = fault_told(program, (), kind, text)
    if kind == "layers" and told and told.startswith("status"):
        told = None  # The list was read, and some file of it was not.
    faults = [] if told == due else [f"told {told}, not {due}"]
    if due != "Syntax" and is_refused_by_the_schema(kind, value) and told is None:
        faults.append("read, and refused by the schema")
    if kind == "device" and told is None and not faults:
        faults += faults_of_device(program, value)
    return [f"{kind} {seed}: {fault}: {text[:SHOWN]}" for fault in faults], f"{kind} {(due or 'read').split(' ')[0]}"


def check_some(program, kind, first, count):
    faults, counted = [], Counter()
    with tempfile.TemporaryDirectory() as folder:
        os.chdir(folder)
        for name, content in (("table", table_bytes([])), ("map", b"[]")):
            with open(name, "wb") as out:
                out.write(content)
        for seed in range(first, first + count):
            found, what = check_text(program, kind, seed)
            faults += found
            counted[what] += 1
        os.chdir("/")
    return faults, counted


def main():
    program = os.path.abspath(sys.argv[1])
    texts, jobs, first = (int(word) for word in (sys.argv[2:] + [str(TEXTS), "1", "0"][len(sys.argv) - 2 :])[:3])
    parts = [(kind, at) for kind in FAULTS for at in range(first, first + texts, TEXTS_OF_A_JOB)]
    failed, counted = False, Counter()
    with ProcessPoolExecutor(jobs) as pool:
        asked = [pool.submit(check_some, program, kind, at, min(TEXTS_OF_A_JOB, first + texts - at)) for kind, at in parts]
        for done in asked:
            faults, told = done.result()
            counted += told
            failed |= bool(faults)
            for fault in faults:
                print(fault)
    print(f"{sum(counted.values())} texts: " + ", ".join(f"{what} {count}" for what, count in sorted(counted.items())))
    sys.exit(failed)


main()

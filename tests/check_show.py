#!/usr/bin/env python3
"""Holds what `show` prints of random layers and certificates, and its pictures, against a plain reading:

    check_show.py PROGRAM CASES [JOBS [FIRST]]

PROGRAM is restool. The tables have names and strings of which some cannot be read, or are missing. Some certificates end
early, have nodes that no path leads to, leaves of layers that are not there, or more answers yes than lines are indented
by. Each picture has to be well-formed, with a node for each line of the tree and an arrow for each that stands behind a
test. Of certificates that are refused `show` has to say what `check` says. The cases are numbered from FIRST on, which is
0 if it is not given. The last line counts what was compared."""
import json
import os
import random
import re
import struct
import sys
import tempfile
from collections import Counter
from concurrent.futures import ProcessPoolExecutor

from case_files import Files
from made_layers import chunk, entries_chunk, entry_bytes, package_chunk, type_spec
from named_tables import ENTRY_NAMES, PACKAGE_NAMES, TYPE_NAMES, names_of
from plain_certificates import certificate_json, goal_word
from plain_rules import Record
from plain_show import Shown, tree_lines
from random_cases import ATTRIBUTES, ENTRIES, FIRST_ATTRIBUTE, FIRST_ID, CertifiedCase

TEXTS = ("Teapot", "", 'say "no"', "a\\b \\N", "salt & &lt;", "tea\npot", "Kännchen", "x", "ä" * 1200, "€&" * 700)
KINDS = (0, 1, 2, 3, 3, 3, 3, 4, 5, 5, 6, 7, 8, 0x10, 0x11, 0x12, 0x1C, 0x1D, 0x1E, 0x1F, 0x20)
NODE = re.compile(r'  (n\w+) \[label="((?:[^"\\]|\\.)*)"\];')
ARROW = re.compile(r"  (n\d+) -> (n\w+) \[label=(yes|no)\];")


class Layer:
    """A layer of a case: its table has a package of its rows, and one of attributes."""

    def __init__(self, chance, rows, is_base):
        self.is_base, self.packages, self.names, self.strings = is_base, [], {}, names_of(chance, TEXTS)
        attributes = [(FIRST_ATTRIBUTE + place, Record({}), (0x10, place)) for place in range(ATTRIBUTES) if chance.random() < 0.7]
        packages = self.package(chance, FIRST_ID, rows) + self.package(chance, FIRST_ATTRIBUTE, attributes)
        self.table = chunk(0x0002, struct.pack("<I", 2), self.strings.bytes + packages)

    def package(self, chance, first_id, rows):
        types, keys, offset = names_of(chance, TYPE_NAMES), names_of(chance, ENTRY_NAMES), chance.choice((None, 0, 0, 0, 1))
        children, package_id, name = type_spec(1, max(ENTRIES, ATTRIBUTES)), first_id >> 24, chance.choice(PACKAGE_NAMES)
        self.packages.append((package_id, None if "\ud83d" in name else name))
        for own, record, cell in rows:
            key = chance.randint(0, len(ENTRY_NAMES))
            children += entries_chunk(1, record, {own & 0xFFFF: entry_bytes(cell, key)}, chance.random() < 0.2)
            self.names.setdefault(own, (types.get(-(offset or 0))[0], keys.get(key)[0]))
        return package_chunk(package_id, offset, types, keys, children, name)


class ShownCase(CertifiedCase):
    """A case whose certificate is any, and not only one that is nearly true."""

    def __init__(self, chance, has_styles):
        super().__init__(chance, has_styles)
        self.shown = [Layer(chance, rows, own_of is None) for rows, own_of in zip(self.tables, self.maps)]
        for _, nodes in self.goals:
            self.change(nodes)

    def change(self, nodes):
        for place, node in enumerate(nodes):
            if "coord" not in node and self.chance.random() < 0.5:
                nodes[place] = self.leaf_of_any_kind()
        draw = self.chance.random()
        if draw < 0.1:
            nodes[:0] = [self.any_test() for _ in range(self.chance.randint(28, 36))]
        elif draw < 0.2:
            del nodes[self.chance.randint(0, len(nodes)) :]
        elif draw < 0.3:
            nodes += [self.chance.choice((self.any_test, self.any_leaf))() for _ in range(self.chance.randint(1, 4))]
        elif draw < 0.35 and nodes:
            nodes[0] = {"coord": self.chance.choice(self.focus), "in": []}

    def leaf_of_any_kind(self):
        word = self.chance.choice((self.chance.randrange(len(TEXTS) + 1), self.chance.randrange(1 << 32)))
        return {"layer": self.chance.choice((0, 0, 1, 1, 2, 3, 63)), "kind": self.chance.choice(KINDS), "word": word}


def broken(chance, said):
    """The text of a certificate that is refused, mostly."""
    text = json.dumps(said)
    changes = (('"version": 1', '"version": 3'), ('"version": 2', '"version": 1'), ('"layer"', '"floor"'), ('"in": [', '"in": [-1, '))
    old, new = chance.choice(changes)
    return text.replace(old, new) if old in text else text[: chance.randrange(len(text))]


def text_of(lines):
    return "".join(line + "\n" for line in lines)


def faults_of_form(nodes, picture):
    """The faults of the form of a picture."""
    lines = picture.splitlines()
    named = [NODE.fullmatch(line).group(1) for line in lines if NODE.fullmatch(line)]
    arrows = [ARROW.fullmatch(line).groups() for line in lines if ARROW.fullmatch(line)]
    behind, drawn = [line for line in tree_lines(nodes) if line.test is not None], len(tree_lines(nodes))
    faults = [] if lines[:1] == ["digraph {"] and lines[-1:] == ["}"] else ["no digraph"]
    faults += [] if len(lines) == 4 + len(named) + len(arrows) else ["a line that is no node and no arrow"]
    faults += [] if len(set(named)) == len(named) == drawn else [f"{len(set(named))} names, {len(named)} nodes, {drawn} lines"]
    faults += [] if len(arrows) == len({end for _, end, _ in arrows}) == len(behind) else [f"arrows {arrows}"]
    return faults + ([] if {name for arrow in arrows for name in arrow[:2]} <= set(named) else ["an arrow to nothing"])


def faults_of_pictures(files, case, shown):
    faults = []
    for number, (goal, nodes) in enumerate(case.goals):
        got = files.printed("show", *case.raw, "--dot", str(number), "layers", "certificate")
        want = text_of(shown.picture(number, goal, nodes)), 0
        faults += [] if got == want else [f"picture {number}: {got}", f"wanted: {want}"]
        faults += faults_of_form(nodes, got[0])
    number = len(case.goals) + case.chance.choice((0, 1, 70000))
    got = files.printed("show", "--dot", str(number), "layers", "certificate")
    return faults + ([] if got == (f"no goal {number}\n", 1) else [f"no picture: {got}"])


def faults_of_refused(files, case):
    """The faults of what is said of a certificate that is mostly refused, and whether it is."""
    with open(os.path.join(files.folder, "certificate"), "w") as out:
        out.write(broken(case.chance, certificate_json(case.goals)))
    checked = files.printed("check", "layers", "box", "certificate", *map(goal_word, case.asked))
    if checked[1] in (0, 1):
        return [], False
    said = [files.printed("show", *words, "layers", "certificate") for words in ((), ("--dot", "0"))]
    return [f"refused: {told}, where check says {checked}" for told in said if told != checked], True


def check_case(program, number):
    chance = random.Random(number)
    case = ShownCase(chance, has_styles=number % 2 == 1)
    is_raw = number % 3 == 2
    case.raw, shown = ["--raw"] * is_raw, Shown(case.shown, is_raw)
    with tempfile.TemporaryDirectory() as folder:
        files = Files(program, folder, case)
        for place, layer in enumerate(case.shown):
            with open(os.path.join(folder, f"table{place}"), "wb") as table:
                table.write(layer.table)
        files.write("certificate", certificate_json(case.goals))
        got, want = files.printed("show", *case.raw, "layers", "certificate"), (text_of(shown.certificate(case.goals)), 0)
        faults = [] if got == want else [f"printed: {got}", f"wanted: {want}"]
        faults += faults_of_pictures(files, case, shown)
        refused = []
        if number % 4 == 0:
            refused, is_refused = faults_of_refused(files, case)
            faults += refused
            refused = [is_refused]
    lines = [line for _, nodes in case.goals for line in tree_lines(nodes)]
    counted = Counter(
        certificates=1,
        pictures=len(case.goals),
        unreached=any(not line.is_reached for line in lines),
        early=any(line.number is None for line in lines),
        deep=any(line.depth >= 32 for line in lines),
        refused=sum(refused),
    )
    return [f"case {number}: {fault}" for fault in faults], counted


def main():
    program, cases = os.path.abspath(sys.argv[1]), int(sys.argv[2])
    jobs, first = (int(word) for word in (sys.argv[3:] + ["1", "0"][len(sys.argv) - 3 :])[:2])
    counted, wrong = Counter(), 0
    with ProcessPoolExecutor(jobs) as pool:
        for faults, seen in pool.map(check_case, [program] * cases, range(first, first + cases), chunksize=8):
            counted.update(seen)
            wrong += bool(faults)
            for fault in faults:
                print(fault)
    print(
        "{certificates} certificates: {unreached} with nodes that are not reached, {early} that end early, {deep} deep; "
        "{pictures} pictures; {refused} refused".format(**counted)
    )
    sys.exit(wrong > 0)


if __name__ == "__main__":
    main()

#!/usr/bin/env python3
"""Holds what `restool diff` prints against a plain reading of the rules, which asks every device of a box; or, where that word stands
first, what `restool values` prints of the layers after the change:

    check_diff.py [--values] [--locales android] PROGRAM CASES [JOBS [FIRST]]

Two stacks of layers are drawn, mostly an app with overlays before a few changes and after them (random_apps.py), else tables with
odd names (named_tables.py); a box; and now and then words that ask for some resources, or a limit of nodes. Each label is to be
told as removed, added or the same, or with lines that say how what each device of the box loads from either stack differs, once
and in order; and then what the stacks count. Of `values` it is to be told what each device loads.

The cases are numbered from FIRST on, which is 0 if it is not given. The last line counts what was compared."""
import json
import os
import random
import re
import subprocess
import sys
import tempfile
from collections import Counter
from concurrent.futures import ProcessPoolExecutor
from functools import partial
from itertools import groupby

from case_words import read_words
from check_names import Words, names_file, written
from named_tables import Table
from plain_certificates import id_text
from plain_diff import Both, Stack, asks_for, devices_text, pairs_of, part_of
from plain_names import label_text
from plain_words import Missing, Two, check_packages
from plain_trees import Traces, have_larger_trees, varying
from random_apps import SIZES, Apps, layers_of
from random_cases import Focus
from random_locales import LocaleApps, LocaleFocus

CASES_OF_A_JOB = 25
DEVICES = re.compile(r"( on(?: [^ \"]+)+)?$")
NODE_LIMIT = "node limit\n", "", 1
SHOWN = 700


class Case:
    """Two stacks of layers, a box, words, and a limit of nodes, None where that is left out. Of `values` the stack after the change is
    both."""

    def __init__(self, of_values, as_phone, number):
        self.of_values = of_values
        self.chance = chance = random.Random(number)
        focus_of = LocaleFocus if as_phone else Focus
        self.options = focus_of.options
        if chance.random() < 0.85:
            apps = (LocaleApps if as_phone else Apps)(chance)
            self.old, self.new, self.box = layers_of(apps.before), layers_of(apps.after), apps.box
        else:
            self.old, self.new = (
                [(Table(chance), {} if chance.random() < 0.2 else None) for _ in range(chance.randint(1, 3))] for _ in range(2)
            )
            self.box = focus_of(chance).random_box(SIZES)
        if of_values:
            self.old = self.new
        self.members = self.box.members()
        self.is_raw = number % 3 == 2
        self.stacks = Both(*(Stack(layers, focus_of.layers_of, self.is_raw) for layers in (self.old, self.new)))
        known = [(table, own is not None) for table, own in self.old + self.new]
        words = Words(chance, known) if chance.random() < 0.2 else None
        asked = [words.several() for _ in range(chance.randint(1, 4))] if words else []
        self.words = [word.removeprefix("@") if names_file(word) else word for word in asked]
        self.limit = chance.choice((1, 3, 10, 20, 40, 100, 1000)) if chance.random() < 0.15 else None

    def pairs(self):
        """The pairs that are asked for."""
        pairs = list(pairs_of(*self.stacks.stacks))
        packages = self.stacks.packages
        for word in self.words:
            asked = [pair for pair in pairs if asks_for(packages, word, pair)]
            is_name = "/" in word and not word.endswith("/*")
            check_packages(packages, word, [label[0] for label, _ in asked] if is_name else [0] * len(asked))
        return [pair for pair in pairs if not self.words or any(asks_for(packages, word, pair) for word in self.words)]

    # ---- the program

    def write(self, folder):
        """The files, and the words of the command."""
        write_inputs(folder, self.old, self.new, self.box.json())
        limit = [] if self.limit is None else ["--max-nodes", str(self.limit)]
        layers = ["values", "new"] if self.of_values else ["diff", "old", "new"]
        return [layers[0], *self.options, *limit, *["--raw"] * self.is_raw, *layers[1:], "box", *written(self.chance, folder, self.words)]


def write_inputs(folder, old, new, box):
    """Two lists of layers and a box, and the tables and maps that they name, equal ones once."""
    names = {}
    for name, layers in (("old", old), ("new", new)):
        listed = []
        for table, own in layers:
            listed.append({"table": written_once(folder, names, table.bytes)})
            if own is not None:
                pairs = [[id_text(target), id_text(name)] for target, name in own.items()]
                listed[-1]["map"] = written_once(folder, names, json.dumps(pairs).encode())
        write(folder, name, json.dumps(listed).encode())
    write(folder, "box", json.dumps(box).encode())


def write(folder, name, some):
    with open(os.path.join(folder, name), "wb") as out:
        out.write(some)


def written_once(folder, names, some):
    """The name of a file that has these bytes."""
    if some not in names:
        names[some] = f"file{len(names)}"
        write(folder, names[some], some)
    return names[some]


# ---- the lines of a label


class Line:
    """A line of a change: how it goes on behind the label, its devices as text, and the values of the coordinates that they name, and
    the rows below."""

    def __init__(self, case, text, rows):
        self.bytes = "".join(f"{line}\n" for line in [text, *rows]).encode()
        self.devices = DEVICES.search(text)[0]
        self.change = text[: len(text) - len(self.devices)], tuple(rows)
        try:
            self.part = part_of(case.box, self.devices, case.is_raw)
        except ValueError:
            self.part = {}


def lines_needed(case, changes):
    """How many lines are enough, where at most one coordinate varies."""
    names = varying(case.members)
    if names and case.box.is_range(names[0]):
        return sum(change is not None for change, _ in groupby(changes))
    return len(set(changes) - {None})


def faults_of_lines(case, lines, changes):
    """The faults of the lines of a label, where these are the changes of the devices, None where there is none."""
    told = [False] * len(changes)
    if lines != sorted(lines, key=lambda line: line.bytes):
        yield "lines in another order"
    for line in lines:
        part = line.part
        is_rising = all(list(values) == case.box.in_order(name, values) for name, values in part.items())
        if devices_text(case.box, part, case.is_raw) != line.devices or not is_rising:
            yield f"devices written as{line.devices}"
        here = [place for place, device in enumerate(case.members) if all(device[name] in part[name] for name in part)]
        if not here:
            yield f"no device{line.devices}"
        for place in here:
            if told[place] or changes[place] != line.change:
                due = f"{case.members[place]} has {changes[place]}{', told before' * told[place]}"
                yield f"{line.change}{line.devices}, where {due}"
                return
            told[place] = True
    for place, change in enumerate(changes):
        if change and not told[place]:
            yield f"{case.members[place]} is missed, which has {change}"
            return
    if len(varying(case.members)) <= 1 and len(lines) > lines_needed(case, changes):
        yield f"{len(lines)} lines, where {lines_needed(case, changes)} would do"


# ---- all lines


def changes_of(case, ids):
    """The change of each device, None where both stacks say the same; or what it loads."""
    told = case.stacks.said if case.of_values else case.stacks.difference
    return [told(ids, device) for device in case.members]


def with_rows(text):
    """The lines that stand at the margin, each with those behind it that do not. The last is followed by nothing."""
    lines = []
    for line in text.split("\n"):
        if line.startswith("  ") and lines:
            lines[-1][1].append(line)
        else:
            lines.append((line, []))
    return lines


def faults_of_text(case, pairs, text):
    """The faults of what is printed of these pairs."""
    lines, place, same = with_rows(text), 0, 0
    for label, ids in pairs:
        label, first = label_text(case.stacks.packages, label), place
        due = label if case.of_values else f"{'added' if ids[0] is None else 'removed' if ids[1] is None else 'changed'} {label}"
        while lines[place][0] == due or lines[place][0].startswith(f"{due} "):
            place += 1
        if None in ids:
            faults = [] if lines[first:place] == [(due, [])] else [f"{lines[first:place + 1]}, where {due} is due"]
        else:
            told = [Line(case, line[len(due) :], rows) for line, rows in lines[first:place]]
            changes = changes_of(case, ids)
            same += not any(changes)
            faults = [f"{label}: {fault}" for fault in faults_of_lines(case, told, changes)]
        if faults:
            return faults
    ends = [*case.stacks.counts_of_one(), f"resources {len(pairs)}"] if case.of_values else [*case.stacks.counts(), f"same {same}"]
    rest = [(line, []) for line in [*ends, ""]]
    return [] if lines[place:] == rest else [f"at the end {lines[place:]}, where {rest} is due"]


def is_above_limit(case, pairs):
    """Whether there are trees for these pairs that have more nodes than the limit."""
    traces = [Traces(case.stacks, ids) for _, ids in pairs if None not in ids]
    return have_larger_trees(case.box, case.members, traces, case.limit, case.chance)


def faults_of(case, said):
    """The faults of what is printed to both streams, and of the status; and what was told."""
    try:
        pairs = case.pairs()
    except (Missing, Two) as fault:
        told = "two resources" if isinstance(fault, Two) else "no resource"
        return [] if said == ("", f"{told} {fault}\n", 1) else [f"{told} {fault} is due"], told
    if said == NODE_LIMIT:
        return [] if case.limit and is_above_limit(case, pairs) else ["no trees are that large"], "node limit"
    text, messages, status = said
    faults = faults_of_text(case, pairs, text) + ([messages] if messages else [])
    is_same = case.of_values or not text.startswith(("changed ", "added ", "removed "))
    faults += [] if status == int(not is_same) else [f"status {status}"]
    if case.limit and sum(None not in ids for _, ids in pairs) > case.limit:
        faults.append("fewer nodes than labels")
    return faults, "values" if case.of_values else "same" if is_same else "changed"


def check_case(program, of_values, as_phone, folder, number):
    case = Case(of_values, as_phone, number)
    done = subprocess.run([program, *case.write(folder)], cwd=folder, capture_output=True)
    said = done.stdout.decode(), done.stderr.decode(), done.returncode
    faults, told = faults_of(case, said)
    changes = sum(line.startswith("changed ") for line in said[0].split("\n"))
    return [f"case {number}: {fault}, of {str(said)[:SHOWN]}" for fault in faults], told, changes


def check_cases(program, of_values, as_phone, numbers):
    with tempfile.TemporaryDirectory() as folder:
        return [check_case(program, of_values, as_phone, folder, number) for number in numbers]


def main():
    of_values = sys.argv[1:2] == ["--values"]
    del sys.argv[1 : 1 + of_values]
    as_phone, program, numbers, jobs = read_words()
    parts = [numbers[at : at + CASES_OF_A_JOB] for at in range(0, len(numbers), CASES_OF_A_JOB)]
    check = partial(check_cases, program, of_values, as_phone)
    told, wrong, lines = Counter(), 0, 0
    with ProcessPoolExecutor(jobs) as pool:
        for faults, what, count in (case for done in pool.map(check, parts) for case in done):
            told[what] += 1
            wrong, lines = wrong + bool(faults), lines + count
            print(*faults, sep="\n", end="\n" if faults else "")
    print(f"{len(numbers)} cases: {', '.join(f'{what} {told[what]}' for what in sorted(told))}; {lines} changes")
    sys.exit(wrong > 0)


if __name__ == "__main__":
    main()

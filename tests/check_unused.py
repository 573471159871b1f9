#!/usr/bin/env python3
"""Holds what `restool unused` prints against a plain reading of the rules, which asks every device of a box:

    check_unused.py [--locales android] PROGRAM CASES [JOBS [FIRST]]

The layers, the box, and now and then words or a limit of nodes are those of check_diff.py, after its changes; some maps have more
pairs, of ids that no base has too. Each row that no device loads is to be told as it stands in its own table, once and in order, and
then how many there are. With --json the same is to be told, but for the rows of a bag, and each row's id, the path of its table,
whether its layer is an overlay, and what it holds.

The cases are numbered from FIRST on, which is 0 if it is not given. The last line counts what was compared."""
import json
import os
import sys
import tempfile
from collections import Counter
from concurrent.futures import ProcessPoolExecutor
from functools import partial

from case_words import read_words
from check_diff import CASES_OF_A_JOB, NODE_LIMIT, SHOWN, Case
from check_json import faults_of_parts, read_lines, run, schema_of
from check_names import ids_named
from made_layers import record_bytes
from plain_bags import Bag
from plain_certificates import id_text
from plain_diff import Stack
from plain_notation import config_text
from plain_rules import by_id, step_of
from plain_trees import Traces, have_larger_trees
from plain_words import Missing, Two
from random_apps import APP

ENTRY, ROW = 16, 12
"""How many bytes a value takes, or a bag without its rows; and each of these."""


class LookUps:
    """Single look-ups in layers: which row each selects."""

    def __init__(self, layers):
        self.layers = layers

    def trace(self, name, device):
        """What the candidates of an id do."""
        return tuple(step_of(decided) for _, decided in self.layers.look_up(name, device)[0])

    def picked(self, name, members):
        """The places among the candidates of an id that some device selects."""
        candidates = self.layers.candidates(name)
        best = (self.layers.look_up(name, device)[1] for device in members)
        return {candidates.index(one) for one in best if one is not None}


class UnusedCase(Case):
    """Layers, a box, words, and a limit of nodes."""

    def __init__(self, as_phone, number):
        super().__init__(True, as_phone, number)
        self.layers = [(table, own and self.more_pairs(table, own)) for table, own in self.new]
        self.old = self.new = self.layers
        listed = [(by_id((row.id, row.record, row.cell) for row in table.rows), own) for table, own in self.layers]
        bases = [(rows, own if own is None else {}) for rows, own in listed]
        layers_of = type(self.stacks.stacks[1].layers)
        self.whole, self.bare = (LookUps(layers_of(each)) for each in (listed, bases))
        self.loaded, self.of_bases = (self.rows_picked(each) for each in (self.whole, self.bare))

    def more_pairs(self, table, own):
        """A map with pairs of ids that no base has, or that the map has for another."""
        if not table.rows or self.chance.random() < 0.6:
            return own
        package = next(iter(own), APP << 24) >> 24
        known = [row.id for other, is_own in self.new for row in other.rows if row.id >> 24 == package]
        more = {self.chance.choice([*known, package << 24 | 0x7F0000]): self.chance.choice(table.rows).id for _ in range(2)}
        return {**own, **more}

    def command(self, folder):
        """The files, and the words of the command."""
        return ["unused", *(word for word in self.write(folder)[1:] if word != "--raw")]

    # ---- rows, each a layer and its place there

    def ids_of(self, layer, name):
        """The ids that a row of a layer stands for."""
        own_of = self.layers[layer][1]
        return [name] if own_of is None else [target for target, own in own_of.items() if own == name]

    def rows_for(self, name):
        """The rows that stand for an id."""
        return [
            (layer, place)
            for layer, (table, _) in enumerate(self.layers)
            for place, row in enumerate(table.rows)
            if name in self.ids_of(layer, row.id)
        ]

    def ids(self):
        """All ids that rows stand for."""
        return sorted({name for layer, (table, _) in enumerate(self.layers) for row in table.rows for name in self.ids_of(layer, row.id)})

    def rows_picked(self, look_ups):
        """The rows that some device selects, where these are looked up."""
        picked = set()
        for name in self.ids():
            rows = self.rows_for(name)
            if look_ups is self.bare:
                rows = [row for row in rows if self.layers[row[0]][1] is None]
            picked |= {rows[place] for place in look_ups.picked(name, self.members)}
        return picked

    # ---- what is due

    def asked(self):
        """The ids that are asked for, None without words."""
        known = [(table, own is not None) for table, own in self.layers]
        return {name for word in self.words for name in ids_named(known, word)} if self.words else None

    def use(self, row, names):
        if not names:
            return "unmapped"
        return "loaded" if row in self.loaded else "overlaid" if row in self.of_bases else "unused"

    def used(self):
        """Each row that is asked for, with its layer, and what becomes of it."""
        asked = self.asked()
        for layer, (table, _) in enumerate(self.layers):
            for place, row in enumerate(table.rows):
                names = self.ids_of(layer, row.id)
                if asked is None or asked & {*names}:
                    yield layer, row, self.use((layer, place), names)

    def due(self):
        """The text, and the status."""
        lines, counts, size = [], Counter(), 0
        lone = [Stack([(table, None)]) for table, _ in self.layers]
        for layer, row, use in self.used():
            counts[use] += 1
            if use != "loaded":
                lines += row_lines(lone[layer], f"{use} layer {layer}", row)
            if use == "unused":
                size += ENTRY + ROW * (len(row.cell.rows) if isinstance(row.cell, Bag) else 0)
        totals = [f"rows {counts.total()}", *(f"{use} {counts[use]}" for use in ("unused", "overlaid", "unmapped")), f"bytes {size}"]
        return "".join(f"{line}\n" for line in [*lines, " ".join(totals)]), int(counts["unused"] > 0)

    def is_above_limit(self):
        """Whether there are trees of the look-ups that have more nodes than the limit."""
        asked = self.asked()
        names = [name for name in self.ids() if asked is None or asked & {*self.beside(name)}]
        traces = [Traces(look_ups, name) for look_ups in (self.whole, self.bare) for name in names]
        return have_larger_trees(self.box, self.members, traces, self.limit, self.chance)

    def beside(self, name):
        """The ids for which some row stands that stands for this one."""
        return {other for layer, place in self.rows_for(name) for other in self.ids_of(layer, self.layers[layer][0].rows[place].id)}


def row_lines(lone, front, row):
    """The line of a row behind these words, and those of a bag, where its table stands alone."""
    front = f"{front} {lone.id_content(row.id)} {config_text(record_bytes(row.record))}"
    if not isinstance(row.cell, Bag):
        return [f"{front} {lone.value_content(0, *row.cell).text}"]
    parent = f" parent {lone.id_content(row.cell.parent)}" if row.cell.parent else ""
    type_name = lone.first[row.id].names[0]
    rows = [lone.row(type_name, place, name, 0, *value) for place, (name, value) in enumerate(row.cell.rows)]
    return [f"{front} bag{parent} count {len(rows)}", *(f"  {each.name} {each.said.text}" for each in rows)]


def text_of(line):
    """A line of JSON as text."""
    if "from" not in line:
        counts = f"unused {line['unused']} overlaid {line['overlaid']} unmapped {line['unmapped']}" if line["line"] == "rows" else ""
        return f"rows {line['count']} {counts} bytes {line['bytes']}" if counts else line["line"]
    front = f"{line['line']} layer {line['from']['layer']} {line['name']} {line['from']['config']['words']}"
    if "value" in line:
        return f"{front} {line['value']['xml']}"
    parent = f" parent {line['bag']['parent']['name']}" if "parent" in line["bag"] else ""
    return f"{front} bag{parent} count {line['bag']['rows']}"


def beside_text(line):
    """What a line of JSON says of a row beside its text."""
    stored = line.get("value", {}).get("stored")
    return line["id"], line["from"]["path"], line["overlay"], stored and (stored["kind"], stored["word"])


def faults_as_json(case, folder, said, program, command):
    """The faults of what is printed as JSON, where this is printed as text."""
    printed = run(program, folder, ["unused", "--json", *command[1:]])
    lines, faults = read_lines(schema_of("unused"), printed.text)
    if faults:
        return faults
    told, wanted = [text_of(line) for line in lines], [line for line in said[0].split("\n")[:-1] if not line.startswith("  ")]
    faults += [f"as JSON {told}, where {wanted} is due"] * (told != wanted) + [f"{printed[1:]} with --json"] * (printed[1:] != said[1:])
    if len(lines) < 2:
        return faults
    with open(os.path.join(folder, "new")) as layers:
        paths = [layer["table"] for layer in json.load(layers)]
    known = [
        (id_text(row.id), paths[layer], case.layers[layer][1] is not None, None if isinstance(row.cell, Bag) else (*row.cell,))
        for layer, row, use in case.used()
        if use != "loaded"
    ]
    beside = [beside_text(line) for line in lines[:-1]]
    for layer in range(len(paths)):
        faults += faults_of_parts([line for line in lines[:-1] if line["from"]["layer"] == layer], paths)
    return faults + [f"as JSON {beside}, where {known} is due"] * (beside != known)


def faults_of(case, said):
    """The faults of what is printed to both streams, and of the status; and what was told."""
    try:
        due = case.due()
    except (Missing, Two) as fault:
        told = "two resources" if isinstance(fault, Two) else "no resource"
        return [] if said == ("", f"{told} {fault}\n", 1) else [f"{told} {fault} is due"], told
    if said == NODE_LIMIT:
        return [] if case.limit and case.is_above_limit() else ["no trees are that large"], "node limit"
    text, messages, status = said
    return [] if (text, messages, status) == (due[0], "", due[1]) else [f"{due} is due"], "unused" if due[1] else "used"


def check_case(program, as_phone, folder, number):
    case = UnusedCase(as_phone, number)
    command = case.command(folder)
    said = (*run(program, folder, command),)
    faults, told = faults_of(case, said)
    faults += faults_as_json(case, folder, said, program, command)
    lines = Counter(line.split(" ", 1)[0] for line in said[0].split("\n")[:-2])
    return [f"case {number}: {fault}, of {str(said)[:SHOWN]}" for fault in faults], told, lines


def check_cases(program, as_phone, numbers):
    with tempfile.TemporaryDirectory() as folder:
        return [check_case(program, as_phone, folder, number) for number in numbers]


def main():
    as_phone, program, numbers, jobs = read_words()
    parts = [numbers[at : at + CASES_OF_A_JOB] for at in range(0, len(numbers), CASES_OF_A_JOB)]
    check = partial(check_cases, program, as_phone)
    told, lines, wrong = Counter(), Counter(), 0
    with ProcessPoolExecutor(jobs) as pool:
        for faults, what, found in (case for done in pool.map(check, parts) for case in done):
            told[what] += 1
            lines += found
            wrong += bool(faults)
            print(*faults, sep="\n", end="\n" if faults else "")
    rows = ", ".join(f"{use} {lines[use]}" for use in ("unused", "overlaid", "unmapped"))
    print(f"{len(numbers)} cases: {', '.join(f'{what} {told[what]}' for what in sorted(told))}; {rows}")
    sys.exit(wrong > 0)


if __name__ == "__main__":
    main()

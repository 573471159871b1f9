#!/usr/bin/env python3
"""Holds what the program says with `--locales android` against a plain reading of how a phone compares locales:

    check_locales.py PROGRAM [CASES [JOBS [FIRST]]]

for so many random layers, 1,000 if it is not said. Some devices of a box are asked for all ids by `query`, and for one by
`explain`. Before these come the rows and wrong texts of plain_locales. The cases are numbered from FIRST on, which is 0 if it
is not given. The last line counts the cases and the devices, and by what they do the candidates that were explained."""
import os
import random
import sys
import tempfile
from collections import Counter
from concurrent.futures import ProcessPoolExecutor

from case_files import Files
from plain_certificates import id_text
from plain_locales import (
    DECISIONS, NAME, NUMBERS, ROWS, TEXTS, WRONG_TEXTS, AndroidBox, device_in, layers_of,
)
from plain_rules import device_text, end_text
from random_cases import ENTRIES, FIRST_ID
from random_locales import LocaleCase

CASES, DEVICES = 1000, 3
NAMES = range(FIRST_ID, FIRST_ID + ENTRIES + 1)


def is_no_value(end):
    return int(end[0] in ("absent", "too long"))


def query_of(layers, device, names):
    """The lines of a query, and its status. No table has strings."""
    ends = [layers.way(name, device)[1] for name in names]
    shown = [f"{end_text(end)} !NoSuch" if end[0] == "value" and end[2] == 3 else end_text(end) for end in ends]
    return [f"{id_text(name)} {end}" for name, end in zip(names, shown)] + ["set-aside 0"], max(map(is_no_value, ends))


def explanation_of(layers, device, name):
    """The lines of an explanation, and its status."""
    return layers.explanation(name, device), is_no_value(layers.way(name, device)[1])


def unlike(what, came, due):
    return [] if came == due else [f"{what}: {came}", f"wanted: {due}"]


def faults_at(files, layers, device, names, name):
    """The faults of what is said at a device. Its locale may be spelled otherwise here than in the files of the case."""
    faults = unlike(f"query of {device_text(device)}", files.answer("query", device, *names), query_of(layers, device, names))
    return faults + unlike(
        f"explain of {device_text(device)}", files.answer("explain", device, name), explanation_of(layers, device, name)
    )


# ---- rows and texts that are known


class WorkedCase:
    """A layer of these rows of an id."""

    options = LocaleCase.options
    table_bytes = staticmethod(LocaleCase.table_bytes)

    def __init__(self, rows):
        self.layers = layers_of(rows)
        self.tables = [[(NAME, candidate.record, candidate.cell) for candidate in self.layers.candidates(NAME)]]
        self.maps = [None]
        self.box = AndroidBox({"locale": [""], "density": [160]})


def faults_of_rows(program, locale, rows, numbers):
    case = WorkedCase(rows)
    with tempfile.TemporaryDirectory() as folder:
        return faults_at(Files(program, folder, case), case.layers, device_in(locale, **numbers), [NAME], NAME)


def faults_of_texts(program):
    """The faults of how texts are read, and wrong ones refused, at a device."""
    case = WorkedCase("[]")
    with tempfile.TemporaryDirectory() as folder:
        files = Files(program, folder, case)
        for text, _ in TEXTS:
            yield from faults_at(files, case.layers, device_in(text), [NAME], NAME)
        for text, fault in WRONG_TEXTS:
            came = files.answer("query", device_in(text), NAME)
            yield from unlike(f"{text!r} at a device", came, ([f"refused: device: {fault}"], 3))


def known(program):
    """The faults of what plain_locales has worked out."""
    for locale, rows, _ in ROWS:
        yield from faults_of_rows(program, locale, rows, {})
    for locale, rows, _ in DECISIONS:
        yield from faults_of_rows(program, locale, rows, NUMBERS)
    yield from faults_of_texts(program)


# ---- random cases


def check_case(program, number):
    """The faults of a case, its devices, and what its explained candidates do."""
    chance, counted = random.Random(number), Counter()
    case = LocaleCase(chance)
    with tempfile.TemporaryDirectory() as folder:
        files = Files(program, folder, case)
        faults = []
        devices = chance.sample(case.members, min(DEVICES, len(case.members)))
        for device in devices:
            name = chance.choice(NAMES)
            faults += faults_at(files, case.layers, {**device, "locale": case.respelled(device["locale"])}, NAMES, name)
            counted.update(told for _, looked_up in case.layers.way(name, device)[0] for _, told in looked_up)
    return [f"case {number}: {fault}" for fault in faults], len(devices), counted


def main():
    program = os.path.abspath(sys.argv[1])
    cases, jobs, first = (int(word) for word in (sys.argv[2:] + [str(CASES), "1", "0"][len(sys.argv) - 2 :])[:3])
    faults, devices, counted = list(known(program)), 0, Counter()
    for fault in faults:
        print(fault)
    with ProcessPoolExecutor(jobs) as pool:
        for of_case, asked, told in pool.map(check_case, [program] * cases, range(first, first + cases), chunksize=8):
            devices += asked
            counted += told
            faults += of_case
            for fault in of_case:
                print(fault)
    told = ", ".join(f"{does} {count}" for does, count in sorted(counted.items()))
    print(f"{cases} cases, {devices} devices: {told}")
    sys.exit(bool(faults))


main()

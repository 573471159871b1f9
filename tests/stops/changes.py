#!/usr/bin/env python3
"""Asks `restool diff` what a change alters that is large: changes.py PROGRAM

What is due is made from the lists of which the tables are made. The last line is 'N passed, M failed'."""
import os
import subprocess
import sys
import tempfile

sys.path.append(os.path.dirname(os.path.dirname(os.path.abspath(__file__))))
from check_diff import write_inputs
from made_layers import NamedTable, Resource, ids_of
from plain_rules import Record

ANY = Record({})
CARRIERS = range(1001, 1302)
"""The network codes of the box. In one resource each has a row of its own."""
NAMES = 33_000
"""The names of each of two types."""
CHANGED = 2_000
"""Those of the first type that are changed."""
RISE = 10_000


def number(word):
    return 0x10, word


def table(rise):
    """The table before a change, where values do not rise, or after it."""
    rows = [(Record({"mnc": code}), number(code + rise)) for code in CARRIERS]
    levels = [number(place + (rise if place < CHANGED else 0)) for place in range(NAMES)]
    resources = [
        Resource("integer", "carrier", rows),
        *(Resource("integer", f"level{place:05}", [(ANY, value)]) for place, value in enumerate(levels)),
        *(Resource("raw", f"sound{place:05}", [(ANY, number(place))]) for place in range(NAMES)),
    ]
    return NamedTable(resources, ids_of(resources))


BY_CARRIER = sorted(f"changed integer/carrier decimal {code} -> decimal {code + RISE} on mnc={code}" for code in CARRIERS)
OF_LEVELS = [f"changed integer/level{place:05} decimal {place} -> decimal {place + RISE}" for place in range(CHANGED)]
TESTS = [
    ("301 changes of a name", ["integer/carrier"], [*BY_CARRIER, "same 0"]),
    ("more than 65,536 bytes of changes", ["integer/*"], [*BY_CARRIER, *OF_LEVELS, f"same {NAMES - CHANGED}"]),
    ("66,001 names", [], [*BY_CARRIER, *OF_LEVELS, f"same {2 * NAMES - CHANGED}"]),
]


def main():
    program, failed = os.path.abspath(sys.argv[1]), 0
    with tempfile.TemporaryDirectory() as folder:
        write_inputs(folder, [(table(0), None)], [(table(RISE), None)], {"density": [160], "mnc": [*CARRIERS]})
        for name, words, lines in TESTS:
            done = subprocess.run([program, "diff", "--raw", "old", "new", "box", *words], cwd=folder, capture_output=True, text=True)
            if (done.returncode, done.stdout.splitlines(), done.stderr) != (1, lines, ""):
                failed += 1
                print(f"failed: {name}: status {done.returncode}, {done.stdout[:300]}{done.stderr}")
    print(f"{len(TESTS) - failed} passed, {failed} failed")
    sys.exit(failed > 0)


main()

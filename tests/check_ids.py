#!/usr/bin/env python3
"""Holds what `restool ids` prints of random layers against a plain reading of its rules: a line for each id that base layers
have rows of, in rising order, with the word for the name of the first row that it has, where that is text. Of these names
each that stands without quotes has to be read as that name, by `restool query`.

    check_ids.py PROGRAM CASES [JOBS [FIRST]]

The tables are those of named_tables.py. The cases are numbered from FIRST on, which is 0 if it is not given. The last line
counts the ids."""
import os
import random
import subprocess
import sys
import tempfile
from concurrent.futures import ProcessPoolExecutor

from check_names import bases, id_named, packages_of, write_layers
from plain_certificates import id_text
from plain_map import first_rows
from plain_names import named


def wanted(layers):
    """The lines that are printed."""
    rows = [row for table in bases(layers) for row in table.rows]
    return [named(packages_of(layers), row.id, row.names) for row in first_rows(rows).values()]


def faults_of_words(program, folder, layers, lines):
    """What is wrong where the names that stand without quotes are asked for: each has to be read as a name of its package."""
    parts = [line.split(" ", 1) for line in lines if " " in line and '"' not in line]
    if not parts:
        return []
    words = [word for _, word in parts]
    done = subprocess.run([program, "query", "layers", "device", *words], cwd=folder, capture_output=True, text=True)
    answered, due = [line.split()[0] for line in done.stdout.splitlines()[:-1]], [id_text(id_named(layers, word)) for word in words]
    faults = [] if answered == due else [f"{words}: {answered}, wanted {due}"]
    return faults + [f"{word} is no name of {name}" for (name, word), found in zip(parts, due) if name[:4] != found[:4]]


def check_case(program, number):
    """The faults of a case, and how many ids it has."""
    with tempfile.TemporaryDirectory() as folder:
        layers = write_layers(random.Random(number), folder)
        lines = wanted(layers)
        done = subprocess.run([program, "ids", "layers"], cwd=folder, capture_output=True)
        faults = faults_of_words(program, folder, layers, lines)
    said = done.stdout, done.stderr, done.returncode
    due = "".join(f"{line}\n" for line in lines).encode(), b"", 0
    faults += [] if said == due else [f"{said}, wanted {due}"]
    return [f"case {number}: {fault}" for fault in faults], len(lines)


def main():
    program, cases = os.path.abspath(sys.argv[1]), int(sys.argv[2])
    jobs, first = (int(word) for word in (sys.argv[3:] + ["1", "0"][len(sys.argv) - 3 :])[:2])
    all_ids = wrong = 0
    with ProcessPoolExecutor(jobs) as pool:
        for faults, ids in pool.map(check_case, [program] * cases, range(first, first + cases), chunksize=8):
            all_ids, wrong = all_ids + ids, wrong + bool(faults)
            print(*faults, sep="\n", end="\n" if faults else "")
    print(f"{cases} cases: {all_ids} ids")
    sys.exit(wrong > 0)


main()

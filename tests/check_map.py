#!/usr/bin/env python3
"""Holds what `restool map` prints of random tables, as text and as JSON, against a plain reading of its rules (plain_map.py):

    check_map.py PROGRAM CASES [JOBS [FIRST]]

The tables are those of named_tables.py. The cases are numbered from FIRST on, which is 0 if it is not given. The last line
counts the pairs and the lines."""
import os
import random
import subprocess
import sys
import tempfile
from concurrent.futures import ProcessPoolExecutor

from named_tables import Table
from check_json import read_lines, schema_of
from plain_map import json_text, lines_of, made_map, map_text


def wanted(target, overlay):
    """What is printed to both streams and the status, without --json and with it; and how many pairs the map has."""
    own_of = made_map(target.rows, overlay.rows)
    lines = "".join(f"{line}\n" for line in lines_of(overlay.rows, own_of))
    status = int(lines != "")
    as_json = json_text(overlay.rows, own_of)
    return {(): (map_text(own_of).encode(), lines.encode(), status), ("--json",): (as_json.encode(), b"", status)}, len(own_of)


def asked(program, folder, form):
    done = subprocess.run([program, "map", *form, "target", "overlay"], cwd=folder, capture_output=True)
    return done.stdout, done.stderr, done.returncode


def check_case(program, number):
    """The fault of a case, how many pairs its map has, and how many lines are said of it."""
    chance = random.Random(number)
    target, overlay = Table(chance), Table(chance)
    with tempfile.TemporaryDirectory() as folder:
        for name, table in (("target", target), ("overlay", overlay)):
            with open(os.path.join(folder, name), "wb") as out:
                out.write(table.bytes)
        due, pairs = wanted(target, overlay)
        faults = [f"case {number}: {said}, wanted {due[form]}" for form in due if (said := asked(program, folder, form)) != due[form]]
    faults += read_lines(schema_of("map"), due["--json",][0].decode())[1]
    return "\n".join(faults), pairs, due[()][1].count(b"\n")


def main():
    program, cases = os.path.abspath(sys.argv[1]), int(sys.argv[2])
    jobs, first = (int(word) for word in (sys.argv[3:] + ["1", "0"][len(sys.argv) - 3 :])[:2])
    all_pairs = all_lines = wrong = 0
    with ProcessPoolExecutor(jobs) as pool:
        for fault, pairs, lines in pool.map(check_case, [program] * cases, range(first, first + cases), chunksize=8):
            all_pairs, all_lines, wrong = all_pairs + pairs, all_lines + lines, wrong + bool(fault)
            if fault:
                print(fault)
    print(f"{cases} cases: {all_pairs} pairs, {all_lines} lines")
    sys.exit(wrong > 0)


main()

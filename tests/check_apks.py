#!/usr/bin/env python3
"""Holds what the program reads of random apks against the plain reading of plain_apk.py: the table that is found there is as if
it lay by itself, or the apk is refused by the fault that comes first.

    check_apks.py PROGRAM CASES [JOBS [FIRST]]

The apks are those of random_apks.py. The cases are numbered from FIRST on, which is 0 if it is not given. The last line counts
the tables and the faults."""
import os
import subprocess
import sys
import tempfile
from collections import Counter
from concurrent.futures import ProcessPoolExecutor

from plain_apk import fault_or_table
from random_apks import apk_of


def rows(program, folder, name, said):
    """What `rows` answers of a file."""
    with open(os.path.join(folder, name), "wb") as out:
        out.write(said)
    done = subprocess.run([program, "rows", name], cwd=folder, capture_output=True)
    return done.stdout, done.stderr, done.returncode


def check_case(program, number):
    """What was found in an apk, and whether the program says something else."""
    apk = bytes(apk_of(number))
    found, table = fault_or_table(apk)
    with tempfile.TemporaryDirectory() as folder:
        said = rows(program, folder, "an.apk", apk)
        due = (b"", f"refused: apk: {found}\n".encode(), 3) if table is None else rows(program, folder, "table", table)
    if said != due:
        print(f"case {number}: {said}, wanted {due}", flush=True)
    return found, said != due


def main():
    program, cases = os.path.abspath(sys.argv[1]), int(sys.argv[2])
    jobs, first = (int(word) for word in (sys.argv[3:] + ["1", "0"][len(sys.argv) - 3 :])[:2])
    with ProcessPoolExecutor(jobs) as pool:
        said = list(pool.map(check_case, [program] * cases, range(first, first + cases), chunksize=8))
    print(", ".join(f"{found} {times}" for found, times in sorted(Counter(found for found, _ in said).items())))
    sys.exit(any(wrong for _, wrong in said))


main()

#!/usr/bin/env python3
"""Holds what restool says of tables with sparse types against what it says of the same tables with dense ones:

    check_sparse.py PROGRAM CASES [JOBS [FIRST]]

for so many random layers of several types, whose entries are values and bags. Some indexes have no entry, some entries
are those of several indexes, and some indexes are not counted by their type spec, so that they give no row. The answers
of `rows`, `dump`, `query`, `explain`, `bag`, `make` and `check` have to be the same. The cases are numbered from FIRST
on, which is 0 if it is not given. The last line counts the rows and the certificates."""
import json
import os
import random
import struct
import subprocess
import sys
import tempfile
from concurrent.futures import ProcessPoolExecutor

from case_files import id_text
from made_layers import Pool, chunk, entries_chunk, type_spec, value_bytes
from plain_bags import Bag
from random_cases import FIRST_ATTRIBUTE, Case

PACKAGE_ID = 0x7F
PACKAGE_HEADER = 288
TYPES = ("color", "dimen", "style")
KEYS = 12
LAST_INDEX = 65535
DEVICES = 2


def entry_bytes(chance, case):
    """A value, or a bag of up to three rows."""
    cell, key = case.cell(), chance.randrange(KEYS)
    if not isinstance(cell, Bag):
        return struct.pack("<HHI", 8, 0, key) + value_bytes(*cell)
    parent = chance.choice((0, PACKAGE_ID << 24 | chance.randint(1, len(TYPES)) << 16 | chance.randrange(4)))
    rows = [struct.pack("<I", FIRST_ATTRIBUTE + place) + value_bytes(0x10, chance.randrange(9)) for place in range(chance.randrange(4))]
    return struct.pack("<HHIII", 16, 1, key, parent, len(rows)) + b"".join(rows)


def random_entries(chance, case, counted):
    """Entries by their indexes, some of which are the same and some not counted."""
    indexes = chance.sample(range(counted + 3), chance.randint(0, counted + 3))
    if chance.random() < 0.05:
        indexes.append(LAST_INDEX)
    made = [entry_bytes(chance, case) for _ in range(chance.randint(1, 1 + len(indexes)))]
    return {index: chance.choice(made) for index in sorted(indexes)}


class Twins:
    """A table, once with dense types and once with sparse ones."""

    def __init__(self, chance, case):
        self.ids, self.rows = [], 0
        forms = {False: b"", True: b""}
        for type_id in range(1, 1 + chance.randint(1, len(TYPES))):
            counted = chance.randint(1, 8)
            self.ids += [PACKAGE_ID << 24 | type_id << 16 | index for index in range(counted)]
            types = [(case.record(), random_entries(chance, case, counted)) for _ in range(chance.randint(1, 4))]
            self.rows += sum(index < counted for _, entries in types for index in entries)
            for is_sparse in forms:
                forms[is_sparse] += type_spec(type_id, counted)
                forms[is_sparse] += b"".join(entries_chunk(type_id, *each, is_sparse) for each in types)
        self.dense, self.sparse = table_bytes(forms[False]), table_bytes(forms[True])


def table_bytes(types):
    names = Pool(TYPES).bytes
    keys = Pool(f"key_{place}" for place in range(KEYS)).bytes
    pools = struct.pack("<5I", PACKAGE_HEADER, 0, PACKAGE_HEADER + len(names), 0, 0)
    package = chunk(0x0200, struct.pack("<I", PACKAGE_ID) + b"\0" * 256 + pools, names + keys + types)
    return chunk(0x0002, struct.pack("<I", 1), Pool(()).bytes + package)


class Folder:
    """The files of a case."""

    def __init__(self, program, folder, chance):
        self.program, self.folder, self.chance = program, folder, chance
        case = Case(chance)
        self.tables = [Twins(chance, case) for _ in case.maps]
        self.members = case.members
        self.write("box", json.dumps(case.box.json()).encode())
        layers = {"dense": [], "sparse": []}
        for place, (twins, own_of) in enumerate(zip(self.tables, case.maps)):
            for form, listed in layers.items():
                listed.append({"table": f"{form}{place}"})
                self.write(f"{form}{place}", getattr(twins, form))
                if own_of is not None:
                    listed[-1]["map"] = f"map{place}"
            pairs = [[id_text(target), id_text(own)] for target, own in (own_of or {}).items()]
            self.write(f"map{place}", json.dumps(pairs).encode())
        for form, listed in layers.items():
            self.write(f"{form}-layers", json.dumps(listed).encode())

    def write(self, name, some):
        with open(os.path.join(self.folder, name), "wb") as out:
            out.write(some)

    def write_device(self):
        device = {name: value for name, value in self.chance.choice(self.members).items() if value}
        self.write("device", json.dumps(device).encode())

    def run(self, words):
        done = subprocess.run([self.program, *words], cwd=self.folder, capture_output=True)
        return done.stdout + done.stderr, done.returncode

    def said(self, command, what, *words):
        """What is printed of the dense form, and the faults if the other is another."""
        dense, sparse = (self.run([command, f"{form}{what}", *words]) for form in ("dense", "sparse"))
        same = dense == sparse and dense[1] in (0, 1)
        return dense[0], [] if same else [f"{command} {what} {words}: {dense}, sparse {sparse}"]


def faults_of_tables(files):
    faults = []
    for place, twins in enumerate(files.tables):
        printed, wrong = files.said("rows", str(place))
        last = printed.decode().splitlines()[-1]
        faults += wrong if last.startswith(f"rows {twins.rows} ") else wrong + [f"{last}, where {twins.rows} rows are due"]
        faults += files.said("dump", str(place))[1]
    return faults


def faults_of_devices(files, ids):
    faults = []
    for _ in range(DEVICES):
        files.write_device()
        faults += files.said("query", "-layers", "device", *ids)[1]
        for command in ("explain", "bag"):
            faults += files.said(command, "-layers", "device", files.chance.choice(ids))[1]
    return faults


def faults_of_certificates(files, ids):
    """The faults, and how many certificates were checked."""
    faults, checked = [], 0
    for name in files.chance.sample(ids, min(len(ids), 3)):
        made, wrong = files.said("make", "-layers", "box", name)
        faults += wrong
        if made.startswith(b"{"):
            files.write("certificate", made)
            faults += files.said("check", "-layers", "box", "certificate", name)[1]
            checked += 1
    return faults, checked


def check_case(program, number):
    chance = random.Random(number)
    with tempfile.TemporaryDirectory() as folder:
        files = Folder(program, folder, chance)
        ids = sorted({id_text(name) for twins in files.tables for name in twins.ids})
        faults, checked = faults_of_certificates(files, ids)
        faults += faults_of_tables(files) + faults_of_devices(files, ids)
    return [f"case {number}: {fault}" for fault in faults], sum(twins.rows for twins in files.tables), checked


def main():
    program, cases = os.path.abspath(sys.argv[1]), int(sys.argv[2])
    jobs, first = (int(word) for word in (sys.argv[3:] + ["1", "0"][len(sys.argv) - 3 :])[:2])
    rows = certificates = wrong = 0
    with ProcessPoolExecutor(jobs) as pool:
        for faults, read, checked in pool.map(check_case, [program] * cases, range(first, first + cases), chunksize=8):
            rows, certificates, wrong = rows + read, certificates + checked, wrong + bool(faults)
            for fault in faults:
                print(fault)
    print(f"{cases} cases: {rows} rows, {certificates} certificates")
    sys.exit(wrong > 0)


if __name__ == "__main__":
    main()

#!/usr/bin/env python3
"""Holds what `survey` prints of random layers, with a box and without one, against a plain reading, and its lines of JSON
against its lines of text:

    check_survey.py [--locales android] PROGRAM CASES [JOBS [FIRST]]

PROGRAM is restool. In each case some bytes of the tables are changed: flags of types and entries, kinds of chunks and
values, bytes of configurations. Some tables are written as newer tools do, with 16-bit offsets and compact entries. A table
that restool refuses is surveyed alone. What `newer_format.py` finds is found by `survey` too. The cases are
numbered from FIRST on, which is 0 if it is not given. The last line counts the surveys, those with a warning and those of
tables that are refused."""
import json
import os
import random
import struct
import subprocess
import sys
import tempfile
from concurrent.futures import ProcessPoolExecutor
from functools import partial

from case_files import id_text
from case_words import read_words
from check_json import read_lines, schema_of
from check_sparse import Twins, table_bytes
from json_of_survey import as_json
from made_layers import Pool, chunk, type_header, type_spec
from named_tables import Table as Named
from plain_survey import NO_ENTRY, SHORT, survey_of, survey_of_refused
from random_cases import Case
from random_locales import LocaleCase

NEWER = os.path.join(os.path.dirname(os.path.abspath(__file__)), "newer_format.py")
LOCALES = ("de", "de-DE", "en", "en-US", "en-GB", "en-XA", "ar", "ar-XB", "fil", "fil-PH", "tl", "zh", "zh-TW", "sr", "sr-ME", "es-419", "es-MX", "yue", "yue-CN")


def chunks_in(table, start, end):
    """The places of all chunks between two places, and of those within them, with their kinds."""
    while start + 8 <= end:
        kind, header, size = struct.unpack_from("<HHI", table, start)
        yield start, kind
        if kind in (0x0002, 0x0200):
            yield from chunks_in(table, start + header, start + size)
        start += size


def locale_bytes(text):
    """The four bytes of a locale, as AOSP packs them."""
    def packed(part, base):
        if len(part) < 3:
            return part.encode().ljust(2, b"\0")
        a, b, c = (ord(letter) - ord(base) for letter in part)
        return bytes([128 | c << 2 | b >> 3, (b & 7) << 5 | a])

    language, _, region = text.partition("-")
    return packed(language, "a") + packed(region, "0")


def changed(chance, table):
    """The table with a few of its bytes changed, as a newer tool might write them."""
    table = bytearray(table)
    chunks = list(chunks_in(table, 0, len(table)))
    types = [place for place, kind in chunks if kind == 0x0201]
    for place in types:
        if chance.random() < 0.5:
            table[place + 28 : place + 32] = locale_bytes(chance.choice(LOCALES + ("",)))
        if chance.random() < 0.1:
            table[place + 56 : place + 60] = b"Latn"
    for _ in range(chance.choice((0, 0, 1, 1, 2, 3))):
        draw = chance.random()
        place = chance.choice(types) if types else 0
        if draw < 0.2 and types:
            table[place + 9] |= chance.choice((2, 4, 0x80))
        elif draw < 0.3 and types:
            table[place + 39] = chance.choice((1, 2, 3))
        elif draw < 0.6 and types:
            size = struct.unpack_from("<I", table, place + 4)[0]
            at = place + chance.randrange(min(72, size), size) if size > 72 else place + 9
            table[at] = chance.choice((0, 1, 3, 7, 8, 9, 0x10, 0x18))
        elif draw < 0.8:
            at, kind = chance.choice(chunks)
            if kind in (0x0001, 0x0202):
                struct.pack_into("<H", table, at, chance.choice((0x0203, 0x0204, 0x0205, 0x0206, 0x0001)))
        elif types:
            table[place + 20 + chance.randrange(28, 52)] = chance.choice((0, 1, 2))
    return bytes(table)


def with_strings(chance, table):
    """The table with another pool in front, of which some strings cannot be read."""
    pool = bytearray(Pool(["a", "bc", "d" * 200], chance.random() < 0.5).bytes)
    for _ in range(chance.choice((0, 1, 2))):
        pool[chance.randrange(28, len(pool))] = chance.choice((0, 1, 0x80, 0xFF))
    return table[:4] + struct.pack("<I", len(table) + len(pool)) + table[8:12] + bytes(pool) + table[12:]


def newer_type(chance, case, type_id):
    """A type whose entries are compact, mostly at offsets of 16 bits, with its type spec."""
    is_short, offsets, entries = chance.random() < 0.8, [], b""
    for _ in range(chance.randint(1, 8)):
        is_there = chance.random() < 0.8
        offsets.append((len(entries) // (4 if is_short else 1)) if is_there else 0xFFFF if is_short else NO_ENTRY)
        entries += struct.pack("<HHI", 0, 8 | 0x10 << 8, chance.randrange(9)) if is_there else b""
    listed = struct.pack(f"<{len(offsets)}{'H' if is_short else 'I'}", *offsets)
    listed += b"\xff" * (-len(listed) % 4)
    header = type_header(type_id, SHORT * is_short, case.record(), len(offsets), len(listed))
    return type_spec(type_id, len(offsets)) + chunk(0x0201, header, listed + entries)


def newer_table(chance, case):
    return table_bytes(b"".join(newer_type(chance, case, type_id) for type_id in range(1, chance.randint(2, 4))))


class Run:
    def __init__(self, program, folder, chance, case):
        self.program, self.folder, self.chance, self.options = program, folder, chance, case.options
        self.box = case.box.json()
        if chance.random() < 0.7:
            self.box["locale"] = chance.sample(LOCALES, chance.randint(1, 3))
        self.tables, self.paths, self.are_bases, self.refused, layers = [], [], [], [], []
        for place, own_of in enumerate(case.maps):
            twins = Twins(chance, case)
            table = newer_table(chance, case) if chance.random() < 0.2 else chance.choice((twins.dense, twins.sparse))
            table = changed(chance, table)
            draw = chance.random()
            if draw < 0.3:
                table = with_strings(chance, table)
            elif draw < 0.4:
                table = Named(chance).bytes
            self.write(f"table{place}", table)
            printed, status = self.run("rows", f"table{place}")
            if status != 0:
                self.refused.append((table, printed.strip().replace("refused: ", "refused: layer 0 ")))
                continue
            self.tables.append(table)
            self.paths.append(f"table{place}")
            self.are_bases.append(own_of is None)
            layers.append({"table": f"table{place}"})
            if own_of is not None:
                layers[-1]["map"] = f"map{place}"
                self.write(f"map{place}", json.dumps([[id_text(a), id_text(b)] for a, b in own_of.items()]).encode())
        self.write("layers", json.dumps(layers).encode())
        self.write("box", json.dumps(self.box).encode())

    def write(self, name, some):
        with open(os.path.join(self.folder, name), "wb") as file:
            file.write(some)

    def run(self, *words):
        done = subprocess.run([self.program, *words], cwd=self.folder, capture_output=True, text=True)
        return done.stdout + done.stderr, done.returncode

    def survey(self, paths, *words):
        """What is printed, and the status. As JSON it is the same, of tables at these paths."""
        text, status = self.run("survey", *self.options, *words)
        printed = self.run("survey", "--json", *self.options, *words)
        if printed != (as_json(text, paths) if status < 2 else text, status):
            sys.exit(f"{words}: printed\n{printed}\nas JSON, and as text\n{text}")
        faults = read_lines(schema_of("survey"), printed[0])[1] if status < 2 else []
        if faults:
            sys.exit(f"{words}: {faults}")
        return text, status

    def newer_found(self, tables):
        """How often the script for newer tables finds something, in all of these tables."""
        found = {}
        for table in tables:
            self.write("one", table)
            done = subprocess.run([sys.executable, NEWER, "one"], cwd=self.folder, capture_output=True, text=True)
            for line in done.stdout.splitlines():
                name, _, count = line.rpartition(": ")
                found[name] = found.get(name, 0) + int(count)
        return found


FOUND_AS = {
    "types with 16-bit offsets": "16-bit-offsets",
    "compact entries": "compact-entry",
    "types with a grammatical gender": "gender",
    "types with other newer qualifiers": "newer-qualifier",
}


def count_in(printed, name):
    return sum(int(line.split()[4]) for line in printed.splitlines() if line.split()[3:4] == [name])


def check_newer(run, number, tables, printed):
    """Stops where not all is printed that the script for newer tables finds in some tables."""
    for name, count in run.newer_found(tables).items():
        if count_in(printed, FOUND_AS[name]) != count:
            sys.exit(f"case {number}: {count} {name}, and printed\n{printed}")


def check_refused(run, number):
    """The same of each table that is refused, surveyed alone."""
    run.write("alone", b'[{"table":"table"}]')
    for table, message in run.refused:
        run.write("table", table)
        lines, status = survey_of_refused(table, message)
        got, want = run.survey(["table"], "alone"), ("".join(line + "\n" for line in lines), status)
        if got != want:
            sys.exit(f"case {number}, refused: printed\n{got}\nand not\n{want}")
        check_newer(run, number, [table], got[0])


def check_no_table(run):
    """A file whose first chunk is no table is not surveyed, whatever is in it."""
    table = newer_table(run.chance, Case(run.chance))
    run.write("alone", b'[{"table":"table"}]')
    run.write("table", b"\0\2" + table[2:])
    done = subprocess.run([run.program, "survey", *run.options, "alone"], cwd=run.folder, capture_output=True, text=True)
    if (done.stdout, done.stderr, done.returncode) != ("", "refused: layer 0 table: NotTable\n", 3):
        sys.exit(f"no table: {done}")


def check(program, as_phone, number):
    chance = random.Random(number)
    warned = 0
    with tempfile.TemporaryDirectory() as folder:
        run = Run(program, folder, chance, (LocaleCase if as_phone else Case)(chance))
        for words, box in ((("layers",), None), (("layers", "box"), run.box)):
            lines, status = survey_of(run.tables, box, run.are_bases, as_phone)
            want = "".join(line + "\n" for line in lines), status
            got = run.survey(run.paths, *words)
            if got != want:
                sys.exit(f"case {number}, {words}: printed\n{got}\nand not\n{want}")
            warned += status
        check_newer(run, number, run.tables, run.survey(run.paths, "layers")[0])
        check_refused(run, number)
        check_no_table(run)
    return warned, len(run.refused)


def main():
    as_phone, program, numbers, jobs = read_words()
    warned = refused = 0
    with ProcessPoolExecutor(jobs) as pool:
        for in_case, refused_tables in pool.map(partial(check, program, as_phone), numbers, chunksize=8):
            warned, refused = warned + in_case, refused + refused_tables
    print(f"{2 * len(numbers)} surveys, {warned} with a warning; {refused} of tables that are refused")


if __name__ == "__main__":
    main()

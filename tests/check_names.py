#!/usr/bin/env python3
"""Holds what the words of `restool query` and `make` stand for, over random layers, against a plain reading of the rules:

    check_names.py PROGRAM CASES [JOBS [FIRST]]

Words are ids, names, `TYPE/*`, `*` and files of them, some with a package, some with an `@` as in XML, some misspelt; some files
have no word, or are no text. A query of words has to print what a query of the ids prints that they stand for, and a certificate of goals what one of their ids has. The
tables are those of named_tables.py, and the cases are numbered from FIRST on, which is 0 if it is not given. The last line
counts what was compared."""
import json
import os
import random
import subprocess
import sys
import tempfile
from collections import Counter
from concurrent.futures import ProcessPoolExecutor

from named_tables import ENTRY_NAMES, TYPE_NAMES, Table, random_id
from plain_certificates import id_text
from plain_words import GOAL, SET, XML_NAME, Missing, Two, check_packages, is_asked, parts_of, text_of

MOST_STYLES = 3
MARK = "\ufeff"
"""The byte order mark."""
WHITE_SPACE = "\t\n\v\f\r \x85\xa0\u1680\u2000\u2001\u2002\u2003\u2004\u2005\u2006\u2007\u2008\u2009\u200a\u2028\u2029\u202f\u205f\u3000"


class Stop(Exception):
    """Why a command stops at its words, and how the line ends that says so."""


class NoFile(Exception):
    """The path of a file of words that is not there."""


def words_in(folder, path):
    """The words of a file, one a line."""
    try:
        with open(os.path.join(folder, path), "rb") as file:
            content = file.read()
    except FileNotFoundError:
        raise NoFile(path) from None
    try:
        text = content.decode()
    except UnicodeDecodeError:
        raise Stop("a word is", "not UTF-8") from None
    lines = [line.strip(WHITE_SPACE) for line in text.removeprefix(MARK).split("\n")]
    words = [line for line in lines if line and not line.startswith("#")]
    if not words:
        raise Stop("no words in", path)
    return words


def names_file(word):
    return word.startswith("@") and not XML_NAME.fullmatch(word)


def check_forms(words, form):
    for word in words:
        if not form.fullmatch(word):
            raise Stop("bad id", word)


def words_asked(folder, asked, form):
    """The words of a command line, with those of files in the place of words that name some. Each has to have this form, and
    those of the command line are looked at before a file is read."""
    check_forms([word for word in asked if not names_file(word)], form)
    words = []
    for word in asked:
        words += words_in(folder, word[1:]) if names_file(word) else [word]
    check_forms(words, form)
    return words


def bases(layers):
    return [table for table, is_overlay in layers if not is_overlay]


def packages_of(layers):
    return [package for table in bases(layers) for package in table.packages]


def id_named(layers, word):
    """The id that a word for one resource stands for."""
    if "/" not in word:
        return int(word, 16)
    packages, (package, names) = packages_of(layers), parts_of(word)
    rows = [row for table in bases(layers) for row in table.rows if row.names == names]
    ids = [row.id for row in rows if is_asked(packages, package, row.id >> 24)]
    check_packages(packages, word, [name >> 24 for name in ids])
    return ids[0]


def ids_named(layers, word):
    """The ids that a word stands for, where it may stand for several."""
    if word != "*" and not word.endswith("/*"):
        return [id_named(layers, word)]
    rows = [row for table in bases(layers) for row in table.rows]
    if word != "*":
        package, (type_name, _) = parts_of(word)
        packages = packages_of(layers)
        rows = [row for row in rows if row.names[0] == type_name and is_asked(packages, package, row.id >> 24)]
    if not rows:
        raise Missing(text_of(word))
    return sorted({row.id for row in rows})


def goals_named(layers, word):
    """The goals that a word stands for, as words with ids alone."""
    if SET.fullmatch(word):
        return [id_text(found) for found in ids_named(layers, word)]
    attr, styles = word.split("@", 1)
    ids = [id_text(id_named(layers, part)) for part in [attr, *styles.split(",")]]
    return [f"{ids[0]}@{','.join(ids[1:])}"]


def can_be_asked(names):
    return None not in names and all(name and not set(name) & set("*,@\n") for name in names) and not set(names[0]) & set("/:")


class Words:
    """Random words, mostly with names that the base layers have."""

    def __init__(self, chance, layers):
        self.chance = chance
        self.known = [row.names for table in bases(layers) for row in table.rows if can_be_asked(row.names)]
        self.packages = packages_of(layers)

    def one(self):
        kind = self.chance.random()
        if kind < 0.2:
            return id_text(random_id(self.chance))
        names = TYPE_NAMES + ("nothing",), ENTRY_NAMES + ("é", "none")
        known = self.chance.choice(self.known) if self.known and kind < 0.95 else map(self.chance.choice, names)
        return self.sign() + self.package() + "/".join(known)

    def package(self):
        """One that a word names, mostly none or one that is there."""
        if self.chance.random() < 0.5:
            return ""
        number, name = self.chance.choice(self.packages or [(0x7F, "none")])
        is_named = name and not set(name) & set("*,@:/\n") and self.chance.random() < 0.6
        return self.chance.choice((name if is_named else f"0x{number:02x}", f"0x{number:02X}")) + ":"

    def sign(self):
        return "@" if self.chance.random() < 0.1 else ""

    def several(self):
        kind = self.chance.random()
        if kind < 0.1 and self.known:
            return "*"
        return self.one().removeprefix("@").split("/")[0] + "/*" if kind < 0.25 and self.known else self.one()

    def goal(self):
        if self.chance.random() < 0.6:
            return self.several()
        styles = [self.one() for _ in range(self.chance.randint(1, MOST_STYLES))]
        return f"{self.one().removeprefix('@')}@{','.join(styles)}"


def file_of(chance, words):
    """A file with these words, one a line, and with lines that have none."""
    blanks, lines = ("", "", " ", "\t", "\u3000"), []
    for word in [*words, None]:
        lines += chance.sample(["", "# more", "  ", "\t#"], chance.choice((0, 0, 1, 2)))
        if word is not None:
            lines.append(chance.choice(blanks) + word + chance.choice(blanks))
    end = chance.choice(("\n", "\r\n"))
    text = chance.choice(("", MARK)) + end.join(lines) + chance.choice(("", end))
    return text.encode()


def write(folder, name, content):
    with open(os.path.join(folder, name), "wb") as out:
        out.write(content)
    return f"@{name}"


def written(chance, folder, words):
    """The words, of which some stand in a file."""
    if chance.random() < 0.6 or not words:
        return list(words)
    begin = chance.randrange(len(words))
    end = chance.randint(begin + 1, len(words))
    return [*words[:begin], write(folder, "words", file_of(chance, words[begin:end])), *words[end:]]


def with_odd_files(chance, folder, words):
    """These words, and files that may have none, or have some that are odd, or are no text."""
    words = written(chance, folder, words)
    for name in ("odd", "odder")[: chance.choice((0, 0, 0, 0, 0, 0, 1, 2))]:
        some = [word for word in words if word not in ("@words", "@odd")][:1]
        some += chance.choice(([], [word + " # more" for word in some], [MARK + word for word in some]))
        content = file_of(chance, chance.choice(([], some, some[::-1])))
        words.insert(chance.randint(0, len(words)), write(folder, name, content + chance.choice((b"", b"", b"", b"\xff"))))
    return words


def write_layers(chance, folder):
    layers = [(Table(chance), chance.random() < 0.2) for _ in range(chance.randint(1, 3))]
    entries = []
    for place, (table, is_overlay) in enumerate(layers):
        write(folder, f"table{place}", table.bytes)
        entries.append({"table": f"table{place}", **({"map": "map"} if is_overlay else {})})
    for name, value in (("layers", entries), ("map", []), ("device", {"density": 160}), ("box", {"density": [160]})):
        write(folder, name, json.dumps(value).encode())
    return layers


def compare(program, folder, command, asked, form, find):
    """How a command's answer for words differs from that for what they stand for, and why there is none, if there is none."""
    run = lambda words: subprocess.run([program, *command, *words], cwd=folder, capture_output=True)
    done, told = run(asked), "answered"
    try:
        same = run([found for word in words_asked(folder, asked, form) for found in find(word)])
        wanted = same.stdout, same.stderr, same.returncode
    except Stop as stop:
        told, rest = stop.args
        wanted = b"", f"command: {told} {rest}\n".encode(), 2
    except NoFile as path:
        wanted, told = (b"", f"file: {path}\n".encode(), 5), "no file"
    except Missing as name:
        wanted, told = (b"", f"no resource {name}\n".encode(), 1), "no resource"
    except Two as names:
        wanted, told = (b"", f"two resources {names}\n".encode(), 1), "two resources"
    said = done.stdout, done.stderr, done.returncode
    return "" if said == wanted else f"{asked}: {said}, wanted {wanted}", told


def check_case(program, number):
    chance = random.Random(number)
    with tempfile.TemporaryDirectory() as folder:
        layers = write_layers(chance, folder)
        words = Words(chance, layers)
        asked = with_odd_files(chance, folder, [words.several() for _ in range(chance.randint(1, 5))])
        of_sets = compare(program, folder, ["query", "layers", "device"], asked, SET, lambda word: map(id_text, ids_named(layers, word)))
        asked = with_odd_files(chance, folder, [words.goal() for _ in range(chance.randint(1, 3))])
        of_goals = compare(program, folder, ["make", "layers", "box"], asked, GOAL, lambda word: goals_named(layers, word))
    return [f"case {number}: {fault}" for fault, _ in (of_sets, of_goals) if fault], [told for _, told in (of_sets, of_goals)]


def main():
    program, cases = os.path.abspath(sys.argv[1]), int(sys.argv[2])
    jobs, first = (int(word) for word in (sys.argv[3:] + ["1", "0"][len(sys.argv) - 3 :])[:2])
    all_told, wrong = Counter(), 0
    with ProcessPoolExecutor(jobs) as pool:
        for faults, told in pool.map(check_case, [program] * cases, range(first, first + cases), chunksize=8):
            all_told.update(told)
            wrong += bool(faults)
            print(*faults, sep="\n", end="\n" if faults else "")
    print(f"{cases} cases: {', '.join(f'{what} {all_told[what]}' for what in sorted(all_told))}")
    sys.exit(wrong > 0)


if __name__ == "__main__":
    main()

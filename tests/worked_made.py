#!/usr/bin/env python3
"""Asks `restool make` for small certificates that were worked out by hand:

    worked_made.py PROGRAM [JOBS]

The cases are such as worked_rows.py has, and what is printed of them is the same."""
import json

from small_tables import TABLE_B
from worked_certificates import (
    ALIKE_AT_NIGHT, FRENCH_AND_GERMAN, MEDIUM_AND_HIGH, NIGHT_AND_DAY, PARTED, PLAIN, STYLES, among, at_most, certificate_of,
    densities, tree, tree_under, value,
)
from worked_rows import A, B, FIRST, ID, MEDIUM_BOX, NOWHERE, SECOND, TO_198, Case, check_groups, files_of, over

NODE_LIMIT = "node limit\n"


class Checked(Case):
    """A certificate that is made, and what a check of it says."""

    def answer(self, program, folder):
        made, told, status = super().answer(program, folder)
        if told or status:
            return made, told, status
        goals = self.words[self.words.index("box") + 1 :]
        return Case(["check", "layers", "box", "certificate", *goals], certificate=made).answer(program, folder)


def make_words(goals, most, *options):
    limit = [] if most is None else ["--max-nodes", str(most)]
    return ["make", *options, *limit, "layers", "box", *goals]


def made(rows, box, most, goals, wanted):
    """A text that is printed, or how many nodes an accepted certificate has."""
    words, files = make_words(goals, most), {**files_of([rows]), "box": box}
    if isinstance(wanted, int):
        return Checked(words, f"accepted goals {len(goals)} nodes {wanted}\nset-aside 0\n", **files)
    return Case(words, wanted, status=wanted.startswith(("counter", "node")), **files)


def written(*goals, version=1):
    """How a certificate is printed."""
    return json.dumps(certificate_of(*goals, version=version), sort_keys=True, separators=(",", ":")) + "\n"


def locales(*names):
    return {"density": [160], "locale": list(names)}


def in_each(names, given):
    """A row for each locale, all with the same conditions beside it."""
    conditions = ",".join(f"{name}={number}" for name, number in given.items())
    return "\n".join(["0 [] 1", *(f"0 [locale={name},{conditions}] 2" for name in names)])


def met_or_not(names, given):
    """Each condition is met by some devices and not by others."""
    return locales(*names) | {name: [number - 1, number] for name, number in given.items()}


def counter(device, end, goal=0):
    return f"counter goal {goal}\ndevice {device}\nend {end}\n"


FRENCH = "0 [locale=fr] 1"
FRENCH_AND_ANY = f"{FRENCH}\n0 [] 2"
IN_THREE = f"{MEDIUM_AND_HIGH}\n0 [density=640] 3"
SHARED = {"smallestWidthDp": 600, "night": 2, "sdk": 30}
TEN_SHARED = SHARED | {"mcc": 310, "layoutDirection": 2, "screenSize": 3, "long": 1, "orientation": 2, "touchscreen": 3, "keyboard": 2}
LANGUAGES = [first + second for first in "abcd" for second in "abcdefghijklmnopqrstuvwxy"]
ONE_LEAF = '{"goals":[{"id":"0x7f010000","nodes":[{"kind":16,"layer":0,"word":1}]}],"version":1}\n'
BY_LEVEL = "\n".join(f"0 [sdk={level}] {level}" for level in range(100, 0, -1)), {"density": [160], "sdk": {"from": 1, "to": 100}}
"""A hundred levels, each with a row of its own, the last first, so that all no halves are open at once."""
TREE_BY_LEVEL = tree(*(at_most(level, "sdk") for level in range(99, 0, -1)), *map(value, range(1, 101)))
NETWORKS = range(1, 31)
BY_NETWORK = (
    "\n".join(["0 [] 99", *(f"0 [mcc=1,mnc={mnc}] {mnc}" for mnc in NETWORKS)]),
    {"density": [160], "mcc": [1, 2], "mnc": [*NETWORKS]},
)
"""The maker asks the mcc first, and its tree has 61 nodes. Where the mnc is asked first, and each time the mcc behind it, there is
one of 119, all of whose tests are needed. The limit is about the maker's tree."""
TREE_BY_NETWORK = tree(
    among("mcc", 1), *(node for mnc in NETWORKS[:-1] for node in (among("mnc", mnc), value(mnc))), value(NETWORKS[-1]), value(99)
)
TOO_LONG = f"0 [] @{ID}"
STYLED = f"{A}@{FIRST}"

MADE = [
    # The rows of a table, a box, the most nodes, the goals, and what is printed; or how many nodes a certificate has.
    # One trace: one leaf.
    (PLAIN, MEDIUM_BOX, 1, [ID], ONE_LEAF),
    (PLAIN, densities(1, 32767), 1, [ID], ONE_LEAF),
    (MEDIUM_AND_HIGH, densities(120, 197), 10, [ID], 1),
    (MEDIUM_AND_HIGH, densities(120, 197), 1, [ID], 1),
    # 198 is the first density at which 320 is better, since (320 - 198) * 320 is not above 198 * 198.
    (MEDIUM_AND_HIGH, TO_198, None, [ID], 3),
    (MEDIUM_AND_HIGH, TO_198, 3, [ID], 3),
    (MEDIUM_AND_HIGH, TO_198, 2, [ID], NODE_LIMIT),
    (MEDIUM_AND_HIGH, TO_198, 1, [ID], NODE_LIMIT),
    (MEDIUM_AND_HIGH, {"density": [160, 320]}, 3, [ID], 3),
    # The limit is for all goals together.
    (MEDIUM_AND_HIGH, TO_198, 5, [ID] * 2, NODE_LIMIT),
    (MEDIUM_AND_HIGH, TO_198, 6, [ID] * 2, 6),
    (MEDIUM_AND_HIGH, TO_198, 7, [ID] * 3, NODE_LIMIT),
    (PLAIN, MEDIUM_BOX, 1, [ID] * 2, NODE_LIMIT),
    # A device without a value.
    (FRENCH, FRENCH_AND_GERMAN, 10, [ID], counter("locale=de density=160", f"absent {ID}")),
    (TOO_LONG, densities(120, 640), 10, [ID], counter("density=120", f"too long {ID}")),
    (TOO_LONG, MEDIUM_BOX, 10, [ID], counter("density=160", f"too long {ID}")),
    (PLAIN, MEDIUM_BOX, 10, [ID, SECOND], counter("density=160", f"absent {SECOND}", goal=1)),
    # All locales that answer alike stand on one side of a test.
    (FRENCH_AND_ANY, FRENCH_AND_GERMAN, 10, [ID], 3),
    (FRENCH_AND_ANY, locales("fr", "fr-CA", "de", "it"), 3, [ID], 3),
    # Decisions that differ are parted, though the values are alike.
    (ALIKE_AT_NIGHT, NIGHT_AND_DAY, None, [ID], 3),
    (ALIKE_AT_NIGHT, {"density": [160], "night": {"from": 1, "to": 2}}, None, [ID], 3),
    (f"0 [] bag 0x00000000\n1 [night=2] @{ID}\n1 [] 1", densities(1, 32767) | {"night": [1, 2]}, 4, [SECOND, ID], 4),
    # A range of densities in three parts: that of 160 is better up to 197, and that of 320 up to 426.
    (IN_THREE, densities(120, 640), 5, [ID], 5),
    (IN_THREE, densities(120, 640), 4, [ID], NODE_LIMIT),
    # What all rows ask is asked once: two nodes for each such condition, then twice as many as locales, less one.
    (in_each(LANGUAGES, SHARED), met_or_not(LANGUAGES, SHARED), 205, [ID], 205),
    (in_each(LANGUAGES[:60], TEN_SHARED), met_or_not(LANGUAGES[:60], TEN_SHARED), 139, [ID], 139),
    # Two languages have a value by night, on Android 11.
    (
        "0 [] 1\n0 [locale=de,night=2,sdk=30] 2\n0 [locale=fr,night=2,sdk=30] 3",
        locales("de", "fr", "it") | {"night": [1, 2], "sdk": {"from": 26, "to": 30}},
        9,
        [ID],
        9,
    ),
    (*BY_LEVEL, 199, [ID], written(TREE_BY_LEVEL)),
    (*BY_LEVEL, 198, [ID], NODE_LIMIT),
    (*BY_NETWORK, 61, [ID], written(TREE_BY_NETWORK)),
    (*BY_NETWORK, 60, [ID], NODE_LIMIT),
    # What is printed of a test and of a bag, and of goals of both kinds.
    (MEDIUM_AND_HIGH, TO_198, None, [ID], written(tree(*PARTED))),
    ("0 [] bag 0x00000000", MEDIUM_BOX, 1, [ID], written(tree({"bag": ID}))),
    (STYLES, TO_198, None, [STYLED], written(tree_under(A, [FIRST], *PARTED), version=2)),
    # Attributes under styles.
    (STYLES, TO_198, 10, [STYLED], 3),
    (STYLES, MEDIUM_BOX, 10, [f"{B}@{FIRST}"], counter("density=160", f"absent {B}")),
]


def of_made():
    for case in MADE:
        yield made(*case)


OF_SECOND = '{"goals":[{"id":"0x7f010001","nodes":[{"kind":16,"layer":0,"word":2}]}],"version":1}\n'
GERMAN = "device locale=de density=160"

OMITTED = [
    # The most nodes, the goals, and what is printed to both streams. The first entry has a value in French alone, the second
    # everywhere.
    (10, [FIRST, SECOND], OF_SECOND, f"omitted goal 0 {FIRST}\n{GERMAN}\nend absent {FIRST}\n"),
    (
        1,
        [SECOND, f"{A}@{SECOND}"],
        OF_SECOND,
        f"omitted goal 1 {A}@{SECOND}\n{GERMAN}\nend absent {SECOND}\n",
    ),
    (10, [SECOND], OF_SECOND, ""),
    (10, [FIRST], "", f"omitted goal 0 {FIRST}\n{GERMAN}\nend absent {FIRST}\n"),
    (1, [SECOND] * 2, NODE_LIMIT, ""),
]


def of_omitted():
    for most, goals, out, err in OMITTED:
        words = make_words(goals, most, "--omit")
        yield Case(words, out, err, out != OF_SECOND, **files_of([f"{FRENCH}\n1 [] 2"]), box=FRENCH_AND_GERMAN)


def of_names():
    """The goal that an answer is about, with its names."""
    told = "rejected goal 0 node 0 N8 OtherValue\ndevice density=160\nend value layer 0 decimal 5\nset-aside 0\n"
    styled, wrong = f"{A}@{NOWHERE},{FIRST}", certificate_of(tree(value(9)))
    for names, of_check, of_make in (
        ("--names ", f"goal 0 {ID} s/k\n", f"goal 1 {styled} s/k\n"),
        ("", "", ""),
    ):
        words = f"check {names}layers box certificate {ID}"
        yield over([TABLE_B], words, told, of_check, 1, box=MEDIUM_BOX, certificate=wrong)
        out = counter("density=160", f"absent {NOWHERE}", goal=1)
        yield over([TABLE_B], f"make {names}layers box {ID} {styled}", out, of_make, 1, box=MEDIUM_BOX)


if __name__ == "__main__":
    check_groups([of_made, of_omitted, of_names])

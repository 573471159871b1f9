#!/usr/bin/env python3
"""Holds what `restool check --json`, `restool bag --json` and `restool attr --json` print against what they print as text:

    check_answer_json.py [--locales android] PROGRAM CASES [JOBS [FIRST]]

The cases are those of named_cases.py: of each its certificate is checked, with --all and without, and some ids are asked for their
bags at a device of the box, and its attributes for where they end. Each line has to be JSON as it is written compactly, with its
members in order, and valid by its schema. Written as text the lines have to be those that are printed without --json: with --android
by names, paths and XML; and without it by ids, and by kinds and words as rows hold them. What a value says in several ways has to be
the same, and goals and claims have to be those of the certificate. The status and what stands on standard error are the same too.

The cases are numbered from FIRST on, which is 0 if it is not given. The last line counts what was compared."""
import random
import subprocess
import sys
import tempfile
from collections import Counter
from concurrent.futures import ProcessPoolExecutor
from functools import partial

from case_files import Files, device_of
from case_words import read_words
from check_json import faults_of_parts, key_text, read_lines, schema_of
from check_notation import in_columns
from json_of_device import Notation, Raw, explain_text, path_of
from named_cases import NamedCase, NamedLocaleCase
from plain_bags import Attribute
from plain_certificates import certificate_json, goal_word, id_text
from plain_rejections import WORDS

IDS_ASKED = 4
SHOWN = 700
NOTHING = device_of("")

# ---- verdicts: of a line with a device that device, and of one with its qualifiers in words the end alone


def counted(line):
    kind = line["line"]
    if kind == "accepted":
        return f"accepted goals {line['goals']} nodes {line['nodes']}"
    return f"failed {line['failed']} of {line['goals']} goals" if kind == "failed" else f"set-aside {line['count']}"


def goal_name(line):
    if "goal" not in line:
        return f"goal {line['place']}"
    goal = line["goal"]
    return " under ".join([goal["name"], *([" ".join(style["name"] for style in goal["styles"])] if "styles" in goal else [])])


class RawVerdicts(Raw):
    """With `bag` and `attr` without --android."""

    def rejected(self, line):
        shown = [(one["device"], {**NOTHING, **one["device"]}) for one in line.get("devices", [])]
        words = ("first", "second") if len(shown) == 2 else ("device",)
        yield f"rejected goal {line['place']} node {line['node']} {line['rule']} {line['ruleName']}"
        yield from ((word, device if all(said.values()) else "what is 0 is said") for word, (said, device) in zip(words, shown))
        if len(shown) == 1:
            yield f"end {self.end(line['devices'][0]['end'])}"

    def row(self, line):
        return f"{line['id']} layer {line['from']['layer']} {self.value(line['value'])}"

    def attribute(self, lines):
        return [f"{lines[0]['id']} {self.end(lines[-1]['end'])}"]


class NotedVerdicts(Notation):
    """The same with it."""

    def __init__(self):
        super().__init__(False)

    def rejected(self, line):
        yield f"rejected {goal_name(line)} node {line['node']} {line['rule']} {line['ruleName']}: {WORDS[line['ruleName']]}"
        if "claimed" in line:
            claimed = line["claimed"]
            yield f"  claimed {'bag ' + claimed['bag']['name'] if 'bag' in claimed else self.end(claimed)}"
        yield from (("on", self.end(one["end"])) for one in line.get("devices", []))

    def row(self, line):
        return f"{key_text(line['key'])} {line['value']['xml']} from {path_of(line['from'])}"

    def attribute(self, lines):
        """That of the attribute, those of styles, and how what they set comes to its end."""
        styles = [line for line in lines if line["line"] == "style"]
        return [lines[0]["name"], *in_columns(list(map(self.style, styles))), *explain_text(self, lines[1 + len(styles) :])]

    def style(self, line):
        set_by = [line["value"]["xml"], path_of(line["from"])] if "value" in line else ["", ""]
        return line["name"], *set_by, line["decision"]["words"]


FORMS = RawVerdicts(), NotedVerdicts()


def all_texts(form, lines):
    """All lines of an answer, as this form writes them."""
    if lines and lines[0]["line"] == "attribute":
        return form.attribute(lines)
    return [text for line in lines for text in line_texts(form, line)]


def line_texts(form, line):
    kind = line["line"]
    if kind == "no bag":
        return [f"no bag {line['fault']}"]
    if kind == "rejected":
        return list(form.rejected(line))
    return [form.row(line) if kind == "row" else counted(line)]


def seen(text):
    """A line of a verdict, as far as a line of JSON says it."""
    first, _, words = text.partition(" ")
    if first in ("first", "second", "device"):
        return first, device_of(words)
    return ("on", text.split(": ", 1)[1]) if text.startswith("  on ") else text


# ---- what the text does not say


def ids_of(goal):
    return [goal.attr, *goal.styles] if isinstance(goal, Attribute) else [goal]


def leaf_of(claimed):
    """The node that claims this."""
    if "bag" in claimed:
        return {"bag": claimed["bag"]["id"]}
    return {"layer": claimed["from"]["layer"], **claimed["value"]["stored"]}


def faults_of_rejection(case, line):
    """The ids of its goal, and what its node claims, are as they were asked."""
    goal, claimed = line.get("goal"), line.get("claimed")
    if goal:
        told, due = [each["id"] for each in (goal, *goal.get("styles", []))], list(map(id_text, ids_of(case.asked[line["place"]])))
        yield from [f"{goal}, where {due} is due"] * (told != due)
    if claimed:
        told, due = leaf_of(claimed), case.goals[line["place"]][1][line["node"]]
        yield from [f"{claimed}, where {due} is due"] * (told != due)


def faults_beside_text(case, lines):
    rejected = [line for line in lines if line["line"] == "rejected"]
    yield from (fault for line in rejected for fault in faults_of_rejection(case, line))
    yield from faults_of_parts(lines, [f"table{place}" for place in range(len(case.tables))])


# ---- what is printed


def faults_of(files, case, command, *words):
    """The faults of what a command prints as JSON, and the kinds of its lines."""
    printed = files.streams(command, "--json", *words)
    lines, faults = read_lines(schema_of(command), printed[0])
    if faults:
        return faults, []
    for form in FORMS:
        due = files.streams(command, *form.words[:1], *words)
        told, wanted = all_texts(form, lines), due[0].split("\n")[:-1]
        wanted = list(map(seen, wanted)) if command == "check" else wanted
        faults += [] if told == wanted else [f"as {form.words} {str(told)[:SHOWN]}, where {str(wanted)[:SHOWN]} is due"]
        faults += [] if printed[1:] == due[1:] else [f"{printed[1:]}, where {due[1:]} is due"]
    return faults or list(faults_beside_text(case, lines)), [line["line"] for line in lines]


def questions(files, case, chance):
    """What is asked of a case: a command and its words."""
    inputs = ["layers", "box", "certificate", *map(goal_word, case.asked)]
    yield from (("check", *option, *inputs) for option in ((), ("--all",), ("--names",)))
    files.write("device", {name: value for name, value in chance.choice(case.members).items() if value})
    ids = [line.split(" ", 1)[0] for line in ids_told(files)]
    yield from (("bag", "layers", "device", name) for name in chance.sample(ids, min(IDS_ASKED, len(ids))))
    for goal in (goal for goal in case.asked if isinstance(goal, Attribute)):
        words = ["layers", "device", *map(id_text, (goal.attr, *goal.styles))]
        yield from (("attr", *keep, *words) for keep in ((), ("--keep",)))


def ids_told(files):
    """The lines of `ids`, which knows no locales."""
    done = subprocess.run([files.program, "ids", "layers"], cwd=files.folder, capture_output=True)
    return done.stdout.decode().split("\n")[:-1]


def check_case(program, case_of, number):
    chance = random.Random(number)
    case = case_of(chance, has_styles=number % 2 == 1)
    faults, kinds = [], []
    with tempfile.TemporaryDirectory() as folder:
        files = Files(program, folder, case)
        files.write("certificate", certificate_json(case.goals))
        for command, *words in questions(files, case, chance):
            wrong, told = faults_of(files, case, command, *words)
            faults += [f"case {number}: {command} {' '.join(words)}: {fault}" for fault in wrong]
            kinds += [f"{command} {kind}" for kind in told or ["without lines"]]
    return faults, kinds


def main():
    as_phone, program, numbers, jobs = read_words()
    check = partial(check_case, program, NamedLocaleCase if as_phone else NamedCase)
    told, wrong = Counter(), 0
    with ProcessPoolExecutor(jobs) as pool:
        for faults, kinds in pool.map(check, numbers, chunksize=8):
            told.update(kinds)
            wrong += bool(faults)
            print(*faults, sep="\n", end="\n" if faults else "")
    print(f"{len(numbers)} cases: {', '.join(f'{kind} {told[kind]}' for kind in sorted(told))}")
    sys.exit(wrong > 0)


main()

#!/usr/bin/env python3
"""Holds what `restool diff --json`, `values --json`, `query --json` and `explain --json` print against the lines that they print as
text:

    check_json.py [--locales android] PROGRAM CASES [JOBS [FIRST]]

The cases are those of check_diff.py: of each it is asked what the change alters, and what the layers after it say; and where all or
some ids end for a device of the box, and how one does. Each line has to be JSON as it is written compactly, with its members in order,
and valid by its schema; those of one name stand in the order of their bytes. Written as text the lines have to be those that are
printed without --json, by what they have of XML and of devices in words; and those of --raw, or without --android, by kinds, words,
strings and names, and by devices as a box has them. What a line says twice, as a configuration by its qualifiers and in words, has to
be the same. The status and what stands on standard error are the same.

The cases are numbered from FIRST on, which is 0 if it is not given. The last line counts what was compared."""
import json
import os
import random
import subprocess
import sys
import tempfile
from collections import Counter, namedtuple
from concurrent.futures import ProcessPoolExecutor
from functools import cache, partial
from itertools import groupby

from case_words import read_words
from check_diff import CASES_OF_A_JOB, SHOWN, Case, write
from check_schemas import SCHEMAS, is_valid
from json_of_device import Notation, Raw, explain_text, query_text, record_text
from plain_certificates import id_text
from plain_diff import ATTRIBUTE, OF_ATTRIBUTES, REFERENCE, STRING, word_read
from plain_names import said_text
from plain_notation import config_of, formats_text, xml_text as notation_of
from plain_rules import COORDS, value_text

RAW_KEYS = {word: id_text(name) for name, word in OF_ATTRIBUTES.items()}
REASONS = {"absent": "absent", "tooManyReferences": "too many references", "tooManyParents": "too many parents"}

Printed = namedtuple("Printed", "text messages status")
Form = namedtuple("Form", "key value devices")
"""How a line is written as text: the key of a row, a value, and the devices with ` on ` before them."""


# ---- the parts of a line as text


def key_text(key):
    return key if isinstance(key, str) else f"[{key}]"


def raw_key(key):
    return RAW_KEYS.get(key) or key_text(key)


def xml_text(value):
    return value["xml"]


def raw_value(value):
    """By what a value has beside XML. A word is as it is read, which is more than what is printed raw says of some."""
    if "kind" in value:
        kind, word = value["kind"], value["word"]
        return value_text(kind, word) if word == word_read(kind, word) else f"bits that no device reads in {word}"
    if "string" in value:
        return said_text(value["string"], False)
    if "reference" in value:
        return f"@{value['reference']}"
    return f"?{value['attribute']}" if "attribute" in value else value.get("garbled") or value["broken"]


def devices_in_words(says):
    return f" on {says['on']}" if says["on"] else ""


def raw_devices(says):
    said = "".join(f" {name}={set_text(says['devices'][name])}" for name in COORDS if name in says["devices"])
    return f" on{said}" if said else ""


def set_text(values):
    if isinstance(values, list):
        return ",".join("none" if value == "" else str(value) for value in values)
    low, high = values["from"], values["to"]
    return str(low) if low == high else f"{low}..{high}"


FORMS = {(): Form(key_text, xml_text, devices_in_words), ("--raw",): Form(raw_key, raw_value, raw_devices)}
"""By the words that ask for them."""


# ---- what is said twice


def parts_with(name, said):
    """The objects in a part of a line that have this member."""
    if isinstance(said, list):
        return [part for each in said for part in parts_with(name, each)]
    return [said] * (name in said) + parts_with(name, [*said.values()]) if isinstance(said, dict) else []


def texts_due(value):
    """The texts that may stand at `xml`."""
    if "string" in value:
        return {said_text(value["string"], is_utf16) for is_utf16 in (False, True)}
    if "kind" in value:
        return {notation_of(value["kind"], value["word"]), formats_text(value["kind"], value["word"])}
    if "reference" in value:
        return {"@null" if value["reference"] == id_text(0) else f"@{value['reference']}"}
    return {f"?{value['attribute']}" if "attribute" in value else value.get("garbled") or value["broken"]}


def is_stored(value):
    """Whether what is told of a value can be told of the kind and the word that its row holds."""
    kind, word = value["stored"]["kind"], value["stored"]["word"]
    if "kind" in value:
        return (value["kind"], value["word"]) == (kind, word_read(kind, word))
    if "broken" in value:
        return kind == STRING and value["broken"].endswith(f" {word}")
    return kind == (REFERENCE if "reference" in value else ATTRIBUTE if "attribute" in value else STRING)


def is_one_value(value):
    return value["xml"] in texts_due(value) and ("stored" not in value or is_stored(value))


def is_one_layer(place, paths):
    """Whether a path is that of its layer, where there is one."""
    return place.get("path") == (paths[place["layer"]] if place["layer"] < len(paths) else None)


def names_in(lines):
    """Each name that stands for an id, with that."""
    named = {(part["name"], part["id"]) for part in parts_with("id", lines) if "name" in part}
    stored = ((value, id_text(value["stored"]["word"])) for value in parts_with("stored", lines))
    return named | {(value[name], own) for value, own in stored for name in ("reference", "attribute") if name in value}


def faults_of_parts(lines, paths=()):
    """Values, configurations and layers whose members say different things, and names that stand for two ids, or ids with two."""
    parts = [value for value in parts_with("xml", lines) if not is_one_value(value)]
    parts += [config for config in parts_with("qualifiers", lines) if config_of(record_text(config)) != config["words"]]
    parts += [place for place in parts_with("layer", lines) if not is_one_layer(place, paths)]
    pairs = names_in(lines)
    for ends in zip(*pairs):
        parts += [f"{end}, of {sorted(pairs)}," for end, count in Counter(ends).items() if count > 1]
    return [f"{part} says different things" for part in parts]


# ---- a line as text


def content_said(form, content):
    """What a content says in one line, and the rows of a bag."""
    if "bag" in content:
        return "bag", [f"{form.key(row['key'])} {form.value(row['value'])}" for row in content["bag"]]
    if "value" in content:
        return form.value(content["value"]), []
    ((reason, name),) = content.items()
    return f"{REASONS[reason]} {name}", []


def row_text(form, row):
    key, (before, after) = form.key(row["key"]), (form.value(row[side]) if side in row else None for side in ("before", "after"))
    if before is None:
        return f"added {key} {after}"
    return f"removed {key} {before}" if after is None else f"{key} {before} -> {after}"


def said(form, says):
    """How a line goes on behind its name, without devices, and the rows below."""
    if "rows" in says:
        return "", [row_text(form, row) for row in says["rows"]]
    if "content" in says:
        text, rows = content_said(form, says["content"])
        return "" if "bag" in says["content"] else f" {text}", rows
    (before, removed), (after, added) = (content_said(form, says[side]) for side in ("before", "after"))
    return f" {before} -> {after}", [f"removed {row}" for row in removed] + [f"added {row}" for row in added]


def line_text(form, line):
    """The lines of text that a line stands for."""
    kind = line["line"]
    if "says" in line:
        text, rows = said(form, line["says"])
        head = f"{'changed ' * (kind == 'changed')}{line['name']}{text}{form.devices(line['says'])}"
        return "\n  ".join([head, *rows]) + "\n"
    members = (str(line[member]) for member in ("name", "old", "new", "count") if member in line)
    return " ".join([f"{'warning ' * (kind == 'shared-names')}{kind}", *members]) + "\n"


def of_names(lines):
    """The lines, those of one name together."""
    return [list(group) for _, group in groupby(lines, lambda line: (line["line"], line.get("name")))]


def all_text(form, lines):
    """All lines as text, those of one name in the order of their bytes."""
    return "".join("".join(sorted(line_text(form, line) for line in group)) for group in of_names(lines))


# ---- what is printed


def written(line):
    """As serde_json writes it compactly."""
    return json.dumps(line, ensure_ascii=False, separators=(",", ":"), sort_keys=True)


def read_lines(schema, printed):
    """The lines of JSON, and the faults that each has by itself."""
    *texts, rest = printed.split("\n")
    lines, faults = [], [f"no line feed behind {rest}"] if rest else []
    for text in texts:
        try:
            lines.append(json.loads(text))
        except ValueError as fault:
            faults.append(f"{text} is not JSON: {fault}")
            continue
        if written(lines[-1]) != text:
            faults.append(f"{text} is written otherwise")
        if not is_valid(schema, schema, lines[-1]):
            faults.append(f"{text} is not valid by the schema")
    return lines, faults


def faults_of(schema, printed, as_text):
    """The faults of what is printed as JSON, and the kinds of its lines, where this is printed as text by the words that ask for it."""
    lines, faults = read_lines(schema, printed.text)
    if faults:
        return faults, []
    faults = [f"{group} in another order" for group in of_names(lines) if group != sorted(group, key=written)]
    faults += faults_of_parts(lines)
    for words, due in as_text.items():
        text = all_text(FORMS[words], lines)
        if text != due.text:
            faults.append(f"as {words} {text[:SHOWN]}, where {due.text[:SHOWN]} is due")
        if printed[1:] != due[1:]:
            faults.append(f"{printed[1:]}, where {due[1:]} is due")
    return faults, [line["line"] for line in lines]


# ---- the cases


def run(program, folder, words):
    done = subprocess.run([program, *words], cwd=folder, capture_output=True)
    return Printed(done.stdout.decode(), done.stderr.decode(), done.returncode)


@cache
def schema_of(command):
    with open(os.path.join(SCHEMAS, f"{command}-line.json")) as schema:
        return json.load(schema)


def check_case(program, as_phone, folder, number, of_values):
    case = Case(of_values, as_phone, number)
    command, *words = (word for word in case.write(folder) if word != "--raw")
    printed, *as_text = (run(program, folder, [command, *form, *words]) for form in [("--json",), *FORMS])
    faults, kinds = faults_of(schema_of(command), printed, dict(zip(FORMS, as_text)))
    return [f"case {number}: {command}: {fault}" for fault in faults], kinds or ["no line"]


# ---- what is said of a device


class Asked:
    """The layers of a case and a device of its box, as `query` and `explain` are asked about them."""

    def __init__(self, program, as_phone, folder, number):
        case = Case(True, as_phone, number)
        case.write(folder)
        self.chance = random.Random(number)
        device = self.chance.choice(case.members)
        with open(os.path.join(folder, "new")) as layers:
            self.paths = [layer["table"] for layer in json.load(layers)]
        write(folder, "device", json.dumps({name: value for name, value in device.items() if value}).encode())
        self.run = lambda command, *words: run(program, folder, [command, *case.options, *words])
        self.names = [line.split(" ")[0] for line in run(program, folder, ["ids", "new"]).text.split("\n")[:-1]]

    def words(self, command):
        """Those of all resources, of some, or of one."""
        some = self.chance.choices([*self.names, "0x7fff0000"], k=1 if command == "explain" else self.chance.randint(1, 5))
        return ["new", "device", *(["*"] if command == "query" and self.chance.random() < 0.5 else some)]

    def faults(self, command, text_of):
        """The faults of what a command says, whose lines are written as text so, and the kinds of its lines."""
        words = self.words(command)
        printed = self.run(command, "--json", *words)
        lines, faults = read_lines(schema_of(command), printed.text)
        if faults:
            return faults, []
        faults = faults_of_parts(lines, self.paths)
        for form in (Raw(), Notation(False), Notation(True)):
            due = self.run(command, *(form.words if command == "explain" else form.words[:1]), *words)
            text, wanted = text_of(form, lines), form.as_read(due.text.split("\n")[:-1])
            faults += [f"{words} {form.words} {text}, where {wanted} is due"[:SHOWN]] * (text != wanted)
            faults += [f"{printed[1:]}, where {due[1:]} is due"] * (printed[1:] != due[1:])
        return faults, [f"{command} {line['line']}" for line in lines]


def check_device(program, as_phone, folder, number):
    asked = Asked(program, as_phone, folder, number)
    for command, text_of in (("query", query_text), ("explain", explain_text)):
        faults, kinds = asked.faults(command, text_of)
        yield [f"case {number}: {command}: {fault}" for fault in faults], kinds or ["no line"]


def check_cases(program, as_phone, numbers):
    with tempfile.TemporaryDirectory() as folder:
        cases = [check_case(program, as_phone, folder, number, of_values) for number in numbers for of_values in (False, True)]
        return [*cases, *(told for number in numbers for told in check_device(program, as_phone, folder, number))]


def main():
    as_phone, program, numbers, jobs = read_words()
    parts = [numbers[at : at + CASES_OF_A_JOB] for at in range(0, len(numbers), CASES_OF_A_JOB)]
    told, wrong = Counter(), 0
    with ProcessPoolExecutor(jobs) as pool:
        for faults, kinds in (case for done in pool.map(partial(check_cases, program, as_phone), parts) for case in done):
            told.update(kinds)
            wrong += bool(faults)
            print(*faults, sep="\n", end="\n" if faults else "")
    print(f"{len(numbers)} cases: {', '.join(f'{kind} {told[kind]}' for kind in sorted(told))}")
    sys.exit(wrong > 0)


if __name__ == "__main__":
    main()

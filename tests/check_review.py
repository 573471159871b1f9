#!/usr/bin/env python3
"""Holds the pages of tools/review.py against the lines of `restool diff --json`, and of `restool unused --json` of the new layers: a
page says what they say, of the second what overlays are about, and nothing else.

    check_review.py [--locales android] PROGRAM CASES [JOBS [FIRST]]

First come written lines, in which all is markup that can be; a table of such names and texts; what is marked in written
texts; and each way to end. Then random changes of layers (check_diff.py), numbered from FIRST on, which is 0 if it is
not given. The last line counts the faults."""
import json
import os
import re
import subprocess
import sys
import tempfile
from collections import Counter, namedtuple
from concurrent.futures import ProcessPoolExecutor
from functools import partial
from html.parser import HTMLParser
from itertools import zip_longest

from case_words import read_words
from check_diff import Case, write_inputs
from made_layers import NamedTable, Resource, Text, ids_of
from plain_bags import Bag
from plain_map import made_map
from plain_rules import Record

REVIEW = os.path.join(os.path.dirname(os.path.abspath(__file__)), "..", "tools", "review.py")
CHANGES = "changed", "added", "removed"
USES = "unused", "overlaid", "unmapped"
NONE = {"absent": "absent", "tooManyReferences": "too many references", "tooManyParents": "too many parents"}
COUNTED = {
    "shared-names": "ids with a name that stands for another id; they are compared by ids, which may have moved",
    "set-aside": "rows that have a script or a variant in their locale, and match no device",
}
NODE_LIMIT = (
    "node limit: the trees of these names have more nodes together than the limit, so nothing is told. Allow more with"
    " --max-nodes, ask for fewer names, or make the box smaller."
)

ABOUT_ROWS = (
    "Rows of overlays, and rows that overlays hide. unused: no device loads it; overlaid: some device would load it without the overlays;"
    " unmapped: the id map of its overlay has it for no resource."
)

LIMIT = {"line": "node limit"}

Asked = namedtuple("Asked", "options words")
"""What a page is asked for: options, and the words OLD, NEW, BOX and NAMEs."""

# ---- a page, read

VOID = {"input", "meta"}
BLOCKS = set("title h1 h2 p li dt dd legend label button th td summary".split())
OTHERS = set("html head body style ul dl form fieldset main section table thead tbody tr details code span small b".split())
MARKS = {"ins", "del"}
ELEMENTS = VOID | BLOCKS | OTHERS | MARKS
ATTRIBUTES = set("aria-label autocomplete charset checked class colspan content data-codes dir disabled".split())
ATTRIBUTES |= set("http-equiv id lang method name scope style title translate type".split())
"""None of these leads anywhere or runs anything."""
UNSEEN = re.compile(r"[\0-\x1f\x7f\x85\u2028-\u202e\u2066-\u2069]")


class Page(HTMLParser):
    """The blocks of a page, each with the text that is its own, in their order; the texts of strings, each as its parts
    with whether these are marked; the styles of swatches; the classes of lines; the block of each input, by its id."""

    def __init__(self, text):
        super().__init__()
        self.faults = ["a character that is not seen"] if UNSEEN.search(text.replace("\n", "")) else []
        self.open, self.own, self.is_text = [], [], False
        self.blocks, self.strings, self.colors, self.lines, self.inputs, self.style = [], [], [], [], {}, ""
        self.feed(text)
        self.close()
        if self.open:
            self.faults.append(f"{self.open} are not closed")
        if re.search(r"url\(|@import|</", self.style):
            self.faults.append("a style that leads elsewhere")

    def handle_starttag(self, tag, attrs):
        given = dict(attrs)
        classes = given.get("class", "").split()
        if tag not in ELEMENTS or not given.keys() <= ATTRIBUTES or ("style" in given) != ("swatch" in classes):
            self.faults.append(f"an element {tag} {given}")
        if "swatch" in classes:
            self.colors.append(given["style"])
        elif "text" in classes:
            self.strings.append([])
            self.is_text = True
        elif "change" in classes:
            self.lines.append(set(classes))
        elif tag == "input":
            self.inputs[given["id"]] = len(self.blocks) - 1
        if tag in BLOCKS:
            self.own.append(len(self.blocks))
            self.blocks.append("")
        if tag not in VOID:
            self.open.append(tag)

    def handle_endtag(self, tag):
        if self.open[-1:] != [tag]:
            self.faults.append(f"</{tag}> within {self.open}")
            return
        self.open.pop()
        if tag in BLOCKS:
            self.own.pop()
        elif tag == "span":
            self.is_text = False

    def handle_data(self, data):
        if self.open[-1:] == ["style"]:
            self.style += data
        elif self.own:
            self.blocks[self.own[-1]] += data
        elif data.strip():
            self.faults.append(f"a text in no block: {data}")
        if self.is_text:
            self.strings[-1].append((data, self.open[-1] in MARKS))

    def handle_comment(self, data):
        self.faults.append(f"a comment {data}")


# ---- what is due of lines


def key_text(key):
    return f"[{key}]" if isinstance(key, int) else key


def content_blocks(content):
    """The text of a cell, and the cells of the table in it."""
    if "value" in content:
        return [content["value"]["xml"]]
    if "bag" not in content:
        return [f"{NONE[why]} {name}" for why, name in content.items()]
    rows = [text for row in content["bag"] for text in (key_text(row["key"]), row["value"]["xml"])]
    return ["", *rows] if rows else ["a bag without rows"]


def row_blocks(row):
    return [key_text(row["key"]), *(row[side]["xml"] if side in row else "" for side in ("before", "after"))]


def set_text(values):
    if isinstance(values, dict):
        return f"{values['from']} to {values['to']}"
    return ", ".join("no locale" if value == "" else str(value) for value in values)


def devices_blocks(says):
    if not says["devices"]:
        return ["all devices"]
    sets = [text for name, values in says["devices"].items() for text in (name, set_text(values))]
    return ["", says["on"], *sets]


def line_blocks(line):
    if line["line"] != "changed":
        side = "new" if line["line"] == "added" else "old"
        return [line["name"], f"{line['line']}: the {side} layers alone have this name", ""]
    says = line["says"]
    if "rows" in says:
        said = ["", "row", "before", "after", *(text for row in says["rows"] for text in row_blocks(row))]
    else:
        said = content_blocks(says["before"]) + content_blocks(says["after"])
    return [line["name"], *said, *devices_blocks(says)]


def type_of(name):
    """The type in a name: what stands before the first `/` outside of quotes, behind the package, if there is one."""
    plain = re.sub(r'"(?:[^"\\]|\\.)*"', lambda found: "x" * len(found[0]), name)
    head, slash, _ = plain.partition("/")
    return name[head.find(":") + 1 : len(head)] if slash else "no name"


def locales_of(line):
    if line["line"] in USES:
        own = line["from"]["config"]["qualifiers"].get("locale")
        return [own] if own else []
    return line["says"]["devices"].get("locale", []) if line["line"] == "changed" else []


def is_with(line, locale):
    """Whether a line is shown with a locale: a row with each of its language, and of its region, if it has one."""
    own = locales_of(line)
    if not own or locale in own or line["line"] not in USES:
        return not own or locale in own
    (row_language, *row_region), (language, *others) = own[0].split("-"), locale.split("-")
    return row_language == language and row_region in ([], others[-1:])


def with_count(number, word):
    return f"{number} {word}" if number == 1 else f"{number} {word}s"


def changes_of(lines):
    return [line for line in lines if line["line"] in CHANGES]


def word_text(word):
    """A word as it is shown: what would not be seen is written."""
    return UNSEEN.sub(lambda found: f"\\x{ord(found[0]):02x}" if found[0] < "\x80" else f"\\u{ord(found[0]):04x}", word)


def rows_shown(rows):
    """The rows that the page has: those of overlays, and then those that overlays hide."""
    return [row for row in rows[:-1] if row["overlay"]] + [row for row in rows[:-1] if row["line"] == "overlaid"]


def filters_blocks(changes, rows):
    lines = changes + rows
    kinds, types = ([of(line) for line in lines] for of in (lambda it: it["line"], lambda it: type_of(it["name"])))
    locales = {locale for line in lines for locale in locales_of(line)}
    yield from ("Change", *(f"{kind} {kinds.count(kind)}" for kind in CHANGES))
    yield from ("Row", *(f"{kind} {kinds.count(kind)}" for kind in USES)) if rows else ()
    yield from ("Type", *(f"{name} {types.count(name)}" for name in sorted(set(types))))
    yield from ("Devices with the locale", f"any {len(lines)}") if locales else ()
    yield from (f"{locale or 'no locale'} {sum(is_with(line, locale) for line in lines)}" for locale in sorted(locales))
    yield "Show all"


def head_blocks(asked, lines):
    old, new, box, *names = map(word_text, asked.words)
    rule = "compared as a phone does" if "--locales" in asked.options else "compared by language and region alone"
    yield from (f"What changes: {old} → {new}", "What changes", "Before", old, "After", new, "Devices", box)
    yield from (["Names", " ".join(names)] if names else [])
    yield from ("Locales", rule)
    if lines == [LIMIT]:
        return
    kinds = [line["line"] for line in lines]
    names = {line["name"] for line in lines if line["line"] == "changed"}
    yield f"{with_count(kinds.count('changed'), 'change')} of {with_count(len(names), 'name')}"
    yield from (f"{kinds.count('added')} added", f"{kinds.count('removed')} removed", f"{lines[-1]['count']} the same")
    for line in lines:
        if line["line"] in COUNTED:
            yield f"{line['line']}: {COUNTED[line['line']]}: {line['old']} before, {line['new']} after"


def changes_blocks(changes):
    yield from ("Name", "Before", "After", "Devices")
    yield from (text for line in changes for text in line_blocks(line))
    yield ""


def row_blocks_of(row):
    """The cells of a row that no device loads."""
    place, bag = row["from"], row.get("bag", {})
    parent = f", parent {bag['parent']['name']}" if "parent" in bag else ""
    said = row["value"]["xml"] if "value" in row else f"a bag of {with_count(bag['rows'], 'row')}{parent}"
    layer = word_text(place["path"]) if "path" in place else f"layer {place['layer']}"
    return [row["name"], said, f"{place['config']['words']} in {layer}", row["line"]]


def rows_blocks(rows):
    """Those of all rows, and of the totals before them."""
    totals, of_overlays = rows[-1], sum(row["line"] == "unused" and row["overlay"] for row in rows[:-1])
    others = totals["unused"] - of_overlays
    yield from ("Rows that no device loads", ABOUT_ROWS, with_count(totals["count"], "row"), f"{of_overlays} unused of overlays")
    yield from (f"{others} unused of other layers, not listed", f"{totals['overlaid']} overlaid", f"{totals['unmapped']} unmapped")
    yield from (f"{with_count(totals['bytes'], 'byte')} of unused rows", "Name", "Value", "Row", "Use")
    yield from (text for row in rows_shown(rows) for text in row_blocks_of(row))
    yield ""


def blocks_due(asked, lines, rows, why):
    """The blocks of the page."""
    yield from head_blocks(asked, lines)
    if lines == [LIMIT]:
        yield NODE_LIMIT
        return
    changes, shown = changes_of(lines), rows_shown(rows)
    yield from filters_blocks(changes, shown) if changes or shown else ()
    yield from changes_blocks(changes) if changes else ["Nothing differs on any device."]
    if why:
        yield from ("Rows that no device loads", why)
    elif shown:
        yield from rows_blocks(rows)


# ---- what is marked, colored and chosen


def values_of(line):
    """The values of a line in the order of the page, each alone, or with the one that it is compared with."""
    if line["line"] in USES:
        return [[line["value"]]] if "value" in line else []
    says = line.get("says")
    if not says:
        return []
    if "rows" in says:
        return [[row[side] for side in ("before", "after") if side in row] for row in says["rows"]]
    contents = says["before"], says["after"]
    if all("value" in content for content in contents):
        return [[content["value"] for content in contents]]
    return [[value] for content in contents for value in values_in(content)]


def values_in(content):
    return [content["value"]] if "value" in content else [row["value"] for row in content.get("bag", [])]


def texts_of(values):
    """The texts among values, together if there are two."""
    return [value["xml"] for value in values if "string" in value or "garbled" in value]


def color_due(value):
    return f"--color:#{value['word'] & 0xFFFFFF:06x}{value['word'] >> 24:02x}"


def faults_of_marks(strings, groups):
    """Of two texts that are compared what is not marked is the same. Of one alone nothing is marked."""
    whole = ["".join(text for text, _ in parts) for parts in strings]
    if whole != [text for group in groups for text in group]:
        yield f"the texts {whole} of {groups}"
        return
    rest = iter(strings)
    for group in groups:
        unmarked = ["".join(text for text, is_marked in next(rest) if not is_marked) for _ in group]
        if unmarked[0] != unmarked[-1] or (len(group) == 1 and unmarked != group):
            yield f"what is not marked of {group}: {unmarked}"


def rule_due(own):
    """The rule of style that hides what is not chosen."""
    if own.startswith("locale-"):
        return f"body:has(#{own}:checked) .change:not(.{own}, .everywhere) {{ display: none }}\n"
    group = "kinds" if own in (*CHANGES, *USES) else "types"
    return f"body:has(.{group} :checked):not(:has(#{own}:checked)) .change.{own} {{ display: none }}\n"


def faults_of_filters(page, lines):
    """Each line has the classes of its kind, its type and its locales, and for each class a rule hides others."""
    named = {"type": {}, "locale": {}}
    for own, place in page.inputs.items():
        named.get(own.partition("-")[0], {})[page.blocks[place].rpartition(" ")[0]] = own
    listed = sorted({locale for line in lines for locale in locales_of(line)})
    for classes, line in zip_longest(page.lines, lines):
        own = [locale for locale in listed if is_with(line, locale)] if locales_of(line) else []
        locales = {named["locale"][locale or "no locale"] for locale in own} or {"everywhere"}
        if classes != {"change", line["line"], named["type"][type_of(line["name"])], *locales}:
            yield f"the classes {classes} of {line['name']}"
    yield from (f"no rule for {own}" for own in page.inputs.keys() - {"any"} if rule_due(own) not in page.style)


def faults_of_page(asked, lines, rows, why, text):
    page, due = Page(text), list(blocks_due(asked, lines, rows, why))
    yield from page.faults
    if page.blocks != due:
        at = next(place for place, (told, it) in enumerate(zip_longest(page.blocks, due)) if told != it)
        yield f"the page says {page.blocks[at : at + 9]}, where this is due: {due[at : at + 9]}"
        return
    shown = changes_of(lines) + rows_shown(rows)
    values = [value for line in shown for value in values_of(line)]
    yield from faults_of_marks(page.strings, [group for group in map(texts_of, values) if group])
    if page.colors != [color_due(it) for group in values for it in group if it.get("kind") in (28, 29, 30, 31)]:
        yield f"the colors {page.colors}"
    yield from faults_of_filters(page, shown)


# ---- the program, and a page of what it says


def run(folder, *words):
    done = subprocess.run(words, cwd=folder, capture_output=True)
    return done.stdout.decode(), done.stderr.decode(), done.returncode


def review(folder, program, asked):
    return run(folder, sys.executable, REVIEW, "--restool", program, *asked.options, *asked.words)


def answer(folder, program, asked, command, words):
    """The lines that the program prints, its messages and its status."""
    said, messages, status = run(folder, program, command, "--json", *asked.options, "--", *words)
    return [json.loads(line) for line in said.split("\n")[:-1]], messages, status


def has_overlays(folder, layers):
    if "+" in layers:
        return True
    with open(os.path.join(folder, layers), encoding="utf-8") as listed:
        return any("map" in layer for layer in json.load(listed))


def answer_about_rows(folder, program, asked, lines):
    """The rows, why there are none, and the messages and the status of the page."""
    if lines == [LIMIT] or not has_overlays(folder, asked.words[1]):
        return [], "", "", int(lines == [LIMIT])
    rows, messages, status = answer(folder, program, asked, "unused", asked.words[1:])
    if rows == [LIMIT]:
        return [], NODE_LIMIT, "", 1
    return (rows, "", messages, 0) if rows else ([], messages.strip(), "", 0) if status == 1 else ([], "", messages, status)


def faults_of_review(folder, program, asked):
    """How a page, its messages and its status are others than due by what the program prints; and its lines."""
    lines, messages, status = answer(folder, program, asked, "diff", asked.words)
    rows, why = [], ""
    if lines:
        rows, why, messages, status = answer_about_rows(folder, program, asked, lines)
    text, told, ended = review(folder, program, asked)
    faults = [] if (told, ended) == (messages, status) else [f"status {ended} and {told}, not {status} and {messages}"]
    if lines and status < 2:
        faults += faults_of_page(asked, lines, rows, why, text)
    elif text:
        faults.append("a page where the program says nothing")
    return faults, lines, rows


def write_program(folder, text):
    """A program that does this."""
    path = os.path.join(folder, "program")
    with open(path, "w", encoding="utf-8") as out:
        out.write(f"#!/bin/sh\n{text}\n")
    os.chmod(path, 0o755)
    return path


def write_lines(folder, name, lines):
    with open(os.path.join(folder, name), "w", encoding="utf-8") as out:
        out.writelines(f"{json.dumps(line, ensure_ascii=False)}\n" for line in lines)


def program_of_lines(folder, lines, rows=None, status=1):
    """A program that prints these lines of changes, and of rows."""
    write_lines(folder, "lines", lines)
    write_lines(folder, "rows", rows or [totals()])
    return write_program(folder, f"if [ $1 = unused ]; then cat rows; else cat lines; exit {status}; fi")


# ---- written lines

MARKUP = """</code></td><script>alert(1)</script><img src=x onerror='alert("2")'>&lt;&#60;<!--"""
QUOTED = '"' + MARKUP.replace('"', '\\"') + '"'
SOME = {"density": {"from": 120, "to": 197}, "locale": ["", "de-AT"], "night": [2]}
DEVICES = {"devices": SOME, "on": f"<198dpi {MARKUP}"}
EVERYWHERE = {"devices": {}, "on": ""}
BLACK, SCRIM, SHORT, CLEAR = (
    {"kind": kind, "word": word, "xml": text}
    for kind, word, text in (
        (28, 0xFF000000, "#ff000000"),
        (28, 0x80123456, "#80123456"),
        (31, 0xFFAABBCC, "#abc"),
        (30, 0x00112233, "#0123"),
    )
)


def string(text):
    return {"string": text, "xml": '"' + text.replace("\\", "\\\\").replace('"', '\\"') + '"'}


def changed(name, before, after, says):
    return {"line": "changed", "name": name, "says": {"before": before, "after": after, **says}}


def rows_changed(name, rows, says):
    return {"line": "changed", "name": name, "says": {"rows": rows, **says}}


VALUES = [
    string(MARKUP),
    {"garbled": MARKUP, "xml": QUOTED},
    {"broken": "!NoSuch 12", "xml": "!NoSuch 12"},
    {"reference": MARKUP, "xml": f"@{MARKUP}"},
    {"attribute": MARKUP, "xml": f"?{MARKUP}"},
    {"kind": 5, "word": 3329, "xml": "13dp"},
    BLACK,
    SCRIM,
    string(""),
    string("a\u2028b\u0085c"),
]
VALUES[-1]["xml"] = r'"a\u2028b\u0085c"'
CONTENTS = [
    *({"value": value} for value in VALUES),
    {"bag": [{"key": key, "value": value} for key, value in zip((0, "other", MARKUP, f"attr/{MARKUP}"), VALUES)]},
    {"bag": []},
    *({why: MARKUP} for why in NONE),
]
WRITTEN = [
    {"line": "added", "name": f"string/{QUOTED}"},
    *(changed(f"{QUOTED}/{QUOTED}", before, after, DEVICES) for before in CONTENTS for after in CONTENTS),
    *(changed("android:color/a/b", {"value": before}, {"value": SHORT}, EVERYWHERE) for before in (BLACK, CLEAR)),
    rows_changed("array/a", [{"key": 0, "before": VALUES[0]}, {"key": 11, "after": SCRIM}], DEVICES),
    rows_changed("style/s", [{"key": MARKUP, "before": VALUES[0], "after": VALUES[1]}], EVERYWHERE),
    rows_changed("style/s", [{"key": "attr/a", "before": SHORT, "after": VALUES[3]}], DEVICES),
    {"line": "removed", "name": "0x7f010000"},
    {"line": "shared-names", "new": 1, "old": 20},
    {"line": "set-aside", "new": 0, "old": 3},
    {"count": 14, "line": "same"},
]
WORDS = f"{MARKUP}.apk", f"new\n\u202e+{MARKUP}", "<b>box</b>", MARKUP, "*"
SAME = [{"count": 1, "line": "same"}]


def totals(**counts):
    return {"bytes": 0, "count": 0, "line": "rows", "overlaid": 0, "unmapped": 0, "unused": 0, **counts}


def unused_row(use, held, overlay=True, name="string/s", locale=None, path=f"{MARKUP}.apk"):
    """A row that no device loads; of an overlay, or of a base."""
    config = {"qualifiers": {"locale": locale} if locale else {}, "words": MARKUP}
    place = {"config": config, "layer": 1, **({"path": path} if path else {})}
    return {"from": place, "id": "0x7f010000", "line": use, "name": name, "overlay": overlay, **held}


BAGS = {"rows": 1}, {"parent": {"id": "0x7f010000", "name": MARKUP}, "rows": 0}
ROWS = [
    unused_row("unused", {"value": string("of a base")}, overlay=False),
    unused_row("overlaid", {"value": VALUES[0]}, overlay=False, name=f"{QUOTED}/{QUOTED}"),
    *(unused_row("unused", {"value": {**value, "stored": {"kind": 3, "word": 0}}}, name=f"string/{QUOTED}") for value in VALUES),
    *(unused_row("unmapped", {"bag": bag}, name="style/s", path=path) for bag in BAGS for path in (None, "a\nb")),
    *(unused_row("unused", {"value": SHORT}, locale=locale) for locale in ("de", "de-AT", "fr-CA", "x80ff0000", "-US", "zh-TW")),
    totals(count=40, unused=20, overlaid=1, unmapped=4, bytes=1),
]
LOCALES = {"locale": ["", "de-AT", "de-DE", "fr", "sr-Latn-RS", "zh-Hant-TW", "zh-Hant"]}
FOR_LOCALES = changed("string/s", CONTENTS[0], CONTENTS[1], {"devices": LOCALES, "on": "de"})


def faults_of_written(folder):
    for asked in (Asked((), WORDS), Asked(("--locales", "android", "--max-nodes", "7"), WORDS[:3])):
        for rows in (None, ROWS, [LIMIT]):
            yield from faults_of_review(folder, program_of_lines(folder, WRITTEN, rows), asked)[0]
    for lines in (SAME, [{"line": "removed", "name": "a/b"}, *SAME], [FOR_LOCALES, *SAME], [LIMIT]):
        for rows in (None, ROWS, [LIMIT]):
            yield from faults_of_review(folder, program_of_lines(folder, lines, rows), Asked((), WORDS[:3]))[0]


# ---- a table in which names and texts are markup


def marked_up(text, tint):
    resources = [
        Resource("string", MARKUP, [(Record({}), Text(f"{MARKUP}{text}"))]),
        Resource("<i>x</i>", "<b>", [(Record({}), Text(f"<b>{text}</b>")), (Record({"locale": "de"}), Text("<u>"))]),
        Resource("attr", "<hr>", [(Record({}), (0x10, 0))]),
        Resource("style", "s", [(Record({}), Bag(0, [("attr/<hr>", tint)]))]),
        Resource("color", f"<s>{text}", [(Record({}), tint)]),
        Resource("color", "c", [(Record({}), f"@color/<s>{text}")]),
    ]
    return NamedTable(resources, ids_of(resources))


def laid_over(base, overlay):
    return [(base, None), (overlay, made_map(base.rows, overlay.rows))]


def faults_of_table(folder, program):
    """Of a table, of another one in its place, and of that one over it."""
    box = {"density": [160], "locale": ["", "de"], "sdk": [27]}
    before, after = marked_up("before", (0x1C, 0x80FFFFFF)), marked_up("after", (0x1D, 0xFF000000))
    for new, due in (([(after, None)], {"changed": 4}), (laid_over(before, after), {"changed": 3, "overlaid": 6, "unmapped": 1})):
        write_inputs(folder, [(before, None)], new, box)
        faults, lines, rows = faults_of_review(folder, program, Asked((), ("old", "new", "box")))
        yield from faults
        told = Counter(line["line"] for line in lines + rows_shown(rows) if line["line"] in due)
        if told != due:
            yield f"the table of markup: {lines}, {rows}"


# ---- what is marked

PILOT, FARMER = "\U0001f469\u200d\u2708\ufe0f", "\U0001f469\u200d\U0001f33e"
MARKED = [
    ("Boil the water", "Boil water", "Boil [the ]water", "Boil water"),
    ("Teapot", "Porcelain teapot", "[Teapot]", "[Porcelain teapot]"),
    ("A quick fox", "Der schnelle Fuchs", "[A quick fox]", "[Der schnelle Fuchs]"),
    ("Teapot", "Teapots", "Teapot", "Teapot[s]"),
    ("%d of 10 %", "%d of 10\u00a0%", "%d of 10[ ]%", "%d of 10[\u00a0]%"),
    ("一杯の茶", "二杯の茶", "[一]杯の茶", "[二]杯の茶"),
    ("赤い茶の杯を三つ", "青い茶の皿を三つ", "[赤]い茶の[杯]を三つ", "[青]い茶の[皿]を三つ"),
    ("cafe\u0301s", "cafes", "caf[e\u0301]s", "caf[e]s"),
    (f"teapots{PILOT}", f"teapots{FARMER}", f"teapots[{PILOT}]", f"teapots[{FARMER}]"),
    (r"one\x0atwo", r"one\x0dtwo", r"one[\x0a]two", r"one[\x0d]two"),
    ("", "new", "", "[new]"),
    ("a " * 2000 + "b", "a " * 2000 + "c", "a " * 2000 + "[b]", "a " * 2000 + "[c]"),
]
"""Two texts, and the same with what is marked between brackets."""


def bracketed(parts):
    """Parts with brackets around those that are marked, without the quotes."""
    return "".join(f"[{text}]" if is_marked else text for text, is_marked in parts)[1:-1].replace("][", "")


def faults_of_marked(folder):
    texts = [[{"value": {"string": "", "xml": f'"{text}"'}} for text in case[:2]] for case in MARKED]
    lines = [changed("string/s", *both, EVERYWHERE) for both in texts]
    text, _, _ = review(folder, program_of_lines(folder, [*lines, {"count": 0, "line": "same"}]), Asked((), WORDS[:3]))
    told = list(map(bracketed, Page(text).strings))
    for place, due in enumerate(it for case in MARKED for it in case[2:]):
        if told[place : place + 1] != [due]:
            yield f"marked is {told[place : place + 1]}, not {due}"


# ---- each way to end

ENDS = [
    ((), ("old", "new", "box"), 0),
    (("--max-nodes", "1"), ("old", "new", "box"), 1),
    ((), ("old", "new", "box", "string/none"), 1),
    ((), ("old", "new", "box", "no-id"), 2),
    (("--locales", "none"), ("old", "new", "box"), 2),
    ((), ("old", "box", "box"), 3),
    ((), ("absent", "new", "box"), 5),
]
"""What is asked of an app alone, and the status."""
OF_ROWS = [
    ("exit 4", False, 4),
    ("exit 1", False, 1),
    ("cat rows; kill -9 $$", False, 1),
    ("cat lines", True, 1),
    ("cat rows rows", True, 1),
    ("cat rows lines", True, 1),
    ("""echo '{"line":"unused"}'; cat rows""", True, 1),
]
PROGRAMS = [
    ("cat lines; kill -9 $$", False, 1),
    ("cat lines; exit 4", False, 4),
    ("exit 0", False, 1),
    ("""echo '{"line":"added","name":"a/b"}'""", True, 1),
    ("""echo '{"line":"other"}'; cat lines""", True, 1),
    ("cat lines; cat lines", True, 1),
    ("echo 5", True, 1),
    (r"printf '{\"line\":\"same\",\"count\":\377}\n'", True, 1),
    *((f"if [ $1 = diff ]; then cat lines; else {text}; fi", is_told, due) for text, is_told, due in OF_ROWS),
]
"""Programs of which there is no page: what they do, whether a message says that there is none, and the status."""


def faults_of_ends(folder, program):
    layers = [(marked_up("a", (0x10, 0)), None)]
    write_inputs(folder, layers, layers, {"density": [160], "locale": ["", "de"]})
    for options, words, due in ENDS:
        asked = Asked(options, words)
        yield from faults_of_review(folder, program, asked)[0]
        ended = review(folder, program, asked)[2]
        if ended != due:
            yield f"{asked}: status {ended}, not {due}"


def faults_of_programs(folder):
    program_of_lines(folder, SAME)
    asked = Asked((), WORDS[:3])
    for text, is_told, due in PROGRAMS:
        page, messages, status = review(folder, write_program(folder, text), asked)
        if (page, messages != "", status) != ("", is_told, due):
            yield f"{text}: status {status}, {messages}, {page[:80]}"
    page, messages, status = review(folder, "./absent", asked)
    if (page, status) != ("", 1) or "./absent does not run" not in messages:
        yield f"a program that is absent: status {status}, {messages}"


def faults_of_words(folder):
    """The program is asked what the page is asked for."""
    program_of_lines(folder, SAME)
    program = write_program(folder, "printf '%s\\n' \"$@\" >>words; if [ $1 = diff ]; then cat lines; else cat rows; fi")
    asked = Asked(("--locales", "android", "--max-nodes", "7"), ("old", "new+over", "box", "a/b", "c/*"))
    review(folder, program, asked)
    with open(os.path.join(folder, "words"), encoding="utf-8") as words:
        told = words.read().splitlines()
    both = (("diff", asked.words), ("unused", asked.words[1:]))
    if told != [word for command, words in both for word in (command, "--json", *asked.options, "--", *words)]:
        yield f"the program is asked for {told}"


def faults_of_outputs(folder):
    """A page that cannot be written ends as what the program cannot write."""
    program = program_of_lines(folder, SAME)
    endings = [">&-", *[">/dev/full"] * os.access("/dev/full", os.W_OK)]
    for ending in endings:
        command = f"exec '{sys.executable}' '{REVIEW}' --restool {program} old new box {ending}"
        _, messages, status = run(folder, "sh", "-c", command)
        if (messages, status) != ("", 5):
            yield f"{ending}: status {status}, {messages}"


# ---- random changes


def faults_of_case(program, as_phone, number):
    with tempfile.TemporaryDirectory() as folder:
        case = Case(False, as_phone, number)
        _, *words = (word for word in case.write(folder) if word != "--raw")
        at = words.index("old")
        return [f"case {number}: {it}" for it in faults_of_review(folder, program, Asked(words[:at], words[at:]))[0]]


def main():
    as_phone, program, numbers, jobs = read_words()
    with tempfile.TemporaryDirectory() as folder:
        faults = [*faults_of_written(folder), *faults_of_marked(folder), *faults_of_programs(folder)]
        faults += [*faults_of_words(folder), *faults_of_outputs(folder)]
        faults += [*faults_of_table(folder, program), *faults_of_ends(folder, program)]
    with ProcessPoolExecutor(jobs) as pool:
        faults += [it for told in pool.map(partial(faults_of_case, program, as_phone), numbers) for it in told]
    print(*faults, sep="\n", end="\n" if faults else "")
    print(f"{len(faults)} faults, {len(numbers)} cases")
    sys.exit(bool(faults))


if __name__ == "__main__":
    main()

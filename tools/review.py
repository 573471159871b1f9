#!/usr/bin/env python3
"""Prints a page for reviewers: all that `restool diff` says of a change, and what `restool unused` says of the new overlays, as one
file of HTML that needs nothing else.

    review.py [--locales android] [--max-nodes N] [--restool PATH] OLD NEW BOX [NAME..] >review.html

PATH is the program: if it is left out, the one that stands beside the folder of this file, or else the one that the
shell finds. The status is 0 where there is a page, whatever differs; 1 where the page says `node limit`; and at a fault
the program's, which tells it on standard error, and there is no page."""
import argparse
import html
import json
import os
import re
import subprocess
import sys
from collections import Counter
from difflib import SequenceMatcher
from itertools import pairwise
from os.path import commonprefix
from typing import NamedTuple
from unicodedata import category

CHANGES = "changed", "added", "removed"
USES = {
    "unused": "no device loads it",
    "overlaid": "some device would load it without the overlays",
    "unmapped": "the id map of its overlay has it for no resource",
}
"""What becomes of a row that no device loads."""
ALONE = {"added": "the new layers", "removed": "the old layers"}
COUNTED = {
    "shared-names": "ids with a name that stands for another id; they are compared by ids, which may have moved",
    "set-aside": "rows that have a script or a variant in their locale, and match no device",
}
"""What is counted of both lists of layers."""
NONE = {"absent": "absent", "tooManyReferences": "too many references", "tooManyParents": "too many parents"}
"""How it is told that a resource says nothing."""
COLORS = range(0x1C, 0x20)
"""The kinds of values that are colors."""
LONGEST_LIST = 1 << 20
"""How many bytes of a file are read to see whether it is a list of layers."""
NO_LOCALE = "no locale"
NO_TYPE = "no name"
"""Stands for the type of what is compared by its id."""
TYPE = re.compile(r'(?:[^"/:]*:)?("(?:[^"\\]|\\.)*"|[^"/]+)/')
UNSEEN = re.compile("[\0-\x1f\x7f\x85\u2028-\u202e\u2066-\u2069]")
"""What could end a line, or turn its direction."""
OWN_SIGN = r"[\u2e80-\u9fff\uf900-\ufaff\uff00-\uffef]"
PART = re.compile(rf"\\x..|\\u....|\\.|{OWN_SIGN}|(?:(?!{OWN_SIGN})(?:\w|[^\0-\u02ff\s]))+|\s+|.", re.DOTALL)
"""What is compared of texts: escapes, signs that are words, words of letters with their marks, blanks, others."""
MOST_PARTS = 1000
"""In texts with more only the ends are compared, since the time for others is that of the square."""
SIGN = re.compile(r"\\x..|\\u....|\\.|.", re.DOTALL)
JOINER = "\u200d"
JOINED = f"{JOINER}\U0001f3fb\U0001f3fc\U0001f3fd\U0001f3fe\U0001f3ff"
"""What belongs to the sign before it. (Marks of letters do too.)"""


class ReviewError(Exception):
    """Why there is no page, where the program does not tell it."""


class Lines(NamedTuple):
    """What `diff` says: the lines of changes, the lines of what is counted of both lists of layers, and how many
    names say the same, None for `node limit`."""

    changes: list
    counts: dict
    same: int


class Rows(NamedTuple):
    """What `unused` says: the lines of rows that the page has, and the line of totals; or why it says nothing."""

    lines: list
    totals: dict
    why: str


# ---- markup


class Html(str):
    """A text that is markup."""


def escaped(text):
    """A text as markup. What would not be seen is written as restool does."""
    return Html(html.escape(UNSEEN.sub(lambda found: written(ord(found[0])), text)))


def written(number):
    return f"\\x{number:02x}" if number < 0x80 else f"\\u{number:04x}"


def joined(parts, between=""):
    """Texts and markup, one behind the other, with this markup between them. Texts are escaped."""
    return Html(between.join(part if isinstance(part, Html) else escaped(part) for part in parts))


def opened(name, attributes):
    said = [f' {each.rstrip("_").replace("_", "-")}="{escaped(value)}"' for each, value in attributes.items() if value]
    return f"<{name}{''.join(said)}>"


def element(name, *parts, **attributes):
    """An element. Of its attributes those that are empty are left out."""
    return Html(f"{opened(name, attributes)}{joined(parts)}</{name}>")


# ---- what changed in a text


def parts_marked(before, after):
    """The parts of two texts, each as a list of texts with whether the other one lacks them."""
    olds, news = PART.findall(before), PART.findall(after)
    if max(len(olds), len(news)) > MOST_PARTS:
        return ends_marked(before, after)
    marked = [], []
    for tag, low, high, new_low, new_high in SequenceMatcher(str.isspace, olds, news).get_opcodes():
        old, new = "".join(olds[low:high]), "".join(news[new_low:new_high])
        both = ([(old, False)], [(new, False)]) if tag == "equal" else words_marked(old, new)
        for all_parts, parts in zip(marked, both):
            all_parts += parts
    return marked


def words_marked(old, new):
    """The same where the texts differ: as a whole, unless they share the half of the longer one at their ends."""
    both = ends_marked(old, new)
    shared = sum(len(text) for text, is_marked in both[0] if not is_marked)
    return both if 2 * shared >= max(len(old), len(new)) else ([(old, True)], [(new, True)])


def ends_marked(before, after):
    """The same, with all marked that stands between the beginning and the end that they share."""
    start = greatest(len(commonprefix([before, after])), places_of(before), places_of(after))
    rests = before[start:], after[start:]
    from_end = [{len(rest) - place for place in places_of(rest)} for rest in rests]
    end = greatest(len(commonprefix([rest[::-1] for rest in rests])), *from_end)
    return tuple(marked_between(text, start, len(text) - end) for text in (before, after))


def marked_between(text, start, end):
    return [(text[:start], False), (text[start:end], True), (text[end:], False)]


def greatest(most, *places):
    """The greatest place in all of these sets that is not above another."""
    return next(place for place in range(most, -1, -1) if all(place in each for each in places))


def places_of(text):
    """Where a text may be parted: not within an escape, before a mark of a letter, or where signs are joined."""
    starts = (found.start() for found in SIGN.finditer(text))
    return {0, len(text)} | {at for at in starts if not is_joined(text, at)}


def is_joined(text, at):
    return text[at] in JOINED or text[at - 1] == JOINER or category(text[at]).startswith("M")


def text_html(name, parts):
    """The text of a string, in which some parts are marked by an element of this name."""
    marked = (
        element(name, text, data_codes=codes_of(text)) if is_marked and text else text for text, is_marked in parts
    )
    return element("span", '"', *marked, '"', class_="text", dir="auto")


def codes_of(text):
    """The code points of a text of which nothing is seen."""
    is_seen = any(each.isprintable() and each != " " for each in text)
    return "" if is_seen else " ".join(f"U+{ord(each):04X}" for each in text)


# ---- what a resource says


def is_text(value):
    return value is not None and ("string" in value or "garbled" in value) and len(value["xml"]) >= 2


def value_html(value):
    if value is None:
        return Html()
    if is_text(value):
        return text_html("span", [(value["xml"][1:-1], False)])
    return joined([*swatch(value), element("code", value["xml"])])


def swatch(value):
    """The color of a value that is one."""
    if value.get("kind") in COLORS:
        alpha, color = divmod(value["word"], 1 << 24)
        title = f"alpha {alpha / 255:.0%}"
        yield element("span", class_="swatch", style=f"--color:#{color:06x}{alpha:02x}", title=title)


def values_html(before, after):
    """Two values. Where both are texts, what changed in them is marked."""
    if not (is_text(before) and is_text(after)):
        return value_html(before), value_html(after)
    both = parts_marked(before["xml"][1:-1], after["xml"][1:-1])
    return text_html("del", both[0]), text_html("ins", both[1])


def content_html(content):
    if "value" in content:
        return value_html(content["value"])
    if "bag" in content:
        return bag_html(content["bag"])
    ((why, name),) = content.items()
    return element("span", f"{NONE[why]} ", element("code", name), class_="none")


def contents_html(before, after):
    if "value" in before and "value" in after:
        return values_html(before["value"], after["value"])
    return content_html(before), content_html(after)


def key_cell(key):
    return element("th", element("code", f"[{key}]" if isinstance(key, int) else key), scope="row")


def bag_html(rows):
    if not rows:
        return element("span", "a bag without rows", class_="none")
    lines = [element("tr", key_cell(row["key"]), element("td", value_html(row["value"]))) for row in rows]
    return element("table", element("tbody", *lines), class_="bag")


def row_changes_html(rows):
    head = element("tr", *(element("th", title, scope="col") for title in ("row", "before", "after")))
    return element("table", element("thead", head), element("tbody", *map(row_change_html, rows)), class_="bag")


def row_change_html(row):
    cells = values_html(row.get("before"), row.get("after"))
    kind = "added" if "before" not in row else "removed" if "after" not in row else "changed"
    return element("tr", key_cell(row["key"]), *(element("td", cell) for cell in cells), class_=kind)


# ---- lines of changes


def type_of(line):
    """The type in the name of a resource."""
    found = TYPE.match(line["name"])
    return found[1] if found else NO_TYPE


def locales_of(line):
    """The locales that the devices of a line name, or the one of a row; none where it is told of all locales."""
    if line["line"] in USES:
        return [it for it in [line["from"]["config"]["qualifiers"].get("locale")] if it]
    return line.get("says", {}).get("devices", {}).get("locale", [])


def is_for(own, locale):
    """Whether a row of a locale may be for devices with another: those of its language, and of its region, if it has one."""
    language, _, region = own.partition("-")
    parts = locale.split("-")
    return own == locale or (language == parts[0] and region in ("", parts[-1]))


def set_text(values):
    if isinstance(values, dict):
        return f"{values['from']} to {values['to']}"
    return ", ".join(NO_LOCALE if value == "" else str(value) for value in values)


def devices_html(says):
    if not says["devices"]:
        return element("span", "all devices", class_="all")
    sets = terms((name, set_text(values)) for name, values in says["devices"].items())
    return element("details", element("summary", element("code", says["on"])), sets)


def cells_of(line):
    """What stands behind the name."""
    if line["line"] != "changed":
        note = [element("b", line["line"]), f": {ALONE[line['line']]} alone have this name"]
        return [element("td", *note, class_="note", colspan="2"), element("td", class_="devices")]
    says = line["says"]
    if "rows" in says:
        cells = [element("td", row_changes_html(says["rows"]), class_="rows", colspan="2")]
    else:
        before, after = contents_html(says["before"], says["after"])
        cells = [element("td", before, class_="before"), element("td", after, class_="after")]
    return [*cells, element("td", devices_html(says), class_="devices")]


class Filters:
    """What a reader may choose: kinds of changes and of rows, types and locales, each with how many lines have it.
    Types and locales are told by numbers, since a table may name them anyhow."""

    def __init__(self, changes, rows):
        self.changes, self.rows = changes, rows
        lines = changes + rows
        self.all = len(lines)
        self.kinds = Counter(line["line"] for line in lines)
        self.types = counted(map(type_of, lines))
        self.listed = sorted({locale for line in lines for locale in locales_of(line)})
        self.locales = Counter(locale for line in lines for locale in self.locales_for(line))
        self.everywhere = sum(not locales_of(line) for line in lines)
        self.type_ids = {name: f"type-{place}" for place, name in enumerate(self.types)}
        self.locale_ids = {name: f"locale-{place}" for place, name in enumerate(self.listed)}

    def locales_for(self, line):
        """Those with which a line is shown."""
        own = locales_of(line)
        return [it for it in self.listed if is_for(own[0], it)] if own and line["line"] in USES else own

    def classes(self, line):
        """The classes of a line."""
        locales = [self.locale_ids[locale] for locale in self.locales_for(line)] or ["everywhere"]
        return " ".join(["change", line["line"], self.type_ids[type_of(line)], *locales])

    def rules(self):
        """The rules that hide what is not chosen. Of kinds and of types all are shown where none is chosen."""
        kinds = [*CHANGES, *USES] if self.rows else CHANGES
        for choices, names in (("kinds", kinds), ("types", self.type_ids.values())):
            for name in names:
                yield f"body:has(.{choices} :checked):not(:has(#{name}:checked)) .change.{name} {{ display: none }}"
        for name in self.locale_ids.values():
            yield f"body:has(#{name}:checked) .change:not(.{name}, .everywhere) {{ display: none }}"
        for name, lines in (("of-changes", self.changes), ("of-rows", self.rows)):
            yield f'.{name} + .shown::before {{ content: counter(shown) " of {len(lines)} shown" }}'

    def of_kinds(self, title, kinds):
        return group("kinds", title, [choice("checkbox", "kind", kind, kind, self.kinds[kind]) for kind in kinds])

    def html(self):
        types = [choice("checkbox", "type", self.type_ids[name], name, count) for name, count in self.types.items()]
        locales = [
            choice("radio", "locale", self.locale_ids[name], name or NO_LOCALE, self.locales[name] + self.everywhere)
            for name in self.listed
        ]
        any_locale = choice("radio", "locale", "any", "any", self.all, checked="checked")
        groups = [self.of_kinds("Change", CHANGES), *([self.of_kinds("Row", USES)] if self.rows else [])]
        groups.append(group("types", "Type", types))
        groups += [group("locales", "Devices with the locale", [any_locale, *locales])] if locales else []
        groups.append(element("button", "Show all", type="reset"))
        # (a form that no key sends anywhere)
        others = {"method": "dialog", "autocomplete": "off", "aria_label": "What is shown"}
        return element("form", *groups, class_="filters", **others)


def counted(names):
    """How often each name is there, in the order of the names."""
    return dict(sorted(Counter(names).items()))


def group(name, title, choices):
    return element("fieldset", element("legend", title), *choices, class_=name)


def choice(kind, name, own, title, count, **others):
    """What may be chosen, and how many lines are shown then."""
    others["disabled"] = "" if count else "disabled"
    chosen = Html(opened("input", {"type": kind, "name": name, "id": own, **others}))
    return element("label", chosen, title, " ", element("small", str(count)))


def table_html(filters, lines, cells_of, columns, name):
    """The table of lines, of which this makes the cells behind the name."""
    head = element("tr", *(element("th", title, scope="col") for title in ("Name", *columns)))
    names = [None, *(line["name"] for line in lines)]
    rows = []
    for line, (name_before, name_of) in zip(lines, pairwise(names)):
        title = element("th", element("code", name_of), scope="row", class_="again" if name_of == name_before else "")
        rows.append(element("tr", title, *cells_of(line), class_=filters.classes(line)))
    parts = element("thead", head), element("tbody", joined(rows, "\n"))
    table = element("table", *parts, class_=f"lines {name}", translate="no")
    return element("section", table, element("p", class_="shown"))


# ---- rows that no device loads


def row_cells(line):
    """What stands behind the name of a row."""
    place = line["from"]
    layer = element("code", place["path"]) if "path" in place else f"layer {place['layer']}"
    yield element("td", value_html(line["value"]) if "value" in line else bag_size(line["bag"]), class_="value")
    yield element("td", element("code", place["config"]["words"]), " in ", layer, class_="place")
    yield element("td", element("b", line["line"]), class_="note use")


def bag_size(bag):
    parent = [", parent ", element("code", bag["parent"]["name"])] if "parent" in bag else []
    return element("span", f"a bag of {counted_of(bag['rows'], 'row')}", *parent, class_="none")


def rows_html(filters, rows):
    """The rows with what is said of them; nothing where there are none."""
    title = element("h2", "Rows that no device loads")
    if rows.why:
        return joined([title, element("p", rows.why, class_="warning")])
    if not rows.lines:
        return Html()
    told = [joined([element("b", use), f": {words}"]) for use, words in USES.items()]
    about = element("p", "Rows of overlays, and rows that overlays hide. ", joined(told, "; "), ".", class_="note")
    table = table_html(filters, rows.lines, row_cells, ("Value", "Row", "Use"), "of-rows")
    return joined([title, about, chips(totals_of(rows)), table])


def totals_of(rows):
    """How many rows of each kind there are, of all that are asked for."""
    totals, of_overlays = rows.totals, sum(line["line"] == "unused" for line in rows.lines)
    return [
        counted_of(totals["count"], "row"),
        f"{of_overlays} unused of overlays",
        f"{totals['unused'] - of_overlays} unused of other layers, not listed",
        f"{totals['overlaid']} overlaid",
        f"{totals['unmapped']} unmapped",
        f"{counted_of(totals['bytes'], 'byte')} of unused rows",
    ]


# ---- the page

STYLE = """
:root {
  color-scheme: light dark;
  --ground: #fff; --raised: #f4f6f8; --ink: #1b1f24; --soft: #57606a; --line: #d3d9df; --chosen: #dbeafe;
  --changed: #1f6feb; --added: #1a7f37; --removed: #cf222e; --come: #c6f2d2; --gone: #ffd9d5; --warning: #fff3cf;
}
@media (prefers-color-scheme: dark) {
  :root {
    --ground: #14171b; --raised: #1d2127; --ink: #e4e8ec; --soft: #9aa4af; --line: #363d46; --chosen: #1f3a5f;
    --changed: #58a6ff; --added: #4cc268; --removed: #ff7b72; --come: #1c4a2b; --gone: #5e2320; --warning: #42360f;
  }
}
* { box-sizing: border-box }
body {
  max-width: 90rem; margin: 0 auto; padding: 1rem; background: var(--ground); color: var(--ink);
  font: 1rem/1.5 system-ui, sans-serif; overflow-wrap: anywhere;
}
h1 { margin: 0 0 .75rem; font-size: 1.5rem }
code { font: .9em/1.5 ui-monospace, monospace }
section { display: flex; flex-direction: column }
h2 { margin: 2rem 0 .5rem; font-size: 1.2rem }
.inputs { display: grid; grid-template-columns: max-content 1fr; gap: .15rem .9rem; margin: 0 0 1rem }
.inputs dt { color: var(--soft) }
.inputs dd { margin: 0 }
.counts { display: flex; flex-wrap: wrap; gap: .5rem; margin: 0 0 1rem; padding: 0; list-style: none }
.counts li { padding: .25rem .75rem; border: 1px solid var(--line); border-radius: .4rem; background: var(--raised) }
.warning { margin: 0 0 .75rem; padding: .5rem .75rem; border-radius: .4rem; background: var(--warning) }
.filters { display: flex; flex-wrap: wrap; gap: .75rem 1.25rem; align-items: end; margin: 0 0 .75rem }
@supports not selector(:has(*)) { .filters { display: none } }
fieldset {
  display: flex; flex-wrap: wrap; gap: .35rem; min-width: 0; max-height: 10rem; margin: 0; padding: 0;
  overflow: auto; border: 0;
}
legend { padding: 0 0 .2rem; color: var(--soft); font-size: .875rem }
label, button {
  display: inline-flex; gap: .35rem; align-items: center; padding: .15rem .6rem; border: 1px solid var(--line);
  border-radius: .4rem; background: var(--raised); color: inherit; font: inherit; font-size: .9rem; cursor: pointer;
}
label:has(:disabled) { opacity: .55; cursor: default }
label:has(:checked) { border-color: var(--changed); background: var(--chosen) }
label:has(:focus-visible), :is(button, summary):focus-visible { outline: 2px solid var(--changed); outline-offset: 1px }
input { margin: 0 }
small, .none, .all, .note { color: var(--soft) }
.shown { order: -1; margin: 0 0 .25rem; color: var(--soft); font-size: .9rem; text-align: end }
.lines { width: 100%; border-collapse: collapse; table-layout: fixed; counter-reset: shown }
.lines > thead th {
  position: sticky; top: 0; z-index: 1; background: var(--ground); box-shadow: inset 0 -2px var(--line);
}
.lines > * > tr > * { padding: .5rem .7rem; text-align: start; vertical-align: top }
.lines > thead th:last-child { width: 24% }
.lines > thead th:first-child { width: 23% }
.of-rows > thead th:last-child { width: 14% }
.change { counter-increment: shown; border-block-end: 1px solid var(--line) }
.change > th { box-shadow: inset .25rem 0 var(--kind); font-weight: 600 }
.change > .again { color: var(--soft); font-weight: 400 }
.changed, .overlaid { --kind: var(--changed) }
.added { --kind: var(--added) }
.unmapped { --kind: var(--soft) }
.removed, .unused { --kind: var(--removed) }
.note b { color: var(--kind) }
.text { display: inline-block; white-space: pre-wrap }
ins, del {
  padding: .05em .1em; border-radius: .2em; -webkit-box-decoration-break: clone; box-decoration-break: clone;
  text-decoration-color: var(--soft); text-decoration-thickness: 1px; text-underline-offset: .2em;
}
ins { background: var(--come) }
del { background: var(--gone) }
[data-codes]::after { content: attr(data-codes); display: inline-block; font-size: .7em }
.swatch {
  display: inline-block; width: 1.1em; height: 1.1em; margin-inline-end: .4em; border: 1px solid var(--soft);
  border-radius: .2em; vertical-align: -.2em; print-color-adjust: exact; -webkit-print-color-adjust: exact;
  background:
    linear-gradient(var(--color), var(--color)),
    repeating-conic-gradient(#b4b4b4 0 25%, #fff 0 50%) 0 0 / .55em .55em;
}
.bag { width: 100%; border-collapse: collapse; table-layout: fixed; font-size: .95em }
.bag :is(th, td) { padding: .2rem .5rem .2rem 0; text-align: start; vertical-align: top; font-weight: 400 }
.bag thead th { color: var(--soft); font-size: .85em }
.bag tbody tr { border-block-start: 1px solid var(--line) }
.bag .added > th, .bag .removed > th { color: var(--kind) }
summary { cursor: pointer }
details dl { margin: .4rem 0 0; font-size: .9rem }
details dt { color: var(--soft) }
details dd { margin: 0 0 .25rem }
@media screen and (max-width: 48rem) {
  .lines, .lines > tbody { display: block }
  .lines > thead { position: absolute; width: 1px; height: 1px; overflow: hidden; clip-path: inset(50%) }
  .change {
    display: grid; grid-template-columns: 1fr 1fr; margin: 0 0 .75rem; border: 1px solid var(--line);
    border-inline-start: .25rem solid var(--kind); border-radius: .4rem;
  }
  .change > th { grid-column: 1 / -1; box-shadow: none; background: var(--raised) }
  .change > :is([colspan], .devices, .use), .change > :has(.bag) { grid-column: 1 / -1 }
  .change > .devices:empty { display: none }
  .change > .before::before { content: "before"; display: block; color: var(--soft); font-size: .8rem }
  .change > .after::before { content: "after"; display: block; color: var(--soft); font-size: .8rem }
  .change > .value::before { content: "value"; display: block; color: var(--soft); font-size: .8rem }
  .change > .place::before { content: "row"; display: block; color: var(--soft); font-size: .8rem }
}
@media print {
  body { max-width: none; padding: 0; font-size: 10pt }
  section { display: block }
  .filters :is(label, fieldset):not(:has(:checked)), .locales:has(#any:checked), .filters button { display: none }
  .lines > thead th { position: static }
  .change { break-inside: avoid }
  ins, del { print-color-adjust: exact; -webkit-print-color-adjust: exact }
}
"""
POLICY = "default-src 'none'; style-src 'unsafe-inline'; base-uri 'none'; form-action 'none'"
"""What a browser lets the page do: nothing but show itself."""
NODE_LIMIT = (
    "node limit: the trees of these names have more nodes together than the limit, so nothing is told. Allow more with"
    " --max-nodes, ask for fewer names, or make the box smaller."
)
NOTHING = element("p", "Nothing differs on any device.")
NO_ROWS = Rows([], {}, "")


def inputs_html(asked):
    rule = "compared as a phone does" if asked.locales else "compared by language and region alone"
    inputs = [("Before", asked.old), ("After", asked.new), ("Devices", asked.box)]
    told = [(title, element("code", word)) for title, word in inputs]
    if asked.names:
        told.append(("Names", joined([element("code", name) for name in asked.names], " ")))
    told.append(("Locales", rule))
    return terms(told, class_="inputs")


def terms(told, **attributes):
    """A list of titles, each with what is said of it."""
    parts = [joined([element("dt", title), element("dd", said)]) for title, said in told]
    return element("dl", *parts, **attributes)


def counts_html(lines):
    kinds = Counter(line["line"] for line in lines.changes)
    names = len({line["name"] for line in lines.changes if line["line"] == "changed"})
    told = [
        f"{counted_of(kinds['changed'], 'change')} of {counted_of(names, 'name')}",
        f"{kinds['added']} added",
        f"{kinds['removed']} removed",
        f"{lines.same} the same",
    ]
    warnings = [
        element("p", f"{word}: {COUNTED[word]}: {counts['old']} before, {counts['new']} after", class_="warning")
        for word, counts in lines.counts.items()
    ]
    return joined([chips(told), *warnings])


def chips(told):
    return element("ul", *(element("li", each) for each in told), class_="counts")


def counted_of(count, word):
    return f"{count} {word}" if count == 1 else f"{count} {word}s"


def page_of(asked, lines, rows):
    filters = Filters(lines.changes, rows.lines)
    if lines.same is None:
        parts = [element("p", NODE_LIMIT, class_="warning")]
    else:
        columns = "Before", "After", "Devices"
        table = table_html(filters, lines.changes, cells_of, columns, "of-changes") if lines.changes else NOTHING
        shown = [filters.html()] if filters.all else []
        parts = [counts_html(lines), *shown, element("main", table, rows_html(filters, rows))]
    rules = "\n".join(filters.rules())
    head = [
        Html(opened("meta", {"charset": "utf-8"})),
        Html(opened("meta", {"http_equiv": "Content-Security-Policy", "content": POLICY})),
        Html(opened("meta", {"name": "viewport", "content": "width=device-width, initial-scale=1"})),
        element("title", f"What changes: {asked.old} → {asked.new}"),
        element("style", Html(f"{STYLE}{rules}\n")),
    ]
    body = [element("h1", "What changes"), inputs_html(asked), *parts]
    whole = element("html", element("head", joined(head, "\n")), element("body", joined(body, "\n")), lang="en")
    return f"<!DOCTYPE html>\n{whole}\n"


# ---- the program


def lines_in(said):
    """The lines before the last, and the last, of the bytes that the program prints."""
    *lines, last = [json.loads(line) for line in said.removesuffix(b"\n").split(b"\n")]
    return lines, last


def read_lines(said):
    """What `diff` says."""
    lines, last = lines_in(said)
    changes = [line for line in lines if line["line"] in CHANGES]
    counts = {line["line"]: line for line in lines if line["line"] in COUNTED}
    if len(changes) + len(counts) < len(lines) or last["line"] not in ("same", "node limit"):
        raise ValueError
    return Lines(changes, counts, last.get("count"))


def read_rows(said):
    """What `unused` says of overlays, and then of what they stand over. The rest may be most of a table."""
    lines, last = lines_in(said)
    if last["line"] == "node limit" and not lines:
        return Rows([], {}, NODE_LIMIT)
    if last["line"] != "rows" or any(line["line"] not in USES for line in lines):
        raise ValueError
    told = [line for line in lines if line["overlay"]] + [line for line in lines if line["line"] == "overlaid"]
    return Rows(told, last, "")


def words_asked():
    about = "Prints a page for reviewers: what a change of layers alters, and which rows of overlays no device loads."
    parser = argparse.ArgumentParser(description=about, allow_abbrev=False)
    parser.add_argument("--locales", metavar="RULE", help="with android compare locales as a phone does")
    parser.add_argument("--max-nodes", metavar="N", help="node limit of the trees that part the devices")
    parser.add_argument("--restool", metavar="PATH", help="the program, if it is not the one at hand")
    parser.add_argument("old", metavar="OLD", help="the layers before the change")
    parser.add_argument("new", metavar="NEW", help="the layers after the change")
    parser.add_argument("box", metavar="BOX", help="the devices")
    parser.add_argument("names", metavar="NAME", nargs="*", help="a resource, or several; without one, all")
    return parser.parse_intermixed_args()


def program_at_hand():
    """The program beside the folder of this file, or else what the shell finds."""
    beside = os.path.join(os.path.dirname(os.path.dirname(os.path.realpath(__file__))), "restool")
    return beside if os.path.isfile(beside) else "restool"


def ask(asked, command, *layers, messages=None):
    """How the program ends that is asked this, and what it says; its messages too, where a pipe is given for them."""
    options = [] if asked.locales is None else ["--locales", asked.locales]
    options += [] if asked.max_nodes is None else ["--max-nodes", asked.max_nodes]
    program = asked.restool or program_at_hand()
    words = [program, command, "--json", *options, "--", *layers, asked.box, *asked.names]
    try:
        return subprocess.run(words, stdout=subprocess.PIPE, stderr=messages)
    except OSError as error:
        raise ReviewError(f"{program} does not run; say with --restool where restool is") from error


def read_answer(done, read):
    """What the program says, read so. Where it says nothing, this ends as it did."""
    if not done.stdout or done.returncode not in (0, 1):
        sys.exit(done.returncode if done.returncode > 0 else 1)
    try:
        return read(done.stdout)
    except (ValueError, TypeError, KeyError) as error:
        raise ReviewError("the program says what has no place on a page") from error


def may_have_overlays(layers):
    """Whether a word for layers, or a list of them, may have an overlay: behind a `+`, or with an id map."""
    if "+" in layers:
        return True
    try:
        with open(layers, "rb") as listed:
            return any("map" in layer for layer in json.loads(listed.read(LONGEST_LIST)))
    except (OSError, ValueError, TypeError, RecursionError):
        return False


def rows_asked(asked):
    """The rows of the new layers. These may lack a name that the old ones have: then the program's message says so."""
    if not may_have_overlays(asked.new):
        return NO_ROWS
    done = ask(asked, "unused", asked.new, messages=subprocess.PIPE if asked.names else None)
    if asked.names and done.returncode == 1 and not done.stdout:
        return Rows([], {}, done.stderr.decode().strip())
    if done.stderr:
        sys.stderr.buffer.write(done.stderr)
    return read_answer(done, read_rows)


def write(page):
    """Prints the page. The status is restool's, if that cannot be done."""
    try:
        with open(1, "wb", closefd=False) as out:
            out.write(page.encode())
    except OSError:
        sys.exit(5)


def main():
    asked = words_asked()
    try:
        lines = read_answer(ask(asked, "diff", asked.old, asked.new), read_lines)
        rows = NO_ROWS if lines.same is None else rows_asked(asked)
    except ReviewError as error:
        sys.exit(f"review: {error}")
    write(page_of(asked, lines, rows))
    sys.exit(lines.same is None or rows.why == NODE_LIMIT)


if __name__ == "__main__":
    main()

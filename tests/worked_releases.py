#!/usr/bin/env python3
"""Makes twelve changes of an app of 120 resources, one release after the other, and compares what `restool values` prints of each
with what it printed of the release before: they differ in the lines that the change is about, which were worked out by hand, and in
no others.

    worked_releases.py PROGRAM [--aapt]

With --aapt each release is also written as XML, aapt builds it, and of its apk the same is printed. The last line is the number of
faults, and how many lines each change moves."""
import os
import re
import subprocess
import sys
import tempfile
from collections import namedtuple
from xml.sax.saxutils import escape, quoteattr

from check_diff import write_inputs
from made_layers import NamedTable, Resource, Text, ids_of
from plain_bags import Bag
from plain_rules import Record

BOX = {
    "locale": "ar-EG de-AT de-DE en-GB en-US es-ES es-MX fr-CA fr-FR it-IT ja-JP nl-NL pl-PL pt-BR".split(),
    "layoutDirection": [1, 2],
    "smallestWidthDp": {"from": 320, "to": 840},
    "widthDp": {"from": 320, "to": 1280},
    "heightDp": {"from": 320, "to": 1280},
    "screenSize": [2, 3, 4],
    "orientation": [1, 2],
    "night": [1, 2],
    "density": {"from": 120, "to": 640},
    "sdk": {"from": 21, "to": 30},
}
FOLDERS = {
    "values": {},
    "values-night": {"night": 2},
    "values-land": {"orientation": 2},
    "values-sw600dp": {"smallestWidthDp": 600},
    "values-v26": {"sdk": 26},
    **{f"values-{language}": {"locale": language} for language in ("ar", "de", "es", "fr", "it", "ja", "nl", "pl")},
    "values-pt-rBR": {"locale": "pt-BR"},
}
RECORDS = {folder: Record(given) for folder, given in FOLDERS.items()}
LANGUAGES = ("ar", "de", "es", "fr", "it", "ja", "pl", "pt-rBR")
QUANTITIES = {"other": 0x01000004, "one": 0x01000006, "few": 0x01000008, "many": 0x01000009}
FIRST_PLACE, FORMAT = 0x02000000, 0x01000000
FORMATS = {"color": 0x10, "dimension": 0x40, "boolean": 0x08}

WORDS = """title about account add address back basket brew cancel card close contact copy cups delete delivery details discount
done edit email empty error favourites filter help history home kettle language later leaf loading login logout menu name next
night offline open order password pay phone pot price privacy profile query rate refresh retry save search settings share sort
steep temperature""".split()
COLORS = "ink paper accent clay steam leaf warning link shadow line button card badge toolbar tab chip hint field icon scrim".split()
DIMENS = "margin gutter handle spout lid card row icon avatar title body caption corner elevation stroke touch".split()


CARD = {"cardColor": "@color/card", "cardMargin": "@dimen/margin", "flat": "false"}
OTHERS = {
    "attr/cardColor": {"values": "color"},
    "attr/cardMargin": {"values": "dimension"},
    "attr/cardCorner": {"values": "dimension"},
    "attr/flat": {"values": "boolean"},
    "attr/textTint": {"values": "color"},
    "bool/tablet": {"values": "false", "values-sw600dp": "true"},
    "bool/whistles": {"values": "true"},
    "bool/steams": {"values": "true", "values-v26": "false"},
    "integer/columns": {"values": "1", "values-land": "2", "values-sw600dp": "3"},
    "integer/retries": {"values": "5"},
    "style/Card": {"values": ("", CARD), "values-v26": ("", {**CARD, "flat": "true"})},
    "style/Card.Small": {"values": ("Card", {"cardMargin": "2dp"})},
    "style/Card.Dark": {"values": ("Card", {"cardColor": "#000000"})},
    "style/Card.Round": {"values": ("Card", {"cardCorner": "@dimen/corner"})},
    "style/Card.Round.Warm": {"values": ("Card.Round", {"textTint": "@color/clay"})},
    "style/Text": {"values": ("", {"textTint": "@color/ink"})},
    "style/Text.Hint": {"values": ("Text", {"textTint": "@color/hint"})},
    "style/Text.Link": {"values": ("Text", {})},
    "array/steps": {"values": ["@string/add", "Boil", "@string/steep", "Pour"]},
    "array/teas": {"values": ["Assam", "Sencha", "Mint"], "values-de": ["Assam", "Sencha", "Minze"]},
    "array/sizes": {"values": ["1", "2", "4", "6"]},
    "plurals/cups": {
        "values": {"one": "%d cup", "other": "%d cups"},
        "values-de": {"one": "%d Tasse", "other": "%d Tassen"},
        "values-fr": {"one": "%d tasse", "other": "%d tasses"},
        "values-ja": {"other": "%d杯"},
        "values-pl": {"one": "%d filiżanka", "few": "%d filiżanki", "many": "%d filiżanek", "other": "%d filiżanki"},
    },
    "plurals/pots": {"values": {"one": "%d pot", "other": "%d pots"}, "values-de": {"one": "%d Kanne", "other": "%d Kannen"}},
    "plurals/minutes": {"values": {"other": "%d min"}},
}
"""What each resource says in each folder, as XML has it: a text, the texts of an array or of plurals, the parent and the texts of a
style, the format of an attribute."""


# ---- the app


def text_rows(name):
    """Brief words are not translated, and of the others each language lacks some."""
    text, lacks = name.capitalize(), len(name) % 7
    languages = LANGUAGES if len(name) > 3 else ()
    return {"values": text, **{f"values-{each}": f"{text} ({each})" for place, each in enumerate(languages) if place != lacks}}


def color_rows(place):
    """Each third color has one for the night."""
    night = {"values-night": f"#{place * 0x050709 + 0x0a0a0a:06x}"} if place % 3 == 0 else {}
    return {"values": f"#ff{place * 0x0b0d0f + 0x102030:06x}", **night}


def dimen_rows(place):
    """Each second dimension is another on tablets, and each fourth in landscape."""
    tablet = {"values-sw600dp": f"{2 * place + 4}dp"} if place % 2 == 0 else {}
    land = {"values-land": f"{place + 3}dp"} if place % 4 == 0 else {}
    return {"values": f"{place + 2}dp", **tablet, **land}


def first_app():
    app = {f"string/{name}": text_rows(name) for name in WORDS}
    app.update((f"color/{name}", color_rows(place)) for place, name in enumerate(COLORS))
    app.update((f"dimen/{name}", dimen_rows(place)) for place, name in enumerate(DIMENS))
    references = {"color/button": {"values": "@color/accent"}, "color/tab": {"values": "@color/toolbar", "values-night": "@color/ink"}}
    return {**app, **references, **OTHERS}


# ---- as a table


def cell_of(text):
    """What XML has, as a table holds it."""
    if text in ("true", "false"):
        return 0x12, 0xFFFFFFFF * (text == "true")
    if re.fullmatch("#[0-9a-f]{6,8}", text):
        return (0x1C, int(text[1:], 16)) if len(text) == 9 else (0x1D, 0xFF000000 | int(text[1:], 16))
    if text.endswith("dp"):
        return 5, int(text[:-2]) << 8 | 1
    if text.isdigit():
        return 0x10, int(text)
    return text if text[0] in "@?" else Text(text)


def in_table(type_name, ids, said):
    """A cell. The rows of a style stand by rising ids, as tools write them."""
    if type_name == "attr":
        return Bag(0, [(FORMAT, (0x10, FORMATS[said]))])
    if type_name == "style":
        parent, own = said
        return Bag(parent and f"style/{parent}", sorted((ids[f"attr/{name}"], cell_of(text)) for name, text in own.items()))
    if type_name == "array":
        return Bag(0, [(FIRST_PLACE + place, cell_of(text)) for place, text in enumerate(said)])
    if type_name == "plurals":
        return Bag(0, sorted((QUANTITIES[quantity], Text(text)) for quantity, text in said.items()))
    return cell_of(said)


def table_of(app, unused):
    """The table, whose pool begins with texts that no resource has."""
    ids = ids_of([Resource(*name.split("/"), []) for name in app])
    resources = []
    for name, rows in app.items():
        type_name, entry_name = name.split("/")
        cells = [(RECORDS[folder], in_table(type_name, ids, said)) for folder, said in rows.items()]
        resources.append(Resource(type_name, entry_name, cells))
    return NamedTable(resources, ids, strings=unused)


# ---- as XML


def items_of(type_name, said):
    """The items of a bag, each with what tells it from the others."""
    if type_name == "style":
        return [(f" name={quoteattr(attr)}", text) for attr, text in said[1].items()]
    if type_name == "plurals":
        return [(f" quantity={quoteattr(quantity)}", text) for quantity, text in said.items()]
    return [("", text) for text in said]


def element(name, said):
    type_name, entry_name = name.split("/")
    called = f"name={quoteattr(entry_name)}"
    if type_name == "attr":
        return f"<attr {called} format={quoteattr(said)}/>"
    if isinstance(said, str):
        return f"<{type_name} {called}>{escape(said)}</{type_name}>"
    parent = f" parent={quoteattr(said[0])}" if type_name == "style" else ""
    items = "".join(f"<item{key}>{escape(text)}</item>" for key, text in items_of(type_name, said))
    return f"<{type_name} {called}{parent}>{items}</{type_name}>"


def built_by_aapt(folder, app, unused):
    """The apk that aapt makes of the app. What no resource has is a comment."""
    for place in FOLDERS:
        os.makedirs(os.path.join(folder, "res", place), exist_ok=True)
        elements = "".join(f"<!-- {text} -->\n" for text in unused)
        elements += "".join(f"{element(name, rows[place])}\n" for name, rows in app.items() if place in rows)
        with open(os.path.join(folder, "res", place, "values.xml"), "w", encoding="utf-8") as out:
            out.write(f"<resources>\n{elements}</resources>\n")
    with open(os.path.join(folder, "AndroidManifest.xml"), "w") as out:
        out.write('<manifest package="org.example.tea"><application/></manifest>\n')
    subprocess.run(["aapt", "package", "-f", "-M", "AndroidManifest.xml", "-S", "res", "-F", "app.apk"], cwd=folder, check=True)
    return "app.apk"


# ---- the releases

Release = namedtuple("Release", "app unused")
"""An app, and texts that no resource has: they stand first in the table's pool, and in XML are comments."""


def rows(type_name, **of_names):
    """A change that gives some resources of a type other rows, or more of them."""

    def changed(release):
        others = {f"{type_name}/{name}": given for name, given in of_names.items()}
        return release._replace(app={**release.app, **{name: {**release.app.get(name, {}), **given} for name, given in others.items()}})

    return changed


def in_another_order(release):
    return release._replace(app=dict(reversed(release.app.items())))


def with_unused_texts(release):
    return release._replace(unused=("About tea", "Kettles"))


NEW_CARD = "", {"cardColor": "@color/card", "cardMargin": "@dimen/gutter", "flat": "true"}
CHANGES = [
    (
        "a text",
        rows("string", basket={"values": "Cart"}),
        """\
< string/basket "Basket" on en-rGB,en-rUS,nl-rNL,pl-rPL
> string/basket "Cart" on en-rGB,en-rUS,nl-rNL,pl-rPL
""",
    ),
    # A style refers to it, which says so before and after.
    (
        "a color by day",
        rows("color", clay={"values": "#ffb5651d"}),
        """\
< color/clay #ff31475d on notnight
> color/clay #ffb5651d on notnight
""",
    ),
    (
        "a dimension in two configurations",
        rows("dimen", handle={"values": "6dp", "values-sw600dp": "10dp"}),
        """\
< dimen/handle 4dp on sw<600dp
< dimen/handle 8dp on sw>=600dp
> dimen/handle 10dp on sw>=600dp
> dimen/handle 6dp on sw<600dp
""",
    ),
    (
        "a text in four languages",
        rows("string", order={"values-de": "Kaufen", "values-es": "Comprar", "values-fr": "Acheter", "values-it": "Compra"}),
        """\
< string/order "Order (de)" on de-rAT,de-rDE
< string/order "Order (es)" on es-rES,es-rMX
< string/order "Order (fr)" on fr-rCA,fr-rFR
< string/order "Order (it)" on it-rIT
> string/order "Acheter" on fr-rCA,fr-rFR
> string/order "Compra" on it-rIT
> string/order "Comprar" on es-rES,es-rMX
> string/order "Kaufen" on de-rAT,de-rDE
""",
    ),
    # The last line counts the resources.
    (
        "a new text with a translation",
        rows("string", tip={"values": "Tip", "values-de": "Tipp"}),
        """\
< resources 120
> string/tip "Tip" on all but de-rAT,de-rDE
> string/tip "Tipp" on de-rAT,de-rDE
> resources 121
""",
    ),
    (
        "a singular in three languages",
        rows(
            "plurals",
            cups={
                "values": {"one": "a cup", "other": "%d cups"},
                "values-de": {"one": "eine Tasse", "other": "%d Tassen"},
                "values-fr": {"one": "une tasse", "other": "%d tasses"},
            },
        ),
        """\
<   one "%d cup"
<   one "%d Tasse"
<   one "%d tasse"
>   one "a cup"
>   one "eine Tasse"
>   one "une tasse"
""",
    ),
    # Three styles below it have what it sets. The fourth sets that itself.
    (
        "a style in one configuration",
        rows("style", Card={"values-v26": NEW_CARD}),
        4 * "<   attr/cardMargin @dimen/margin\n" + 4 * ">   attr/cardMargin @dimen/gutter\n",
    ),
    (
        "an item of an array in two languages",
        rows("array", teas={"values": ["Assam", "Matcha", "Mint"], "values-de": ["Assam", "Matcha", "Minze"]}),
        2 * '<   [1] "Sencha"\n' + 2 * '>   [1] "Matcha"\n',
    ),
    ("the order of all resources, by which all ids move", in_another_order, ""),
    ("texts that no resource has, by which all indexes of strings move", with_unused_texts, ""),
    (
        "two texts in one more language",
        rows("string", home={"values-nl": "Thuis"}, menu={"values-nl": "Keuze"}),
        """\
< string/home "Home" on en-rGB,en-rUS,it-rIT,nl-rNL
< string/menu "Menu" on en-rGB,en-rUS,it-rIT,nl-rNL
> string/home "Home" on en-rGB,en-rUS,it-rIT
> string/home "Thuis" on nl-rNL
> string/menu "Keuze" on nl-rNL
> string/menu "Menu" on en-rGB,en-rUS,it-rIT
""",
    ),
    (
        "four colors by night",
        rows("color", **{name: {"values-night": "#102030"} for name in ("card", "field", "hint", "leaf")}),
        """\
< color/card #ff89afd5
< color/field #ffcbfe2f
< color/hint #ffc0f120
< color/leaf #ff47617b
> color/card #102030 on night
> color/card #ff89afd5 on notnight
> color/field #102030 on night
> color/field #ffcbfe2f on notnight
> color/hint #102030 on night
> color/hint #ffc0f120 on notnight
> color/leaf #102030 on night
> color/leaf #ff47617b on notnight
""",
    ),
]
"""What each is, how it is made, and the lines that leave what is printed, and those that come."""


# ---- what is printed


class Printed:
    """What the program prints of releases, in a folder of its own."""

    def __init__(self, program, folder, has_aapt):
        self.program, self.folder, self.has_aapt = program, folder, has_aapt

    def of(self, release):
        """What it prints of a release, and how what it prints of the apk that aapt builds of it differs."""
        write_inputs(self.folder, [], [(table_of(*release), None)], BOX)
        text = self.values("new")
        return text, self.lines_between(text, self.values(built_by_aapt(self.folder, *release))) if self.has_aapt else ""

    def values(self, layers):
        words = [self.program, "values", "--locales", "android", layers, "box"]
        return subprocess.run(words, cwd=self.folder, capture_output=True, text=True, check=True).stdout

    def lines_between(self, old, new):
        """The lines that `diff` finds in the old text alone, and then those that it finds in the new one alone."""
        for name, text in (("old.golden", old), ("new.golden", new)):
            with open(os.path.join(self.folder, name), "w", encoding="utf-8") as out:
                out.write(text)
        done = subprocess.run(["diff", "old.golden", "new.golden"], cwd=self.folder, capture_output=True, text=True)
        lines = [f"{line}\n" for line in done.stdout.splitlines() if line.startswith(("< ", "> "))]
        return "".join(sorted(lines, key=lambda line: line[0]))


def faults_of(printed):
    """The faults of all releases, and how many lines each change moves."""
    release, counts, faults = Release(first_app(), ()), [], []
    golden, built = printed.of(release)
    if built or not golden.endswith("\nresources 120\n"):
        faults.append(f"the first release: {built}{golden[-20:]}")
    for name, change, due in CHANGES:
        release, last = change(release), golden
        golden, built = printed.of(release)
        moved = printed.lines_between(last, golden)
        counts.append(moved.count("\n"))
        if moved != due:
            faults.append(f"{name}:\n{moved}where this is due:\n{due}")
        if built:
            faults.append(f"{name}, as aapt builds it:\n{built}")
    return faults, counts


def main():
    with tempfile.TemporaryDirectory() as folder:
        faults, counts = faults_of(Printed(os.path.abspath(sys.argv[1]), folder, sys.argv[2:] == ["--aapt"]))
    print(*faults, sep="\n", end="")
    print(f"{len(faults)} faults; lines that the changes move: {', '.join(map(str, counts))}")
    sys.exit(bool(faults))


main()

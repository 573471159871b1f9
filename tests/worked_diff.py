#!/usr/bin/env python3
"""Asks `restool diff` what small changes of an app alter, each alone, `restool values` what small apps say, and `restool unused` which of
their rows no device loads, which was worked out by hand:

    worked_diff.py PROGRAM

Each case has the layers after a change, words that ask for some resources, and the lines that are due; and, where they are not
those of one app, the layers before it. Of `values` and `unused` it has the layers alone. The last line is the number of cases."""
import os
import subprocess
import sys
import tempfile

from check_diff import write_inputs
from made_layers import Broken, NamedTable, Resource, Text, ids_of
from plain_bags import Bag
from plain_map import made_map
from plain_rules import Record

ANY, GERMAN, GREEK, LAND, WIDE, NIGHT, DENSE, OLDER, NEWER = (
    Record(given)
    for given in (
        {},
        {"locale": "de"},
        {"locale": "el"},
        {"orientation": 2},
        {"smallestWidthDp": 600},
        {"night": 2},
        {"density": 320},
        {"sdk": 19},
        {"sdk": 26},
    )
)
ONE, OTHER = 0x01000006, 0x01000004
BLACK, WHITE, GREY = (0x1C, 0xFF000000), (0x1C, 0xFFFFFFFF), (0x1C, 0xFF808080)
FRAMEWORK_WHITE, FRAMEWORK_BLACK = (1, 0x0106000B), (1, 0x0106000C)


def dp(number):
    return 5, number << 8 | 1


def resource(name, *rows):
    return Resource(*name.split("/"), rows)


APP = [
    resource("attr/size", (ANY, (0x10, 0))),
    resource("attr/tint", (ANY, (0x10, 0))),
    resource("string/title", (ANY, Text("Teapot"))),
    resource("string/cancel", (ANY, Text("Cancel")), (GERMAN, Text("Abbrechen"))),
    resource("color/ink", (ANY, BLACK), (NIGHT, WHITE)),
    resource("color/text", (ANY, "@color/ink")),
    resource("dimen/margin", (ANY, dp(4)), (LAND, dp(8)), (WIDE, dp(16))),
    resource("dimen/handle", (ANY, dp(12)), (DENSE, dp(13))),
    resource("array/steps", (ANY, Bag(0, [(0x02000000, Text("Fill")), (0x02000001, Text("Boil"))]))),
    resource("plurals/cups", (ANY, Bag(0, [(OTHER, Text("%d cups")), (ONE, Text("%d cup"))]))),
    resource(
        "style/Card",
        (ANY, Bag(0, [("attr/size", "@dimen/margin"), ("attr/tint", "@color/ink")])),
        (NEWER, Bag(0, [("attr/size", "@dimen/handle"), ("attr/tint", "@color/ink")])),
    ),
    resource("style/Card.Flat", (ANY, Bag("style/Card", [("attr/size", dp(0))]))),
]
BOX = {
    "locale": ["", "de-AT", "de-DE", "fr-FR"],
    "smallestWidthDp": {"from": 320, "to": 720},
    "orientation": [1, 2],
    "night": [1, 2],
    "density": [160, 320, 480],
    "sdk": {"from": 21, "to": 30},
}


def table(resources, ids=None):
    return NamedTable(resources, ids or ids_of(resources))


def app(resources):
    return [(table(resources), None)]


def with_overlay(resources):
    """The app, and an overlay of it that names resources of the app."""
    target, overlay = table(APP), table(resources, ids_of(APP))
    return [(target, None), (overlay, made_map(target.rows, overlay.rows))]


def changed(*others):
    """The app with other rows of some resources."""
    rows = {other.name: other for other in others}
    return app([rows.get(each.name, each) for each in APP])


def one(name, cell):
    """An app of one resource."""
    return app([resource(name, (ANY, cell))])


def array(first, *texts):
    """An array as a packaging tool numbers it."""
    return one("array/x", Bag(0, [(first + place, Text(text)) for place, text in enumerate(texts)]))


def tinted(size, tint):
    return Bag(0, [("attr/size", dp(size)), ("attr/tint", tint)])


def shared(name):
    """Two dimensions, of which one is called `same`."""
    return app([resource("dimen/same", (ANY, dp(1))), resource(f"dimen/{name}", (ANY, dp(2)))])


def scripted(count):
    """A string with so many rows for a script."""
    latin = Record({"locale": "sr"}, script=b"Latn")
    return app([resource("string/s", (ANY, dp(1)), *[(latin, dp(2))] * count)])


QUANTITIES = ("other", "zero", "one", "two", "few", "many", "0x01000003", "0x0100000a")


def packages(number):
    """Attributes of a framework, a library and an app, and a style with rows for them and for ids that have no name."""
    layers = []
    for package, name in ((0x01, "android"), (0x02, ""), (0x7F, "")):
        of_package = [resource("attr/b", (ANY, dp(1))), resource("attr/é", (ANY, dp(1))), resource("attr/a", (ANY, dp(1)))]
        layers.append((NamedTable(of_package, ids_of(of_package, package), package, name=name), None))
    names = [package << 24 | type_id << 16 | entry for package in (0x01, 0x02, 0x7F) for type_id in (1, 9) for entry in range(3)]
    styled = [Resource("attr", "a", []), resource("style/s", (ANY, Bag(0, [(name, dp(number)) for name in names])))]
    return [*layers, (NamedTable(styled, {}), None)]


KEYS = tuple(f"{package}:attr/{entry}" for package in ("android", "0x02", "0x7f") for entry in "abé")
KEYS += tuple(f"0x{package}09000{entry}" for package in ("01", "02", "7f") for entry in range(3))
PACKAGES_CHANGED = "changed 0x7f:style/s\n" + "".join(f"  {key} dimension 1/2^0 dp -> dimension 2/2^0 dp\n" for key in KEYS) + "same 9"


CASES = [
    (app(APP), (), "same 12"),
    (changed(resource("string/title", (ANY, Text("Tea pot")))), (), 'changed string/title "Teapot" -> "Tea pot"\nsame 11'),
    (
        changed(resource("string/cancel", (ANY, Text("Cancel")), (GERMAN, Text("Abbruch")))),
        (),
        'changed string/cancel "Abbrechen" -> "Abbruch" on locale=de-AT,de-DE\nsame 11',
    ),
    # What a style sets its children have too. Newer devices have another style.
    (
        changed(
            resource(
                "style/Card",
                (ANY, Bag(0, [("attr/size", "@dimen/margin"), ("attr/tint", "@color/text")])),
                (NEWER, Bag(0, [("attr/size", "@dimen/handle"), ("attr/tint", "@color/ink")])),
            )
        ),
        (),
        "changed style/Card on sdk=21..25\n  attr/tint @color/ink -> @color/text\n"
        "changed style/Card.Flat on sdk=21..25\n  attr/tint @color/ink -> @color/text\nsame 10",
    ),
    (
        changed(resource("array/steps", (ANY, Bag(0, [(0x02000000, Text("Fill")), (0x02000001, Text("Pour"))])))),
        (),
        'changed array/steps\n  [1] "Boil" -> "Pour"\nsame 11',
    ),
    (
        changed(resource("plurals/cups", (ANY, Bag(0, [(OTHER, Text("%d cups")), (ONE, Text("a cup"))])))),
        (),
        'changed plurals/cups\n  one "%d cup" -> "a cup"\nsame 11',
    ),
    # A row for wide devices is better than one for wide screens.
    (
        changed(resource("dimen/margin", (ANY, dp(4)), (LAND, dp(9)), (WIDE, dp(16)))),
        (),
        "changed dimen/margin dimension 8/2^0 dp -> dimension 9/2^0 dp on smallestWidthDp=320..599 orientation=2\nsame 11",
    ),
    (
        changed(resource("dimen/margin", (ANY, dp(4)), (LAND, dp(8)))),
        (),
        "changed dimen/margin dimension 16/2^0 dp -> dimension 4/2^0 dp on smallestWidthDp=600..720 orientation=1\n"
        "changed dimen/margin dimension 16/2^0 dp -> dimension 8/2^0 dp on smallestWidthDp=600..720 orientation=2\nsame 11",
    ),
    # A German row is for no other device. The framework's table is no layer.
    (
        changed(resource("string/cancel", (GERMAN, Text("Abbrechen")))),
        (),
        'changed string/cancel "Cancel" -> absent string/cancel on locale=none,fr-FR\nsame 11',
    ),
    (
        changed(resource("color/text", (ANY, FRAMEWORK_WHITE), (NIGHT, FRAMEWORK_BLACK))),
        (),
        "changed color/text argb8 #ff000000 -> absent 0x0106000b on night=1\n"
        "changed color/text argb8 #ffffffff -> absent 0x0106000c on night=2\nsame 11",
    ),
    # The text stands first in the pool, so that all indexes of strings move.
    (app([resource("string/about", (ANY, Text("About"))), *APP]), (), "added string/about\nsame 12"),
    # It is the first dimension, so that the ids of the others move, which styles name. It is the first type, so that all move.
    (app([resource("dimen/border", (ANY, dp(1))), *APP]), (), "added dimen/border\nsame 12"),
    # By day. The color is also behind the reference; the style names it, and says the same.
    (
        changed(resource("color/ink", (ANY, GREY), (NIGHT, WHITE))),
        (),
        "changed color/ink argb8 #ff000000 -> argb8 #ff808080 on night=1\n"
        "changed color/text argb8 #ff000000 -> argb8 #ff808080 on night=1\nsame 10",
    ),
    # The app's row for 320 is better from 320 on.
    (
        with_overlay([resource("dimen/handle", (ANY, dp(16)))]),
        (),
        "changed dimen/handle dimension 12/2^0 dp -> dimension 16/2^0 dp on density=160\nsame 11",
    ),
    (
        with_overlay([resource("style/Card", (ANY, Bag(0, [("attr/tint", "@color/text")])))]),
        (),
        "changed style/Card on sdk=21..25\n  removed attr/size @dimen/margin\n  attr/tint @color/ink -> @color/text\n"
        "changed style/Card.Flat on sdk=21..25\n  attr/tint @color/ink -> @color/text\nsame 10",
    ),
    # Words ask for some. An id asks for what has it before, here the size, and for what has it after, the tint.
    (app(APP[1:]), ("attr/size", "dimen/*", "dimen/margin"), "removed attr/size\nsame 2"),
    (app(APP[1:]), ("0x7f010000",), "removed attr/size\nsame 1"),
    (app(APP[1:]), ("dimen/margin", "dimen/none", "none/*"), "no resource dimen/none"),
    # ---- values that a device reads alike, and strings that cannot be read
    (changed(resource("color/ink", (ANY, (0x1D, 0xFF000000)), (NIGHT, WHITE))), (), "same 12"),
    (one("bool/b", (0x12, 0xFFFFFFFF)), (), "same 1", one("bool/b", (0x12, 1))),
    (one("bool/b", (0x10, 1)), (), "changed bool/b true -> decimal 1\nsame 0", one("bool/b", (0x12, 1))),
    # Two values that are read alike make one line.
    (
        app([resource("bool/b", (ANY, (0x12, 1)), (DENSE, (0x12, 0xFFFFFFFF)))]),
        (),
        "changed bool/b false -> true\nsame 0",
        one("bool/b", (0x12, 0)),
    ),
    (
        app([resource("dimen/d", (ANY, dp(4)), (DENSE, (5, 4 << 8 | 0xC1)))]),
        (),
        "changed dimen/d dimension 1/2^0 dp -> dimension 4/2^0 dp\nsame 0",
        one("dimen/d", dp(1)),
    ),
    (one("id/i", (0x11, 10)), (), "same 1", one("id/i", (0x10, 10))),
    (one("id/i", (0x11, 10)), (), "changed id/i float 0x0000000a -> hex 0x0000000a\nsame 0", one("id/i", (4, 10))),
    (one("string/s", (3, 9)), (), "changed string/s !NoSuch 8 -> !NoSuch 9\nsame 0", one("string/s", (3, 8))),
    (one("string/s", (3, 8)), (), "same 1", one("string/s", (3, 8))),
    (
        one("string/s", Text(Broken("Cut", 0))),
        (),
        "changed string/s !NotEnded 0 -> !Cut 0\nsame 0",
        one("string/s", Text(Broken("NotEnded", 0))),
    ),
    # aapt2 writes a character above U+FFFF as two surrogates of three bytes.
    (one("string/s", Text("\ud83d\ude00")), (), "same 1", one("string/s", Text("😀"))),
    (one("string/\ud83d\ude00", dp(1)), ("string/😀",), "same 1", one("string/😀", dp(1))),
    (
        one("string/s", Text("a\u2028b\u202e")),
        (),
        'changed string/s "\\u0085" -> "a\\u2028b\\u202e"\nsame 0',
        one("string/s", Text("\x85")),
    ),
    (one("string/a\u2066", dp(1)), (), 'added string/"a\\u2066"\nsame 0', []),
    (app([resource("dimen/*", (ANY, dp(1))), resource("*/a", (ANY, dp(1)))]), (), 'added "*"/a\nadded dimen/"*"\nsame 0', []),
    # ---- references and parents without an end, by the id that is one too many, or has them
    (one("color/a", "@color/a"), (), "changed color/a dimension 1/2^0 dp -> too many references color/a\nsame 0", one("color/a", dp(1))),
    (
        app([resource("color/a", (ANY, "@color/b")), resource("color/b", (ANY, "@color/c")), resource("color/c", (ANY, "@color/b"))]),
        ("color/a",),
        "changed color/a too many references color/a -> too many references color/b\nsame 0",
        app([resource("color/a", (ANY, "@color/a")), resource("color/b", (ANY, dp(1))), resource("color/c", (ANY, dp(1)))]),
    ),
    (
        app([resource("style/a", (ANY, "@style/b")), resource("style/b", (ANY, Bag("style/b", [])))]),
        ("style/a",),
        "changed style/a absent style/b -> too many parents style/b\nsame 0",
        app([resource("style/a", (ANY, "@style/b")), resource("style/b", (GREEK, Bag(0, [])))]),
    ),
    # ---- rows by their keys: places, quantities, names by package, ids
    (array(0x01000001, "b", "a"), (), 'changed array/x\n  [0] "a" -> "b"\n  [1] "b" -> "a"\nsame 0', array(0x02000000, "a", "b")),
    (array(0x01000001, "a", "b"), (), "same 1", array(0x02000000, "a", "b")),
    (array(0x01000001, *"abcdefghijkl"), (), 'changed array/x\n  removed [12] "m"\nsame 0', array(0x02000000, *"abcdefghijklm")),
    (
        one("plurals/p", Bag(0, [(place, dp(2)) for place in range(0x01000003, 0x0100000B)])),
        (),
        "changed plurals/p\n" + "".join(f"  {name} dimension 1/2^0 dp -> dimension 2/2^0 dp\n" for name in QUANTITIES) + "same 0",
        one("plurals/p", Bag(0, [(place, dp(1)) for place in range(0x01000003, 0x0100000B)])),
    ),
    # An array behind a reference, and one that a style replaces.
    (
        app([resource("string/x", (ANY, "@array/y")), resource("array/y", (ANY, Bag(0, [(0x02000000, dp(2))])))]),
        ("string/x",),
        "changed string/x\n  [0] dimension 1/2^0 dp -> dimension 2/2^0 dp\nsame 0",
        app([resource("string/x", (ANY, "@array/y")), resource("array/y", (ANY, Bag(0, [(0x02000000, dp(1))])))]),
    ),
    (
        one("array/x", dp(1)),
        (),
        "changed array/x bag -> dimension 1/2^0 dp\n  removed [0] decimal 0\nsame 0",
        one("array/x", Bag(0, [(7, (0x10, 0))])),
    ),
    (packages(2), (), PACKAGES_CHANGED, packages(1)),
    # ---- one change, whatever else is in the bags
    (
        app([*APP[:2], resource("style/s", (ANY, tinted(1, WHITE)), (LAND, tinted(2, WHITE)))]),
        (),
        "changed style/s\n  attr/tint argb8 #ff000000 -> argb8 #ffffffff\nsame 2",
        app([*APP[:2], resource("style/s", (ANY, tinted(1, BLACK)), (LAND, tinted(2, BLACK)))]),
    ),
    (
        app([*APP[:2], resource("style/s", (ANY, tinted(1, WHITE)), (LAND, tinted(3, WHITE)))]),
        (),
        "changed style/s on orientation=1\n  attr/tint argb8 #ff000000 -> argb8 #ffffffff\n"
        "changed style/s on orientation=2\n  attr/size dimension 2/2^0 dp -> dimension 3/2^0 dp\n"
        "  attr/tint argb8 #ff000000 -> argb8 #ffffffff\nsame 2",
        app([*APP[:2], resource("style/s", (ANY, tinted(1, BLACK)), (LAND, tinted(2, BLACK)))]),
    ),
    # ---- what the stacks count
    (shared("other"), (), "added dimen/other\nremoved 0x7f010001\nwarning shared-names 1 0\nsame 1", shared("same")),
    (shared("same"), (), "warning shared-names 1 1\nsame 2", shared("same")),
    (one("string/s", dp(1)), (), "set-aside 2 0\nsame 1", scripted(2)),
    (scripted(2), (), "set-aside 1 2\nsame 1", scripted(1)),
    (scripted(1), ("string/s",), "set-aside 0 1\nsame 1", one("string/s", dp(1))),
]


FORMATS = 0x01000000
NOTATED = [
    # The same in Android's notation.
    (
        changed(resource("string/cancel", (ANY, Text("Cancel")), (GERMAN, Text("Abbruch")))),
        (),
        'changed string/cancel "Abbrechen" -> "Abbruch" on de-rAT,de-rDE\nsame 11',
    ),
    (
        changed(resource("dimen/margin", (ANY, dp(4)), (LAND, dp(8)), (WIDE, (5, 0x3002)))),
        ("dimen/*",),
        "changed dimen/margin 16dp -> 48sp on sw>=600dp\nsame 1",
    ),
    (
        changed(resource("color/ink", (ANY, (0x1D, 0xFFB5651D)), (NIGHT, WHITE))),
        ("color/ink",),
        "changed color/ink #ff000000 -> #b5651d on notnight\nsame 0",
    ),
    (
        changed(resource("style/Card", (ANY, Bag(0, [("attr/size", "@dimen/margin"), ("attr/tint", (1, 0))])))),
        ("style/Card",),
        "changed style/Card on v<26\n  attr/tint @color/ink -> @null\nchanged style/Card on v>=26\n"
        "  attr/size @dimen/handle -> @dimen/margin\n  attr/tint @color/ink -> @null\nsame 0",
    ),
    (
        changed(resource("attr/size", (ANY, Bag(0, [(FORMATS, (0x10, 0x41)), (FORMATS + 1, (0x10, 3))])))),
        ("attr/size",),
        "changed attr/size 0 -> bag\n  added format reference|dimension\n  added min 3\nsame 0",
    ),
    (one("attr/x", Bag(0, [(FORMATS, (0x11, 0x1FFFF))])), (), "changed attr/x\n  format 0x200 -> any|enum\nsame 0",
     one("attr/x", Bag(0, [(FORMATS, (0x11, 0x200))]))),
    (one("dimen/x", (6, 0x30000030)), (), "changed dimen/x 1.5 -> 37.5%\nsame 0", one("dimen/x", (4, 0x3FC00000))),
]


AS_JSON = [
    # The same as lines of JSON. Those of one name stand in another order than as text.
    (
        changed(resource("dimen/margin", (ANY, dp(4)), (LAND, dp(8)))),
        ("dimen/margin",),
        '{"line":"changed","name":"dimen/margin","says":{"after":{"value":{"kind":5,"word":1025,"xml":"4dp"}},'
        '"before":{"value":{"kind":5,"word":4097,"xml":"16dp"}},'
        '"devices":{"orientation":[1],"smallestWidthDp":{"from":600,"to":720}},"on":"sw>=600dp port"}}\n'
        '{"line":"changed","name":"dimen/margin","says":{"after":{"value":{"kind":5,"word":2049,"xml":"8dp"}},'
        '"before":{"value":{"kind":5,"word":4097,"xml":"16dp"}},'
        '"devices":{"orientation":[2],"smallestWidthDp":{"from":600,"to":720}},"on":"sw>=600dp land"}}\n'
        '{"count":0,"line":"same"}',
    ),
    (
        changed(resource("string/cancel", (GERMAN, Text("Abbruch")))),
        ("string/cancel",),
        '{"line":"changed","name":"string/cancel","says":{"after":{"absent":"string/cancel"},'
        r'"before":{"value":{"string":"Cancel","xml":"\"Cancel\""}},"devices":{"locale":["","fr-FR"]},"on":"no-locale,fr-rFR"}}'
        '\n{"line":"changed","name":"string/cancel","says":{'
        r'"after":{"value":{"string":"Abbruch","xml":"\"Abbruch\""}},"before":{"value":{"string":"Abbrechen","xml":"\"Abbrechen\""}},'
        '"devices":{"locale":["de-AT","de-DE"]},"on":"de-rAT,de-rDE"}}\n'
        '{"count":0,"line":"same"}',
    ),
    (
        changed(resource("style/Card", (ANY, Bag(0, [("attr/size", "@dimen/margin"), ("attr/tint", (1, 0))])))),
        ("style/Card",),
        '{"line":"changed","name":"style/Card","says":{"devices":{"sdk":{"from":21,"to":25}},"on":"v<26","rows":['
        '{"after":{"reference":"0x00000000","xml":"@null"},"before":{"reference":"color/ink","xml":"@color/ink"},"key":"attr/tint"}]}}\n'
        '{"line":"changed","name":"style/Card","says":{"devices":{"sdk":{"from":26,"to":30}},"on":"v>=26","rows":['
        '{"after":{"reference":"dimen/margin","xml":"@dimen/margin"},"before":{"reference":"dimen/handle","xml":"@dimen/handle"},'
        '"key":"attr/size"},'
        '{"after":{"reference":"0x00000000","xml":"@null"},"before":{"reference":"color/ink","xml":"@color/ink"},"key":"attr/tint"}]}}\n'
        '{"count":0,"line":"same"}',
    ),
    (
        changed(resource("attr/size", (ANY, Bag(0, [(FORMATS, (0x10, 0x41)), (FORMATS + 1, (0x10, 3))])))),
        ("attr/size",),
        '{"line":"changed","name":"attr/size","says":{"after":{"bag":['
        '{"key":"format","value":{"kind":16,"word":65,"xml":"reference|dimension"}},{"key":"min","value":{"kind":16,"word":3,"xml":"3"}}]},'
        '"before":{"value":{"kind":16,"word":0,"xml":"0"}},"devices":{},"on":""}}\n'
        '{"count":0,"line":"same"}',
    ),
    (
        array(0x01000001, "b"),
        (),
        '{"line":"changed","name":"array/x","says":{"devices":{},"on":"","rows":['
        r'{"after":{"string":"b","xml":"\"b\""},"before":{"string":"a","xml":"\"a\""},"key":0},'
        r'{"before":{"string":"c","xml":"\"c\""},"key":1}]}}'
        '\n{"count":0,"line":"same"}',
        array(0x02000000, "a", "c"),
    ),
    (
        array(0x02000000, "a", "c"),
        (),
        r'{"line":"changed","name":"array/x","says":{"devices":{},"on":"","rows":[{"after":{"string":"c","xml":"\"c\""},"key":1}]}}'
        '\n{"count":0,"line":"same"}',
        array(0x01000001, "a"),
    ),
    # A string as it is, and as it is printed; and strings that are no text, or cannot be read.
    (
        one("string/s", Text('say "hi"\n\x01\u2028😀')),
        (),
        '{"line":"changed","name":"string/s","says":{'
        r'"after":{"value":{"string":"say \"hi\"\n\u0001'
        "\u2028😀"
        r'","xml":"\"say \\\"hi\\\"\\x0a\\x01\\u2028😀\""}},'
        r'"before":{"value":{"garbled":"\"half \\xed\\xa0\\xbd\"","xml":"\"half \\xed\\xa0\\xbd\""}},"devices":{},"on":""}}'
        '\n{"count":0,"line":"same"}',
        one("string/s", Text("half \ud83d")),
    ),
    (
        one("string/s", (3, 9)),
        (),
        '{"line":"changed","name":"string/s","says":{"after":{"value":{"broken":"!NoSuch 9","xml":"!NoSuch 9"}},'
        '"before":{"value":{"broken":"!NoSuch 8","xml":"!NoSuch 8"}},"devices":{},"on":""}}\n'
        '{"count":0,"line":"same"}',
        one("string/s", (3, 8)),
    ),
    (
        one("color/a", "@color/a"),
        (),
        '{"line":"changed","name":"color/a","says":{"after":{"tooManyReferences":"color/a"},'
        '"before":{"value":{"attribute":"0x01010001","xml":"?0x01010001"}},"devices":{},"on":""}}\n'
        '{"count":0,"line":"same"}',
        one("color/a", (2, 0x01010001)),
    ),
    (
        app([resource("style/a", (ANY, "@style/b")), resource("style/b", (ANY, Bag("style/b", [])))]),
        ("style/a",),
        '{"line":"changed","name":"style/a","says":{"after":{"tooManyParents":"style/b"},"before":{"absent":"style/b"},'
        '"devices":{},"on":""}}\n'
        '{"count":0,"line":"same"}',
        app([resource("style/a", (ANY, "@style/b")), resource("style/b", (GREEK, Bag(0, [])))]),
    ),
    # Names, counts, and what stands in place of all lines.
    (app([resource("string/about", (ANY, Text("About"))), *APP]), (), '{"line":"added","name":"string/about"}\n{"count":12,"line":"same"}'),
    (app(APP[1:]), ("attr/size", "dimen/*", "dimen/margin"), '{"line":"removed","name":"attr/size"}\n{"count":2,"line":"same"}'),
    (one('string/a "b"', dp(1)), (), r'{"line":"added","name":"string/\"a \\\"b\\\"\""}' + '\n{"count":0,"line":"same"}', []),
    (
        shared("other"),
        (),
        '{"line":"added","name":"dimen/other"}\n{"line":"removed","name":"0x7f010001"}\n{"line":"shared-names","new":0,"old":1}\n'
        '{"count":1,"line":"same"}',
        shared("same"),
    ),
    (one("string/s", dp(1)), (), '{"line":"set-aside","new":0,"old":2}\n{"count":1,"line":"same"}', scripted(2)),
    (changed(resource("dimen/margin", (ANY, dp(4)))), ("dimen/margin", "--max-nodes", "1"), '{"line":"node limit"}'),
    (app(APP), ("dimen/handle", "dimen/none"), "no resource dimen/none"),
]


VALUES = [
    # Each device is in one line of a resource. Of two qualifiers a line has those that have both values. The rows of a bag stand below.
    (
        app(APP),
        (),
        "array/steps\n  [0] \"Fill\"\n  [1] \"Boil\"\n"
        "attr/size 0\nattr/tint 0\n"
        "color/ink #ff000000 on notnight\ncolor/ink #ffffffff on night\n"
        "color/text #ff000000 on notnight\ncolor/text #ffffffff on night\n"
        "dimen/handle 12dp on mdpi\ndimen/handle 13dp on xhdpi,xxhdpi\n"
        "dimen/margin 16dp on sw>=600dp\ndimen/margin 4dp on sw<600dp port\ndimen/margin 8dp on sw<600dp land\n"
        "plurals/cups\n  other \"%d cups\"\n  one \"%d cup\"\n"
        "string/cancel \"Abbrechen\" on de-rAT,de-rDE\nstring/cancel \"Cancel\" on no-locale,fr-rFR\n"
        "string/title \"Teapot\"\n"
        "style/Card on v<26\n  attr/size @dimen/margin\n  attr/tint @color/ink\n"
        "style/Card on v>=26\n  attr/size @dimen/handle\n  attr/tint @color/ink\n"
        "style/Card.Flat\n  attr/size 0dp\n  attr/tint @color/ink\n"
        "resources 12",
    ),
    (with_overlay([resource("dimen/handle", (ANY, dp(16)))]), ("dimen/handle",),
     "dimen/handle 13dp on xhdpi,xxhdpi\ndimen/handle 16dp on mdpi\nresources 1"),
    (
        app(APP),
        ("dimen/margin", "0x7f010000"),
        "attr/size decimal 0\ndimen/margin dimension 16/2^0 dp on smallestWidthDp=600..720\n"
        "dimen/margin dimension 4/2^0 dp on smallestWidthDp=320..599 orientation=1\n"
        "dimen/margin dimension 8/2^0 dp on smallestWidthDp=320..599 orientation=2\nresources 2",
        "--raw",
    ),
    (app(APP), ("dimen/margin", "dimen/none"), "no resource dimen/none"),
    # What says nothing on some devices is told there too.
    (
        changed(resource("string/cancel", (GERMAN, Text("Abbrechen")))),
        ("string/cancel",),
        'string/cancel "Abbrechen" on de-rAT,de-rDE\nstring/cancel absent string/cancel on no-locale,fr-rFR\nresources 1',
    ),
    (one("color/a", "@color/a"), (), "color/a too many references color/a\nresources 1"),
    (one("style/s", Bag("style/s", [])), (), "style/s too many parents style/s\nresources 1"),
    # A bag without rows is its name alone; one behind a reference is told where it stands, and where it is referred to.
    (one("style/s", Bag(0, [])), (), "style/s\nresources 1"),
    (
        app([resource("string/x", (ANY, "@array/y")), resource("array/y", (ANY, Bag(0, [(0x02000000, dp(2))])))]),
        (),
        "array/y\n  [0] 2dp\nstring/x\n  [0] 2dp\nresources 2",
    ),
    # Two booleans that are true are one line. Two colors of one word are two, as they are written.
    (app([resource("bool/b", (ANY, (0x12, 1)), (DENSE, (0x12, 0xFFFFFFFF)))]), (), "bool/b true\nresources 1"),
    (
        app([resource("color/c", (ANY, BLACK), (NIGHT, (0x1D, 0xFF000000)))]),
        (),
        "color/c #000000 on night\ncolor/c #ff000000 on notnight\nresources 1",
    ),
    (shared("same"), (), "dimen/same 1dp\n0x7f010001 2dp\nwarning shared-names 1\nresources 2"),
    (scripted(2), (), "string/s 1dp\nset-aside 2\nresources 1"),
    # As JSON, also where --raw stands too.
    (
        app(APP),
        ("dimen/margin",),
        '{"line":"value","name":"dimen/margin","says":{"content":{"value":{"kind":5,"word":1025,"xml":"4dp"}},'
        '"devices":{"orientation":[1],"smallestWidthDp":{"from":320,"to":599}},"on":"sw<600dp port"}}\n'
        '{"line":"value","name":"dimen/margin","says":{"content":{"value":{"kind":5,"word":2049,"xml":"8dp"}},'
        '"devices":{"orientation":[2],"smallestWidthDp":{"from":320,"to":599}},"on":"sw<600dp land"}}\n'
        '{"line":"value","name":"dimen/margin","says":{"content":{"value":{"kind":5,"word":4097,"xml":"16dp"}},'
        '"devices":{"smallestWidthDp":{"from":600,"to":720}},"on":"sw>=600dp"}}\n'
        '{"count":1,"line":"resources"}',
        "--json",
    ),
    (
        app(APP),
        ("plurals/cups",),
        '{"line":"value","name":"plurals/cups","says":{"content":{"bag":['
        r'{"key":"other","value":{"string":"%d cups","xml":"\"%d cups\""}},{"key":"one","value":{"string":"%d cup","xml":"\"%d cup\""}}]},'
        '"devices":{},"on":""}}\n'
        '{"count":1,"line":"resources"}',
        "--json",
        "--raw",
    ),
    (
        one("style/s", Bag(0, [])),
        (),
        '{"line":"value","name":"style/s","says":{"content":{"bag":[]},"devices":{},"on":""}}\n{"count":1,"line":"resources"}',
        "--json",
    ),
    # The word of a number is as a device reads it.
    (
        app([resource("bool/b", (ANY, (0x12, 1))), resource("dimen/d", (ANY, (5, 4 << 8 | 0xC1)))]),
        (),
        '{"line":"value","name":"bool/b","says":{"content":{"value":{"kind":18,"word":4294967295,"xml":"true"}},"devices":{},"on":""}}\n'
        '{"line":"value","name":"dimen/d","says":{"content":{"value":{"kind":5,"word":1025,"xml":"4dp"}},"devices":{},"on":""}}\n'
        '{"count":2,"line":"resources"}',
        "--json",
    ),
    (
        shared("same"),
        (),
        '{"line":"value","name":"dimen/same","says":{"content":{"value":{"kind":5,"word":257,"xml":"1dp"}},"devices":{},"on":""}}\n'
        '{"line":"value","name":"0x7f010001","says":{"content":{"value":{"kind":5,"word":513,"xml":"2dp"}},"devices":{},"on":""}}\n'
        '{"count":1,"line":"shared-names"}\n{"count":2,"line":"resources"}',
        "--json",
    ),
    (
        scripted(2),
        (),
        '{"line":"value","name":"string/s","says":{"content":{"value":{"kind":5,"word":257,"xml":"1dp"}},"devices":{},"on":""}}\n'
        '{"count":2,"line":"set-aside"}\n{"count":1,"line":"resources"}',
        "--json",
    ),
    (app(APP), ("dimen/margin",), '{"line":"node limit"}', "--json", "--max-nodes", "1"),
]


def totals(rows, unused=0, overlaid=0, unmapped=0, size=0):
    return f"rows {rows} unused {unused} overlaid {overlaid} unmapped {unmapped} bytes {size}"


def over(resources, *overlays):
    """An app, and overlays of it by their names."""
    target = table(resources)
    return [(target, None)] + [(one, made_map(target.rows, one.rows)) for one in map(table, overlays)]


def mapped(overlay, own_of):
    """An app of two dimensions, and an overlay with this map."""
    return [(table([resource("dimen/a", (ANY, dp(1))), resource("dimen/b", (ANY, dp(2)))]), None), (table(overlay), own_of)]


A, B, NOWHERE = 0x7F010000, 0x7F010001, 0x7F0F0000
HANDLE = [resource("dimen/handle", (ANY, dp(12)), (DENSE, dp(13)))]
UNUSED = [
    (app(APP), (), totals(18)),
    # No device is Greek. All devices have the row for version 19, which is better than the default.
    (one("string/s", Text("a")), (), totals(1)),
    (app([resource("string/s", (ANY, Text("a")), (GREEK, Text("b")))]), (), 'unused layer 0 string/s el "b"\n' + totals(2, 1, size=16)),
    (app([resource("dimen/d", (ANY, dp(1)), (OLDER, dp(2)), (NEWER, dp(3)))]), (), "unused layer 0 dimen/d (default) 1dp\n" + totals(3, 1, size=16)),
    # Of two rows of one configuration in a layer the first is loaded, though they are the same.
    (app([resource("dimen/d", (ANY, dp(1)), (ANY, dp(1)))]), (), "unused layer 0 dimen/d (default) 1dp\n" + totals(2, 1, size=16)),
    # A row is told also where it is a reference; where it is loaded, it is not asked what it refers to.
    (app([resource("color/c", (ANY, "@color/d"), (GREEK, "@color/d")), resource("color/d", (GREEK, BLACK))]), (),
     "unused layer 0 color/c el @color/d\nunused layer 0 color/d el #ff000000\n" + totals(3, 2, size=32)),
    # A bag has twelve bytes for each of its rows.
    (
        app([*APP[:2], resource("style/s", (ANY, tinted(1, BLACK)), (OLDER, Bag("style/s", [])), (GREEK, Bag("style/s", [])))]),
        ("style/*",),
        "unused layer 0 style/s (default) bag count 2\n  attr/size 1dp\n  attr/tint #ff000000\n"
        "unused layer 0 style/s el bag parent style/s count 0\n" + totals(3, 2, size=56),
    ),
    # The app's default is loaded without the overlay. At 320 dpi the app's row stays better.
    (over(HANDLE, HANDLE[:0]), (), totals(2)),
    (over(HANDLE, [resource("dimen/handle", (ANY, dp(16)))]), (), "overlaid layer 0 dimen/handle (default) 12dp\n" + totals(3, 0, 1)),
    (over(HANDLE, [resource("dimen/handle", (ANY, dp(16)), (DENSE, dp(17)))]), (),
     "overlaid layer 0 dimen/handle (default) 12dp\noverlaid layer 0 dimen/handle xhdpi 13dp\n" + totals(4, 0, 2)),
    # A row that no device loads without the overlay either is unused. So are an overlay's rows, whichever keeps them out.
    (over([resource("dimen/d", (ANY, dp(1)), (OLDER, dp(2)))], [resource("dimen/d", (ANY, dp(3)))]), (),
     "unused layer 0 dimen/d (default) 1dp\nunused layer 1 dimen/d (default) 3dp\n" + totals(3, 2, size=32)),
    (over(HANDLE, [resource("dimen/handle", (ANY, dp(16)))], [resource("dimen/handle", (ANY, dp(20)))]), (),
     "overlaid layer 0 dimen/handle (default) 12dp\nunused layer 1 dimen/handle (default) 16dp\n" + totals(4, 1, 1, size=16)),
    # What no map brings in: without words it is told and counted, and with words it stands for none.
    (over(HANDLE, [resource("dimen/own", (ANY, dp(9)))]), (), "unmapped layer 1 dimen/own (default) 9dp\n" + totals(3, 0, 0, 1)),
    (over(HANDLE, [resource("dimen/own", (ANY, dp(9)))]), ("*",), totals(2)),
    (over(HANDLE, [resource("dimen/own", (ANY, dp(9))), resource("dimen/handle", (ANY, dp(8)))]), ("dimen/handle",),
     "overlaid layer 0 dimen/handle (default) 12dp\n" + totals(3, 0, 1)),
    # One row for two ids, one that is unused for the one alone, and one for an id that no base has.
    (mapped([resource("dimen/x", (ANY, dp(3)))], {A: A, B: A}), (),
     "overlaid layer 0 dimen/a (default) 1dp\noverlaid layer 0 dimen/b (default) 2dp\n" + totals(3, 0, 2)),
    (mapped([resource("dimen/x", (ANY, dp(3)))], {NOWHERE: A}), (), totals(3)),
    (mapped([resource("dimen/x", (GREEK, dp(3)))], {NOWHERE: A}), ("0x7f0f0000",), "unused layer 1 dimen/x el 3dp\n" + totals(1, 1, size=16)),
    (
        [*over([resource("dimen/a", (OLDER, dp(1))), resource("dimen/b", (GREEK, dp(2)))])[:1],
         (table([resource("dimen/x", (ANY, dp(3)))]), {A: A, B: A})],
        ("dimen/b",),
        "unused layer 0 dimen/b el 2dp\n" + totals(2, 1, size=16),
    ),
    # Words ask for some. An id that no row stands for asks for nothing.
    (app([resource("dimen/d", (ANY, dp(1)), (GREEK, dp(2))), resource("color/c", (GREEK, BLACK))]), ("color/c", "0x7f020000"),
     "unused layer 0 color/c el #ff000000\n" + totals(1, 1, size=16)),
    (app(APP), ("0x7f7f0000",), totals(0)),
    (app(APP), ("dimen/margin", "dimen/none"), "no resource dimen/none"),
    # Rows that are set aside, also by what they are called where names are shared.
    (scripted(2), (), "unused layer 0 string/s b+sr+Latn 2dp\n" * 2 + totals(3, 2, size=32)),
    (app([resource("dimen/same", (ANY, dp(1))), resource("dimen/same", (GREEK, dp(2)))]), (),
     "unused layer 0 0x7f010001 el 2dp\n" + totals(2, 1, size=16)),
    # Two tables of one package, of which each says what its own ids are called.
    ([*one("dimen/a", dp(1)), *app([resource("dimen/b", (ANY, dp(2)))])], (), "unused layer 1 dimen/b (default) 2dp\n" + totals(2, 1, size=16)),
    (app(HANDLE), (), "node limit", "--max-nodes", "1"),
    (app(HANDLE), (), totals(2), "--max-nodes", "3"),
]


STOPS = "no resource ", "node limit"
CHANGES = "changed", "added", "removed"
FORMS = [("--raw", case) for case in CASES] + [("", case) for case in NOTATED] + [("--json", case) for case in AS_JSON]
"""The cases of changes, and the option by which their lines are asked for."""


def is_one(due, *starts):
    """Whether the status is 1, where it is for lines that start so."""
    return int(due.removeprefix('{"line":"').startswith(starts))


def check_case(program, folder, place):
    """The fault of a case."""
    form, (after, words, due, *before) = FORMS[place]
    write_inputs(folder, before[0] if before else app(APP), after, BOX)
    return fault_of(folder, [program, "diff", *filter(None, [form]), "old", "new", "box", *words], due, is_one(due, *CHANGES, *STOPS))


def check_values(program, folder, place):
    """The same of `values`. The layers that are told in Android's notation stand first."""
    layers, words, due, *form = VALUES[place]
    write_inputs(folder, [], layers, BOX)
    return fault_of(folder, [program, "values", *form, "new", "box", *words], due, is_one(due, *STOPS))


def check_unused(program, folder, place):
    """The same of `unused`."""
    layers, words, due, *limit = UNUSED[place]
    write_inputs(folder, [], layers, BOX)
    status = int("unused layer" in due or due.startswith(("no resource ", "node limit")))
    return fault_of(folder, [program, "unused", *limit, "new", "box", *words], due, status)


def fault_of(folder, command, due, status):
    done = subprocess.run(command, cwd=folder, capture_output=True, text=True)
    lines = done.stdout + done.stderr
    if (lines, done.returncode) == (f"{due}\n", status):
        return ""
    return f"{command[1:]}: status {done.returncode}\n{lines}where this is due, with {status}\n{due}\n"


def main():
    program = os.path.abspath(sys.argv[1])
    with tempfile.TemporaryDirectory() as folder:
        faults = [check_case(program, folder, place) for place in range(len(FORMS))]
        faults += [check_values(program, folder, place) for place in range(len(VALUES))]
        faults += [check_unused(program, folder, place) for place in range(len(UNUSED))]
    print("".join(faults), end="")
    print(f"{len(faults)} cases")
    sys.exit(any(faults))


main()

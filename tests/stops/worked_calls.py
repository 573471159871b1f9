"""Calls of the library that the program does not make, or not so, each on worked rows with its answer there. For calls.py."""
import struct
import sys
from collections import namedtuple
from pathlib import Path

TESTS = Path(__file__).resolve().parent.parent
sys.path.append(str(TESTS))

from made_layers import NamedTable, Resource, ids_of
from plain_bags import Bag
from plain_rules import Record
from small_tables import TABLE_A, TABLE_B, pool_of_letter, pool_of_style, table_of_lines

Row = namedtuple("Row", "name words answer unchanged")
"""The name of a call, the words that the program of calls is given, the lines that it prints, and those that it prints of
what the call is to change where it is refused."""

ID = "0x7f010000"
A, B, C, D = (f"{0x01010001 + place:#010x}" for place in range(4))
ONE, TWO, SEVEN = (f"decimal {word}" for word in (1, 2, 7))
EMPTY = "empty"
STYLED = f"0x01010001@{ID}"
MEDIUM, MEDIUM_BOX, NO_BOX = '{"density":160}', '{"density":[160]}', "{}"
DENSITIES = "0 [density=160] 1\n0 [density=320] 2"
TO_197, TO_198 = ('{"density":{"from":120,"to":%d}}' % last for last in (197, 198))
FRENCH, LOCALES = "0 [locale=fr] 1", "0 [locale=fr] 1\n0 [locale=de] 2"
BOTH_LOCALES = '{"density":[160],"locale":["fr","de"]}'
MANY = 30
"""So many rows that sorting them takes memory."""
BAGS = "1 [] bag 0x00000000 0x01010001=9 0x01010002=2\n0 [] bag 0x7f010001 0x01010001=1 0x01010003=3"
DIFFERENT_BAGS = "0 [] bag 0x00000000 0x01010001=1 0x01010002=2\n1 [] bag 0x00000000 0x01010001=7 0x01010003=3"
STYLES = """\
0 [] bag 0x00000000 0x01010001=1 0x01010002=empty
1 [] bag 0x00000000 0x01010001=2 0x01010002=2 0x01010003=?0x01010001"""
TWO_STYLES = "0 [] bag 0x00000000 0x01010001=1\n1 [] bag 0x00000000 0x01010001=7"
LONG = 12
"""So many bags, each the parent of the one before it, that their list takes memory."""
PARENTS = [f"0x{0x7F010001 + place:08x}" for place in range(LONG - 1)] + ["0x00000000"]
CHAIN = "\n".join(f"{place} [] bag {parent} 0x0101{place:04x}={place}" for place, parent in enumerate(PARENTS))
NO_ROWS = bytes.fromhex("02000c002800000000000000 01001c001c000000") + bytes(20)
"""A table with an empty pool of strings, and no package."""
CUT = NO_ROWS[:39]
DONE, NEGATIVE = "Done", "Negative"


def row(group, name, words, *answer, unchanged=()):
    """Of a group of test_calls. A word is a text, or bytes."""
    words = ["#" + word.hex() if isinstance(word, bytes) else word for word in words]
    return Row(name, [group, name, *words], list(answer), list(unchanged))


def bytes_of_table(table):
    """A table that is given so, or by the lines of its rows."""
    return table if isinstance(table, bytes) else table_of_lines(table)


def over(name, table, words, *answer, unchanged=()):
    """A call over the stack of a table."""
    return row("stacks", name, [bytes_of_table(table), *words], *answer, unchanged=unchanged)


def number(id):
    """An id, as it is shown by its number."""
    return f"ResId({int(id, 16)})"


FIRST = number(ID)


def value(meant):
    return f"value layer 0 {meant}"


def absent(id):
    return f"absent {id}"


def table_named(cells, **kind):
    """A table of the type s, whose entries have these names and cells."""
    resources = [Resource("s", name, [(Record({}), cell)]) for name, cell in cells.items()]
    return NamedTable(resources, ids_of(resources), **kind).bytes


# ---- two resources


CONTENTS = '"contents"'


def difference(table, *answer):
    return over("difference_at", table, [], *answer)


def difference_rows():
    """How entry 1 differs from entry 0: where that names a resource in UTF-16, and where it is a bag whose rows stand in
    another order, of their ids and of their names."""
    yield difference(DIFFERENT_BAGS, *(f'"{word}"' for word in ("changed", "removed", "added")))
    yield difference(table_named({"k": "?s/k", "m": (0x10, 5)}, is_utf16=True), CONTENTS)
    cells = " ".join(f"{0x01010001 + number:#010x}={number}" for number in reversed(range(MANY)))
    yield difference(f"0 [] bag 0x00000000 {cells}\n1 [] 5", CONTENTS)
    rows = {f"n{place * 7 % MANY:02}": (0x10, place) for place in range(MANY)}
    bag = Bag(0, [(f"s/{name}", value) for name, value in rows.items()])
    yield difference(table_named({"k": bag, **rows}), CONTENTS)


# ---- goals, themes and candidates


def theme_rows():
    """The second of two styles: after the first, with force and without, and alone."""
    before = [value(ONE), value(EMPTY), absent(C), absent(D)]
    after = [value(ONE), value(EMPTY), value(ONE), absent(D)]
    forced = [value(TWO)] * 3 + [absent(D)]
    yield over("Theme::apply", STYLES, ["first"], *after, unchanged=before)
    yield over("Theme::apply", STYLES, ["first", "forced"], *forced, unchanged=before)
    yield over("Theme::apply", STYLES, [], *forced, unchanged=map(absent, (A, B, C, D)))


def goal_rows():
    styled = "0 [] bag 0x00000000 0x01010001=1\n0 [density=320] bag 0x00000000 0x01010001=2"
    for table, goal, qualifiers, end in (
        (styled, STYLED, "", value(ONE)),
        (styled, STYLED, "density=198", value(TWO)),
        (TWO_STYLES, f"{STYLED},0x7f010001", "", value(SEVEN)),
        (TWO_STYLES, f"0x01010002@{ID}", "", absent(B)),
        (CHAIN, STYLED, "", value(ONE)),
    ):
        yield over("goal_end", table, [goal, qualifiers], end)


def candidate_rows():
    one, two, three = (f"(Value {{ kind: 16, word: {word} }}, " for word in (1, 2, 3))
    yield over("Live::new", LOCALES, [BOTH_LOCALES], f"{one}false)", f"{two}false)")
    yield over("Live::new", LOCALES, ['{"density":[160],"locale":["de"]}'], f"{two}true)")
    yield over("Live::half", LOCALES, [BOTH_LOCALES], f"{two}true)")
    both_levels = '{"density":[160],"sdk":[19,21],"locale":["fr","de"]}'
    yield over("Live::half", f"{LOCALES}\n0 [locale=de,sdk=21] 3", [both_levels], f"{two}true)", f"{three}false)")


# ---- certificates


def certificate(*goals, version=1):
    return f'{{"goals":[{",".join(goals)}],"version":{version}}}'


def tree(*nodes, id=ID):
    return f'{{"id":"{id}","nodes":[{",".join(nodes)}]}}'


LEAF = '{"kind":16,"layer":0,"word":1}'
NO_GOALS, ONE_LEAF = certificate(), certificate(tree(LEAF))
NODES = (
    '{"atMost":320,"coord":"density"}',
    '{"coord":"night","in":[2,1,2]}',
    '{"kind":16,"layer":63,"word":4294967295}',
    '{"coord":"locale","in":["","fr","fil-PH","es-419"]}',
    '{"bag":"0x7f01000a"}',
)
OF_STYLES = '{"attr":"0x01010001","nodes":[{"bag":"0x7f010000"}],"styles":["0x7f010002","0x7f010001"]}'
UNSTYLED = '{"attr":"0x01010001","nodes":[%s],"styles":[]}'
BLANKS = ' { "version" : 1 , "goals" : [ { "nodes" : [ { "word" : 1 , "layer" : 0 , "kind" : 16 } ] , "id" : "0x7F01000A" } ] } '
WRITTEN = [
    # A certificate, and how it is written.
    *((text, text) for text in (NO_GOALS, ONE_LEAF, certificate(tree(*NODES), tree(id="0x00000000")))),
    (certificate(OF_STYLES, tree(), UNSTYLED % "", version=2),) * 2,
    (certificate(version=2), NO_GOALS),
    (certificate(tree(), version=2), certificate(tree())),
    (BLANKS, certificate(tree(LEAF, id="0x7f01000a"))),
]


def certificate_rows():
    yield from (row("inputs", "Cert::write", [text], written) for text, written in WRITTEN)


# ---- commands over bytes and a writer; after a fault the number of writes is told


def command(name, table, of, *answer, more="", goals=ONE_LEAF, most=""):
    """A command that is asked of a device or a box; of a certificate; of the goals of another; and of so many nodes at most, ten
    where it is not said."""
    return row("commands", name, [bytes_of_table(table), of, goals, more, most], *answer)


def device_rows():
    query = f"{ID} value layer 0 decimal 2", "set-aside 0", DONE
    yield command("query_bytes", "0 [] 1\n0 [density=160] 2", MEDIUM, *query)
    explained = [
        f"lookup {ID}",
        "candidate 0 layer 0 [density=160] first",
        "candidate 1 layer 0 [density=320] took over P15",
        "end value layer 0 decimal 2",
        DONE,
    ]
    yield command("explain_bytes", DENSITIES, '{"density":198}', *explained)
    merged = [f"0x0101000{name} layer 0 decimal {name}" for name in (1, 2, 3)]
    yield command("bag_bytes", BAGS, MEDIUM, *merged, DONE)
    yield command("attr_bytes", STYLES, MEDIUM, "0x01010001 value layer 0 decimal 1", DONE)


def box_rows():
    accepted = "accepted goals 1 nodes 1", "set-aside 0", DONE
    yield command("check_bytes", DENSITIES, TO_197, *accepted, more=ONE_LEAF)
    shown = "first density=198", "second density=197"
    rejected = "rejected goal 0 node 0 N6 MixedTrace", *shown, "set-aside 0", NEGATIVE
    yield command("check_bytes", DENSITIES, TO_198, *rejected, more=ONE_LEAF)
    yield command("check_bytes", DENSITIES, NO_BOX, "(refused: box: Density, 0)", more=ONE_LEAF)
    yield command("check_bytes", DENSITIES, TO_197, "(refused: certificate: Syntax, 0)", more="{")
    counter = "counter goal 0", "device locale=de density=160", f"end absent {ID}", NEGATIVE
    yield command("make_bytes", FRENCH, BOTH_LOCALES, *counter)
    yield command("make_bytes", "0 [] 1", MEDIUM_BOX, ONE_LEAF, DONE)
    yield command("make_bytes", "0 [] 1", NO_BOX, "(refused: box: Density, 0)")


def unasked_rows():
    """No word asks for nothing, nor for an attribute without a style, of which nothing is looked up."""
    script = "0 [] 1\n0 [locale=sr,script=4c61746e] 2"
    for table, aside in ((NO_ROWS, 0), (script, 1)):
        accepted = "accepted goals 0 nodes 0", f"set-aside {aside}", DONE
        yield command("check_bytes", table, MEDIUM_BOX, *accepted, more=NO_GOALS, goals=NO_GOALS)
        yield command("make_bytes", table, MEDIUM_BOX, NO_GOALS, DONE, goals=NO_GOALS, most="0")
    unstyled = certificate(UNSTYLED % LEAF, version=2)
    told = "rejected goal 0 node 0 N7 NoValue", "device density=120", "end absent 0x01010001", "set-aside 0", NEGATIVE
    yield command("check_bytes", TWO_STYLES, TO_198, *told, more=unstyled, goals=unstyled)


# ---- what is lent


BAG_TABLE = table_of_lines("0 [sdk=21] bag 0x7f010003 0x01010001=7 0x01010002=8", strings=pool_of_letter(b"z"))
OTHER_ENTRY = '[["0x7f010000","0x7f010001"]]'
"""An id map in which another entry of the overlay stands for entry 0."""
SPAN, SPANS_END = struct.pack("<III", 0, 1, 2), b"\xff" * 4


def lent_rows():
    """What outlives the table or the stack that lent it, told when these are gone."""
    rows = (f"({number(name)}, Value {{ kind: 16, word: {word} }})" for name, word in ((A, 7), (B, 8)))
    yield row("lent", "Table::all_rows", [BAG_TABLE], f"({FIRST}, 21)", *rows, "Utf8([122])")
    values = (f"Value {{ kind: 16, word: {word} }}" for word in (5, 6))
    yield row("lent", "Stack::candidates", [TABLE_A, table_of_lines("1 [] 6"), OTHER_ENTRY], *values)


def span_rows():
    """The spans of a style: one, one that nothing ends, none; and of styles that are not there."""
    yield row("inputs", "Pool::spans", [pool_of_style(SPAN + SPANS_END), "0"], "Span { name: 0, first: 1, last: 2 }")
    yield row("inputs", "Pool::spans", [pool_of_style(SPAN), "0"], "Cut")
    yield row("inputs", "Pool::spans", [pool_of_style(SPANS_END), "0"])
    for index in ("1", "4294967295"):
        yield row("inputs", "Pool::spans", [pool_of_style(SPANS_END), index], "NoSuch")


def rows():
    """All that take memory."""
    yield from difference_rows()
    yield from theme_rows()
    yield from goal_rows()
    yield from candidate_rows()
    yield from certificate_rows()
    for some in (device_rows, box_rows, unasked_rows):
        yield from some()


WITHOUT_MEMORY = [
    difference("0 [] string\n1 [] 2", CONTENTS),
    difference("0 [] 1\n1 [] 2", CONTENTS),
    over("goal_end", "0 [] @0x7f010001\n1 [] 7", [ID], value(SEVEN)),
    over("goal_end", "0 [] bag 0x00000000", [ID], f"bag {ID}"),
    over("Live::new", LOCALES, ['{"density":[160],"locale":["en"]}']),
    command("check_bytes", CUT, TO_197, "(refused: layer 0 table: Chunk Oversize 0, 0)", more=ONE_LEAF),
    row("inputs", "Stack::push_base", [TABLE_A], "(TooManyLayers, 64, true)"),
    row("inputs", "Stack::push_overlay", [TABLE_A], "(TooManyLayers, 64, true)", f"Some({FIRST})"),
    row("inputs", "Table::find", [TABLE_B], f"(Some({FIRST}), None)"),
    row("inputs", "Chunks::new", [NO_ROWS + TABLE_A], "2", "2"),
    row("inputs", "Device::check", [], "Some(FieldRange layoutDirection)"),
    row("inputs", "Goal::attr", [], f"Some(Attr {{ attr: {number(A)}, styles: [{FIRST}] }})"),
    *span_rows(),
    *lent_rows(),
]
"""Calls that take no memory: of one value, of a box that no candidate matches, of a table that is refused at once, over as many
layers as there can be, of names and chunks, of parts, and of styles; and those of what is lent, to which none is
refused."""


def texts(name, *lines):
    """What faults are shown as for users of the library: of each kind a variant of each shape."""
    return row("texts", f"faults of {name}", [], *lines)


TEXTS = [
    texts(
        "tables",
        "Oversize 4294967643", "Start", "NotEnded", "Short", "ValueSize 7", "Outside",
        "Chunk Oversize 8", "NotTable", "Pool Start 12", "Entry 400",
    ),
    texts(
        "JSON",
        "OutOfMemory", "RegionAlone", "Density", "FieldRange mcc", "Density", "TooMany widthDp", "Version", "Shape 2 10",
        "TooManyLayers", "Syntax", "OtherPackage 0x01010000",
    ),
    texts(
        "commands",
        "TooManyLayers", "BagDepth", "TooLarge", "refused: layers: Shape", "refused: layer 2 table: NotTable",
        "refused: layer 63 map: Syntax", "refused: new layer 63 map: Syntax", "Write",
    ),
]
"""These are named after no call, and take no memory."""


def all_rows():
    return [*rows(), *WITHOUT_MEMORY, *TEXTS]

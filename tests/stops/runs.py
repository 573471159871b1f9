"""Runs of each command, with what the program prints where nothing is refused. For refusals.py."""
import json
import os
import struct
import sys
from collections import namedtuple
from json import dumps

HERE = os.path.dirname(os.path.dirname(os.path.dirname(os.path.abspath(__file__))))
sys.path.append(os.path.join(HERE, "bench"))
from make_rows import chunk

TABLES = os.path.join(HERE, "tests", "tables")
STANDARD_INPUT = "-"

Ended = namedtuple("Ended", "status out err")
"""How a run ends: its status, and what it writes to its two streams."""


class Run:
    """The words, the files that are read for them in their order, and how the program ends; whether that is an answer,
    which it is wherever something is written to standard output."""

    def __init__(self, name, words, files=(), status=0, out="", err="", folder=HERE, given=os.devnull, answers=False):
        self.name, self.words, self.files = name, words, list(files)
        self.ended = Ended(status, out.encode(), err.encode())
        self.folder, self.given = folder, given
        self.is_answer = answers or out != ""

    def has(self, path):
        """Whether this is a file that is there, or the standard input."""
        return path == STANDARD_INPUT or os.path.exists(os.path.join(self.folder, path))


def text_of(*path):
    with open(os.path.join(HERE, *path)) as text:
        return text.read()


def bytes_of(path):
    with open(os.path.join(HERE, path), "rb") as file:
        return file.read()


def lines(*texts):
    return "".join(f"{text}\n" for text in texts)


def json_lines(*said):
    """Lines of JSON, with the members in order and no spaces."""
    return lines(*(json.dumps(line, separators=(",", ":"), sort_keys=True) for line in said))


PORCELAIN = "examples/porcelain/resources.arsc"
LAYERS, PHONE = "examples/porcelain/layers.json", "examples/porcelain/phone.json"
TEAPOT = "examples/teapot/resources.arsc"
LAYER_FILES = [LAYERS, TEAPOT, PORCELAIN, "examples/porcelain/map.json"]
OF_PHONE = [*LAYER_FILES, PHONE]
APKS = ["examples/teapot.apk", "examples/porcelain.apk"]
GERMAN = "config: de-rDE-sw360dp-w360dp-h640dp-normal-port-night-xhdpi-v27"
PHONES = "examples/porcelain/phones.json"
CERTIFICATE, WRONG = "examples/porcelain/certificate.json", "examples/porcelain/wrong.json"
NAMED = "examples/release/goals.txt"
COPPER = "examples/copper/layers.json"
COPPER_FILES = [COPPER, *LAYER_FILES[1:], "examples/copper/resources.arsc", "examples/copper/map.json"]
TABLET = ["rich-overlay.layers.json", "tablet-de.device.json"]
OF_TABLET = [TABLET[0], "rich.arsc", "overlay.arsc", "overlay-map.json", TABLET[1]]
FRENCH = ["rich.layers.json", "phone-fr.device.json"]
OF_FRENCH = [FRENCH[0], "rich.arsc", FRENCH[1]]
TITLE = '0x7f050000 value layer 1 string 1 "Porzellankanne"'
LONG = 200_000
"""Bytes of a file that is read in several pieces."""
MANY = 2000
"""Ids whose answer is written in several pieces."""

CLAIMING = [0, 1, 2] * 334
"""Flags of types that claim entries: their entry offsets have 32 bits, or belong to indexes, or have 16 bits."""

ROWS = lines(
    "row 0x7f020000 [] false",
    "row 0x7f030000 [] argb8 #fff8f4ec",
    "row 0x7f040000 [] dimension 16/2^0 dp",
    "row 0x7f050000 [] string 0",
    "row 0x7f050000 [locale=de] string 1",
    "rows 5 set-aside 0",
)
DUMP = lines(
    'package 0x7f "org.example.porcelain"',
    '  0x7f020000 "bool"/"whistles" flags 0x00000000 [] false',
    '  0x7f030000 "color"/"clay" flags 0x00000000 [] argb8 #fff8f4ec',
    '  0x7f040000 "dimen"/"handle" flags 0x00000000 [] dimension 16/2^0 dp',
    '  0x7f050000 "string"/"title" flags 0x00000004 [] string 0 "Porcelain teapot"',
    '  0x7f050000 "string"/"title" flags 0x00000004 [locale=de] string 1 "Porzellankanne"',
)
MADE_MAP = text_of("examples", "porcelain", "map.json")
WITHOUT_HANDLE = MADE_MAP.replace(' ["0x7f030000","0x7f040000"],\n', "")
LISTED = lines(
    "0x7f020000 color/steam",
    "0x7f020001 color/clay",
    "0x7f020002 color/glaze",
    "0x7f020003 color/ink",
    "0x7f030000 dimen/handle",
    "0x7f030001 dimen/label",
    "0x7f030002 dimen/hairline",
    "0x7f030003 dimen/drip",
    "0x7f040000 fraction/share",
    "0x7f040001 fraction/half_of_parent",
    "0x7f050000 string/title",
    "0x7f050001 string/pour",
    "0x7f050002 string/brand",
    "0x7f060000 bool/whistles",
    "0x7f060001 bool/electric",
    "0x7f070000 integer/cups",
    "0x7f070001 integer/frost",
    "0x7f070002 integer/mask",
    "0x7f070003 integer/pi",
)
EXPLAINED = lines(
    "lookup 0x7f050002",
    "candidate 0 layer 0 [] first",
    "lookup 0x7f050000",
    "candidate 0 layer 0 [] first",
    "candidate 1 layer 0 [locale=de] took over P3",
    "candidate 2 layer 0 [locale=fr-CA] no match locale",
    "candidate 3 layer 1 [] kept out P3",
    "candidate 4 layer 1 [locale=de] took over equal",
    "end value layer 1 string 1",
)


def as_json(line):
    return dumps(line, ensure_ascii=False, separators=(",", ":"), sort_keys=True)


def row_as_json(path, words, **qualifiers):
    return {"config": {"qualifiers": qualifiers, "words": words}, "layer": int(path == PORCELAIN), "path": path}


def string_as_json(text, index):
    return {"stored": {"kind": 3, "word": index}, "string": text, "xml": f'"{text}"'}


def candidate_as_json(words, did, value, row, **reason):
    return as_json({"decision": {"did": did, "words": words, **reason}, "from": row, "holds": {"value": value}, "line": "candidate"})


GERMAN_JUG = string_as_json("Porzellankanne", 1)
END_AS_JSON = {"from": row_as_json(PORCELAIN, "de", locale="de"), "value": GERMAN_JUG}
TO_THE_TITLE = {"reference": "string/title", "stored": {"kind": 1, "word": 0x7F050000}, "xml": "@string/title"}
QUERIED_AS_JSON = lines(
    as_json({"end": END_AS_JSON, "id": "0x7f050000", "line": "end", "name": "string/title"}), '{"count":1,"line":"set-aside"}'
)
EQUAL = "took over: same configuration, of an overlay"
EXPLAINED_AS_JSON = lines(
    as_json({"id": "0x7f050002", "line": "look-up", "name": "string/brand"}),
    candidate_as_json("first", "first", TO_THE_TITLE, row_as_json(TEAPOT, "(default)")),
    as_json({"id": "0x7f050000", "line": "look-up", "name": "string/title"}),
    candidate_as_json("first", "first", string_as_json("Teapot", 0), row_as_json(TEAPOT, "(default)")),
    candidate_as_json(
        "took over: locale (P3)", "took over", string_as_json("Teekanne", 2), row_as_json(TEAPOT, "de", locale="de"), rule="P3"
    ),
    candidate_as_json(
        "no match: locale",
        "no match",
        string_as_json("Théière", 5),
        row_as_json(TEAPOT, "fr-rCA", locale="fr-CA"),
        qualifier="locale",
    ),
    candidate_as_json(
        "kept out: locale (P3)",
        "kept out",
        string_as_json("Porcelain teapot", 0),
        row_as_json(PORCELAIN, "(default)"),
        rule="P3",
    ),
    candidate_as_json(EQUAL, "took over equal", GERMAN_JUG, row_as_json(PORCELAIN, "de", locale="de")),
    as_json({"end": END_AS_JSON, "line": "end"}),
)
IN_NOTATION = {
    "rows": lines(
        "row 0x7f020000 (default) false", "row 0x7f030000 (default) #fff8f4ec", "row 0x7f040000 (default) 16dp",
        'row 0x7f050000 (default) "Porcelain teapot"', 'row 0x7f050000 de "Porzellankanne"', "rows 5 set-aside 0",
    ),
    "dump": lines(
        'package 0x7f "org.example.porcelain"', "  0x7f020000 bool/whistles flags 0x00000000 (default) false",
        "  0x7f030000 color/clay flags 0x00000000 (default) #fff8f4ec", "  0x7f040000 dimen/handle flags 0x00000000 (default) 16dp",
        '  0x7f050000 string/title flags 0x00000004 (default) "Porcelain teapot"',
        '  0x7f050000 string/title flags 0x00000004 de "Porzellankanne"',
    ),
    "explain": lines(
        "string/brand", f"  {TEAPOT}  (default)  @string/title  first", "string/title",
        f'  {TEAPOT}     (default)  "Teapot"            first', f'  {TEAPOT}     de         "Teekanne"          took over: locale (P3)',
        f'  {PORCELAIN}  (default)  "Porcelain teapot"  kept out: locale (P3)',
        f'  {PORCELAIN}  de         "Porzellankanne"    took over: same configuration, of an overlay',
        "  1 more row does not match", f'"Porzellankanne" from {PORCELAIN} de',
    ),
    "bag": lines(
        "0x01010433 @color/accent from rich.arsc", "attr/cardColor #ff111111 from rich.arsc", "attr/cardGap 48dp from rich.arsc",
        "attr/sides 0x5 from rich.arsc", "attr/chained ?attr/cardColor from rich.arsc",
    ),
}
"""What is printed with `--android`."""

BAG = lines(
    "0x01010433 layer 0 @0x7f040002",
    "0x7f010000 layer 0 argb8 #ff111111",
    "0x7f010001 layer 0 dimension 48/2^0 dp",
    "0x7f010004 layer 0 hex 0x00000005",
    "0x7f010005 layer 0 ?0x7f010000",
)


def bits(kind, word):
    return {"kind": kind, "word": word}


BAG_JSON = json_lines(
    *(
        {"from": {"layer": 0, "path": "rich.arsc"}, "id": name, "key": key, "line": "row", "value": {"stored": stored, **value}}
        for name, key, stored, value in (
            ("0x01010433", "0x01010433", bits(1, 0x7F040002), {"reference": "color/accent", "xml": "@color/accent"}),
            ("0x7f010000", "attr/cardColor", bits(28, 0xFF111111), {**bits(28, 0xFF111111), "xml": "#ff111111"}),
            ("0x7f010001", "attr/cardGap", bits(5, 12289), {**bits(5, 12289), "xml": "48dp"}),
            ("0x7f010004", "attr/sides", bits(17, 5), {**bits(17, 5), "xml": "0x5"}),
            ("0x7f010005", "attr/chained", bits(2, 0x7F010000), {"attribute": "attr/cardColor", "xml": "?attr/cardColor"}),
        )
    )
)
DEVICE_198 = "locale=de-AT smallestWidthDp=320 screenSize=2 orientation=1 night=1 density=198 sdk=21"
REJECTED = lines(
    "rejected goal 1 node 0 N6 MixedTrace",
    f"first {DEVICE_198}",
    f"second {DEVICE_198.replace('198', '197')}",
    "set-aside 1",
)
NOTATED = lines(
    "rejected dimen/handle node 0 N6 MixedTrace: devices there come to it by different decisions",
    f"  claimed 16dp from {PORCELAIN}",
    f"  on sw320dp *198dpi* v21: 13dp from {TEAPOT} xhdpi-v4",
    f"  on sw320dp *197dpi* v21: 16dp from {PORCELAIN} (default)",
    "failed 1 of 2 goals",
    "set-aside 1",
)
AT_198 = {"density": 198, "locale": "de-AT", "night": 1, "orientation": 1, "screenSize": 2, "sdk": 21, "smallestWidthDp": 320}
IN_THE_APP = {"config": {"qualifiers": {"density": 320, "sdk": 4}, "words": "xhdpi-v4"}, "layer": 0, "path": TEAPOT}
OF_THE_OVERLAY = {"layer": 1, "path": PORCELAIN}
IN_THE_OVERLAY = {"config": {"qualifiers": {}, "words": "(default)"}, **OF_THE_OVERLAY}
DP_13, DP_16 = ({**bits(5, word), "stored": bits(5, word), "xml": xml} for word, xml in ((3329, "13dp"), (4097, "16dp")))
REJECTED_JSON = json_lines(
    {
        "claimed": {"from": OF_THE_OVERLAY, "value": DP_16},
        "devices": [
            {"device": AT_198, "end": {"from": IN_THE_APP, "value": DP_13}},
            {"device": {**AT_198, "density": 197}, "end": {"from": IN_THE_OVERLAY, "value": DP_16}},
        ],
        "goal": {"id": "0x7f030000", "name": "dimen/handle"},
        "line": "rejected",
        "node": 0,
        "place": 1,
        "rule": "N6",
        "ruleName": "MixedTrace",
    },
    {"failed": 1, "goals": 2, "line": "failed"},
    {"count": 1, "line": "set-aside"},
)
DP_12, DP_24 = ({**bits(5, word), "stored": bits(5, word), "xml": xml} for word, xml in ((3073, "12dp"), (6145, "24dp")))
UNUSED_JSON = json_lines(
    *(
        {"from": row, "id": "0x7f030000", "line": use, "name": "dimen/handle", "overlay": False, "value": value}
        for use, row, value in (
            ("overlaid", row_as_json(TEAPOT, "(default)"), DP_12),
            ("unused", row_as_json(TEAPOT, "sw600dp-v13", sdk=13, smallestWidthDp=600), DP_24),
        )
    ),
    {"bytes": 16, "count": 4, "line": "rows", "overlaid": 1, "unmapped": 0, "unused": 1},
)
MADE = lines(
    '{"goals":[{"id":"0x7f050000","nodes":[{"coord":"locale","in":["de-AT","de-CH","de-DE"]},'
    '{"kind":3,"layer":1,"word":1},{"kind":3,"layer":1,"word":0}]},'
    '{"id":"0x7f030000","nodes":[{"atMost":197,"coord":"density"},'
    '{"kind":5,"layer":1,"word":4097},{"kind":5,"layer":0,"word":3329}]}],"version":1}',
)
COUNTER = lines(
    "counter goal 0",
    "device locale=de-AT smallestWidthDp=320 screenSize=2 orientation=1 night=1 density=120 sdk=21",
    "end absent 0x7f050009",
)
SURVEYED = lines(
    "note layer 0 set-aside 1 first 0x7f050001",
    "note layer 0 locale 2 first 0x7f050001",
    "qualifier locale rows 5 from de to sr",
    "qualifier smallestWidthDp rows 1 from 600 to 600",
    "qualifier orientation rows 1 from 2 to 2",
    "qualifier night rows 1 from 2 to 2",
    "qualifier density rows 1 from 320 to 320",
    "qualifier sdk rows 4 from 4 to 26",
)
SHOWN = lines(
    "goal 0 0x7f050000 string/title nodes 3",
    "0\tif de-rAT,de-rCH,de-rDE",
    '1\t  value layer 1 "Porzellankanne"',
    '2\telse value layer 1 "Porcelain teapot"',
    "goal 1 0x7f030000 dimen/handle nodes 3",
    "0\tif <198dpi",
    "1\t  value layer 1 16dp",
    "2\telse value layer 0 13dp",
    "goals 2",
)
PICTURED = lines(
    "digraph {",
    '  label="goal 1 0x7f030000 dimen/handle";',
    "  node [shape=box];",
    '  n0 [label="density at most 197"];',
    '  n1 [label="value layer 1 dimension 16/2^0 dp"];',
    "  n0 -> n1 [label=yes];",
    '  n2 [label="value layer 0 dimension 13/2^0 dp"];',
    "  n0 -> n2 [label=no];",
    "}",
)
ASIDE = "set-aside 1 1"
TITLE_AS_JSON = (
    '{"line":"changed","name":"string/title","says":{"after":{"value":{"string":"Copper teapot","xml":"\\"Copper teapot\\""}},'
    '"before":{"value":{"string":"Porcelain teapot","xml":"\\"Porcelain teapot\\""}},"devices":{"locale":["en-GB","en-US"]},'
    '"on":"en-rGB,en-rUS"}}'
)
DIFFERENT = lines(
    "changed color/clay #402000 -> #ff7a4a20 on night",
    "changed color/clay #fff8f4ec -> #ffb87333 on notnight",
    'changed string/brand "Porcelain teapot" -> "Copper teapot" on en-rGB,en-rUS',
    'changed string/title "Porcelain teapot" -> "Copper teapot" on en-rGB,en-rUS',
    ASIDE,
    "same 16",
)
TABLELESS = lines(
    "error: the following required arguments were not provided:",
    "  <TABLE>",
    "",
    "Usage: restool rows <TABLE>",
    "",
    "For more information, try '--help'.",
)
LAYERLESS = TABLELESS.replace("TABLE", "LAYERS").replace("rows", "ids")
TWO_LISTS = lines(
    f"error: unexpected argument '{COPPER}' found",
    "",
    "Usage: restool ids <LAYERS>",
    "",
    "For more information, try '--help'.",
)
GOALS = ["0x7f050000", "0x7f030000"]


def claiming_table():
    """A table of types that have no entries, and each claim as many as four bytes can say: hours of work for whom believes
    them."""
    config = struct.pack("<I24x", 28)
    types = [chunk(0x0201, struct.pack("<BBHII", 1, flags, 0, 0xFFFFFFFF, 48) + config, b"") for flags in CLAIMING]
    package = chunk(0x0200, struct.pack("<I", 0x7F) + b"\0" * 276, b"".join(types))
    return chunk(0x0002, struct.pack("<I", 1), package)


def device_runs():
    """Runs of the commands that ask about a device."""
    query = ["query", LAYERS, PHONE]
    yield Run("query", [*query, "0x7f050000"], OF_PHONE, out=lines(TITLE, "set-aside 1"))
    named = TITLE.replace(" ", " string/title ", 1)
    yield Run("query --names", ["query", "--names", *query[1:], "0x7f050000"], OF_PHONE, out=lines(named, "set-aside 1"))
    found = "0x7f060000 value layer 1 false", "0x7f020001 value layer 0 rgb8 #ff402000", "0x7f030000 value layer 0 dimension 13/2^0 dp"
    yield Run("a file of words", [*query, f"@{NAMED}"], [*OF_PHONE, NAMED], out=lines(*found, TITLE, "set-aside 1"))
    absent = "0x7f050009"
    yield Run("absent", [*query, absent], OF_PHONE, 1, lines(f"{absent} absent {absent}", "set-aside 1"))
    yield Run("explain", ["explain", LAYERS, PHONE, "0x7f050002"], OF_PHONE, out=EXPLAINED)
    yield Run("bag", ["bag", *TABLET, "0x7f0c0002"], OF_TABLET, out=BAG, folder=TABLES)
    told = lines(f'string/title "Porzellankanne" from {PORCELAIN} de', "set-aside 1")
    yield Run("query --android", ["query", "--android", *query[1:], "0x7f050000"], OF_PHONE, out=told)
    yield Run("explain --android", ["explain", "--android", LAYERS, PHONE, "0x7f050002"], OF_PHONE, out=IN_NOTATION["explain"])
    yield Run("query --json", ["query", "--json", *query[1:], "0x7f050000"], OF_PHONE, out=QUERIED_AS_JSON)
    yield Run("explain --json", ["explain", "--json", LAYERS, PHONE, "0x7f050002"], OF_PHONE, out=EXPLAINED_AS_JSON)
    yield Run("bag --android", ["bag", "--android", *TABLET, "0x7f0c0002"], OF_TABLET, out=IN_NOTATION["bag"], folder=TABLES)
    yield Run("bag --json", ["bag", "--json", *TABLET, "0x7f0c0002"], OF_TABLET, out=BAG_JSON, folder=TABLES)
    without = json_lines({"fault": "Plain", "line": "no bag"})
    yield Run("no bag as JSON", ["bag", "--json", LAYERS, PHONE, "0x7f050000"], OF_PHONE, 1, without)
    yield Run("no bag", ["bag", LAYERS, PHONE, "0x7f050000"], OF_PHONE, 1, "no bag Plain\n")
    styles = ["0x7f010000", "0x7f0c0000", "0x7f0c0001"]
    value = "0x7f010000 value layer 0 argb8 #"
    yield Run("attr", ["attr", *FRENCH, *styles], OF_FRENCH, out=f"{value}ff000000\n", folder=TABLES)
    yield Run("attr --keep", ["attr", "--keep", *FRENCH, *styles], OF_FRENCH, out=f"{value}ff0277bd\n", folder=TABLES)


def word_runs():
    """Runs whose words are layers, or a device."""
    # What the map of the overlay leaves out is found first.
    yield Run("a word of layers", ["query", "+".join(APKS), PHONE, "0x7f050000"], [*APKS, *APKS, PHONE], out=lines(TITLE, "set-aside 1"))
    yield Run("a device as a word", ["query", LAYERS, GERMAN, "0x7f050000"], LAYER_FILES, out=lines(TITLE, "set-aside 1"))
    said = '"locale":"de-DE","smallestWidthDp":360,"widthDp":360,"heightDp":640,"screenSize":2,"orientation":1,"uiType":1,"night":2'
    yield Run("device", ["device", GERMAN], out=f"{{{said},\"density\":320,\"sdk\":27}}\n")
    yield Run("device --config", ["device", "--config", GERMAN], out=f"{GERMAN}\n")
    yield Run("no word", ["device", "--config", PHONE], [PHONE], 1, err="no word uiType\n")


def layers_runs():
    """Runs of the commands that ask about layers alone."""
    yield Run("ids", ["ids", LAYERS], LAYER_FILES, out=LISTED)
    yield Run("survey", ["survey", LAYERS, PHONES], [*LAYER_FILES, PHONES], out=SURVEYED)
    yield Run("survey without a box", ["survey", LAYERS], LAYER_FILES, out=SURVEYED)
    yield Run("show", ["show", LAYERS, CERTIFICATE], [*LAYER_FILES, CERTIFICATE], out=SHOWN)
    pictured = ["show", "--raw", "--dot", "1", LAYERS, CERTIFICATE]
    yield Run("show --raw --dot", pictured, [*LAYER_FILES, CERTIFICATE], out=PICTURED)
    yield Run("no goal", ["show", "--dot", "2", LAYERS, CERTIFICATE], [*LAYER_FILES, CERTIFICATE], 1, "no goal 2\n")


def box_runs():
    """Runs of the commands that ask about all devices of a box."""
    of_box = [*LAYER_FILES, PHONES]
    accepted = lines("accepted goals 2 nodes 6", "set-aside 1")
    yield Run("check", ["check", LAYERS, PHONES, CERTIFICATE, *GOALS], [*of_box, CERTIFICATE], out=accepted)
    yield Run("rejected", ["check", LAYERS, PHONES, WRONG, *GOALS], [*of_box, WRONG], 1, REJECTED)
    goal = "goal 1 0x7f030000 dimen/handle\n"
    yield Run("check --names", ["check", "--names", LAYERS, PHONES, WRONG, *GOALS], [*of_box, WRONG], 1, REJECTED, goal)
    yield Run("check --json", ["check", "--json", "--all", LAYERS, PHONES, WRONG, *GOALS], [*of_box, WRONG], 1, REJECTED_JSON)
    told = json_lines({"goals": 2, "line": "accepted", "nodes": 6}, {"count": 1, "line": "set-aside"})
    yield Run("accepted as JSON", ["check", "--json", LAYERS, PHONES, CERTIFICATE, *GOALS], [*of_box, CERTIFICATE], out=told)
    yield Run("check --android", ["check", "--android", "--all", LAYERS, PHONES, WRONG, *GOALS], [*of_box, WRONG], 1, NOTATED)
    yield Run("make", ["make", LAYERS, PHONES, *GOALS], of_box, out=MADE)
    yield Run("counter", ["make", LAYERS, PHONES, "0x7f050009"], of_box, 1, COUNTER)
    omit, absent = ["make", "--omit", "--max-nodes", "6", LAYERS, PHONES], "0x7f050009"
    omitted = [COUNTER.replace("counter goal 0", f"omitted goal {place} {absent}") for place in range(5)]
    yield Run("make --omit", [*omit, *[absent] * 5, *GOALS], of_box, out=MADE, err="".join(omitted))
    yield Run("no goal is left", [*omit, absent], of_box, 1, err=omitted[0], answers=True)
    yield Run("make --names", ["make", "--names", *omit[4:], absent], of_box, 1, COUNTER, f"goal 0 {absent}\n")
    yield Run("node limit", ["make", "--max-nodes", "1", LAYERS, PHONES, GOALS[0]], of_box, 1, "node limit\n")


def change_runs():
    """Runs of the commands that compare two stacks on all devices of a box, or tell which rows none loads."""
    change, of_change = [LAYERS, COPPER, PHONES], [*LAYER_FILES, *COPPER_FILES, PHONES]
    yield Run("diff", ["diff", *change], of_change, 1, DIFFERENT)
    title = [line for line in DIFFERENT.splitlines() if "/title" in line]
    yield Run("diff of names", ["diff", *change, "string/title", "dimen/*"], of_change, 1, lines(*title, ASIDE, "same 4"))
    title = [line.replace("en-rGB,en-rUS", "locale=en-GB,en-US") for line in title]
    yield Run("diff --raw", ["diff", "--raw", *change, "string/title", "dimen/*"], of_change, 1, lines(*title, ASIDE, "same 4"))
    counts = '{"line":"set-aside","new":1,"old":1}', '{"count":0,"line":"same"}'
    yield Run("diff --json", ["diff", "--json", *change, "string/title"], of_change, 1, lines(TITLE_AS_JSON, *counts))
    of_same = ["diff", "--max-nodes", "3", LAYERS, LAYERS, PHONES, "string/*"]
    yield Run("diff of the same", of_same, [*LAYER_FILES, *LAYER_FILES, PHONES], out=lines(ASIDE, "same 3"))
    limited = ["diff", "--max-nodes", "1", *change, "string/title"]
    yield Run("node limit of a change", limited, of_change, 1, "node limit\n")
    yield Run("unused --json", ["unused", "--json", LAYERS, PHONES, "dimen/handle"], [*LAYER_FILES, PHONES], 1, UNUSED_JSON)


def stopped_runs():
    """Runs that end with a message."""
    yield Run("no TABLE", ["rows"], status=2, err=TABLELESS)
    yield Run("no LAYERS", ["ids"], status=2, err=LAYERLESS)
    yield Run("two lists of layers", ["ids", LAYERS, COPPER], status=2, err=TWO_LISTS)
    yield Run("bad id", ["explain", LAYERS, PHONE, "7"], status=2, err="command: bad id 7\n")
    yield Run("absent file", ["dump", "absent"], ["absent"], 5, err="file: absent\n")


def write_files(folder, files):
    for name, content in files.items():
        with open(os.path.join(folder, name), "wb") as file:
            file.write(content)


def claiming_runs(folder):
    """A survey of a table that claims entries."""
    write_files(folder, {"claiming": claiming_table(), "of-claiming": b'[{"table":"claiming"}]'})
    surveyed = lines("warning layer 0 16-bit-offsets 334 first 396", "refused: layer 0 table: TypeWithoutSpec 300")
    yield Run("claimed entries", ["survey", "of-claiming"], ["of-claiming", "claiming"], 1, surveyed, folder=folder)
    other = b'[{"table":"other"},{"table":"claiming"}]'
    write_files(folder, {"other": b"PK", "of-other": other})
    message = "refused: layer 0 table: Chunk Truncated 0\n"
    files = ["of-other", "other", "claiming"]
    yield Run("a warning of another layer", ["survey", "of-other"], files, 3, err=message, folder=folder)


def made_runs(folder):
    """Runs on files that are made here. Some have blanks at the ends of their names."""
    whole, target, overlay = (bytes_of(path) for path in ("crates/restool/stdin", TEAPOT, PORCELAIN))
    files = {
        " long ": whole + bytes(LONG - len(whole)),
        "layers": b'[{"table":" long "},{"table":" long ","map":" empty "}]',
        "old": b'[{"table":" long "}]',
        " empty ": b"",
        "device": b'{"density":160}',
        "target": target,
        "misspelled": overlay.replace(b"handle", b"handel"),
    }
    write_files(folder, files)
    yield Run("long file", ["rows", " long "], [" long "], out="rows 0 set-aside 0\n", folder=folder)
    read = ["layers", " long ", " long ", " empty ", "device"]
    line = "refused: layer 1 map: Syntax\n"
    words = ["map", "target", "misspelled"]
    unmapped = 'unmapped 0x7f040000 "dimen"/"handel"\n'
    yield Run("lines of map", words, words[1:], 1, WITHOUT_HANDLE, unmapped, folder)
    blank = ["query", "layers", "device", "@ empty "]
    yield Run("a file without words", blank, [*read, " empty "], 2, err="command: no words in  empty \n", folder=folder)
    of_change = ["old", " long ", *read]
    words = ["diff", "old", "layers", "device"]
    yield Run("refused after a change", words, of_change, 3, err=line.replace("layer", "new layer"), folder=folder)
    yield Run("refused", ["query", "layers", "device", "0x7f010000"], read, 3, err=line, folder=folder)


def runs(folder):
    """All runs. Files that are made for them come into this folder."""
    yield Run("rows", ["rows", PORCELAIN], [PORCELAIN], out=ROWS)
    yield Run("no words", [], [STANDARD_INPUT], out=ROWS, given=os.path.join(HERE, PORCELAIN))
    yield Run("dump", ["dump", PORCELAIN], [PORCELAIN], out=DUMP)
    yield Run("rows --android", ["rows", "--android", PORCELAIN], [PORCELAIN], out=IN_NOTATION["rows"])
    yield Run("dump --android", ["dump", "--android", PORCELAIN], [PORCELAIN], out=IN_NOTATION["dump"])
    yield Run("map", ["map", TEAPOT, PORCELAIN], [TEAPOT, PORCELAIN], out=MADE_MAP)
    yield from layers_runs()
    yield from device_runs()
    yield from word_runs()
    yield from box_runs()
    yield from change_runs()
    yield Run("help", ["query", "--help"], out=text_of("tests", "helps", "query.txt"))
    yield from stopped_runs()
    yield from claiming_runs(folder)
    yield from made_runs(folder)


def long_answer():
    """A run whose answer takes several writes."""
    lines_wanted = [TITLE] * MANY
    return Run("long answer", ["query", LAYERS, PHONE, *["0x7f050000"] * MANY], OF_PHONE, out=lines(*lines_wanted, "set-aside 1"))

#!/usr/bin/env python3
"""Asks the program about what its words name beside the files of the JSON formats: apks, lists of layers, and devices as
`am get-config` prints them. The answers were worked out by hand:

    worked_words.py PROGRAM [JOBS]

The cases are such as worked_rows.py has, and what is printed of them is the same."""
import io
import struct
import warnings
import zipfile

from small_tables import TABLE_A, TABLE_B, changed, table_of_lines
from worked_rows import ID, ONE_ROW, Case, check_groups, files_of, over

# ---- apks

TABLE = "resources.arsc"


def apk_of(members, method=zipfile.ZIP_STORED):
    """An apk of members, each a name and its bytes."""
    out = io.BytesIO()
    with zipfile.ZipFile(out, "w", method) as whole, warnings.catch_warnings():
        warnings.simplefilter("ignore")  # (of two members of one name)
        for name, said in members:
            whole.writestr(name, said)
    return out.getvalue()


def put(apk, signature, place, said):
    """An apk with other bytes at a place of the last record of this signature."""
    start = apk.rfind(signature) + place
    return apk[:start] + said + apk[start + len(said) :]


HEADER, LOCAL, END = b"PK\1\2", b"PK\3\4", b"PK\5\6"
APK = apk_of([("AndroidManifest.xml", b"manifest"), (TABLE, TABLE_A), ("classes.dex", b"code")])
ALONE = apk_of([(TABLE, TABLE_A)])
COMPRESSED = apk_of([(TABLE, TABLE_A)], zipfile.ZIP_DEFLATED)
NO_ZIP, NO_MEMBER = TABLE_A, apk_of([("Resources.arsc", TABLE_A)])

REFUSED = [
    # An apk, and its fault. Of several the first one is told.
    (NO_ZIP, "NotZip"),
    (b"", "NotZip"),
    (APK + b"\0", "NotZip"),
    (put(ALONE, END, 16, struct.pack("<I", 1)), "Directory"),
    (put(ALONE, END, 10, b"\2"), "Directory"),
    (put(ALONE, HEADER, 20, b"\xff\xff\xff\xff"), "Directory"),
    (NO_MEMBER, "NoTable"),
    (apk_of([]), "NoTable"),
    (apk_of([(TABLE, TABLE_A), (TABLE, TABLE_B)]), "Twice"),
    (put(ALONE, HEADER, 8, b"\1"), "Encrypted"),
    (COMPRESSED, "Compressed"),
    (put(put(ALONE, HEADER, 8, b"\1"), HEADER, 10, b"\10"), "Encrypted"),
    (put(ALONE, HEADER, 20, b"\0"), "Member"),
    (put(ALONE, LOCAL, 30, b"R"), "Member"),
    (put(ALONE, LOCAL, 0, b"p"), "Member"),
]

ENDINGS = "a.apk", "a.APK", "a.aPk", "folder.arsc.apk", ".apk"


def of_one_table():
    for ending in ENDINGS:
        yield Case(["rows", ending], ONE_ROW, **{ending: APK})
        yield Case(["dump", ending], "", "refused: apk: NotZip\n", 3, **{ending: TABLE_A})
    # No apk by its path: a table, or refused as one.
    for ending in ("apk", "a.apk.bak", "a.apk ", "a.zip"):
        yield Case(["rows", ending], ONE_ROW, **{ending: TABLE_A})
        yield Case(["rows", ending], "", "refused: table: Chunk HeaderLong 0\n", 3, **{ending: APK})
    for apk, fault in REFUSED:
        yield Case("rows a.apk", "", f"refused: apk: {fault}\n", 3, **{"a.apk": apk})
    # What the member is comes then.
    yield Case("rows a.apk", "", "refused: table: Chunk Truncated 0\n", 3, **{"a.apk": apk_of([(TABLE, b"")])})
    yield Case("rows a.apk", "", "file: a.apk\n", 5)


def listed(*layers):
    """A list of layers, each a path, or the paths of an overlay and its map."""
    named = (layer if isinstance(layer, tuple) else (layer,) for layer in layers)
    return [dict(zip(("table", "map"), paths)) for paths in named]


MEDIUM = {"density": 160}


def says(layer, number):
    """What `query` prints of a number."""
    return f"{ID} value layer {layer} decimal {number}\nset-aside 0\n"


FIVE = says(0, 5)
OVERLAY = table_of_lines("0 [] 9")


def of_layers():
    files = {"a.apk": APK, "b.APK": apk_of([(TABLE, OVERLAY)]), "a.arsc": TABLE_A, "map": [[ID, ID]], "device": MEDIUM}
    query = f"query layers device {ID}"
    for layers, out in ((listed("a.apk"), FIVE), (listed("b.APK", "a.apk"), says(0, 9))):
        yield Case(query, out, layers=layers, **files)
    yield Case(query, says(1, 9), layers=listed("a.arsc", ("b.APK", "map")), **files)
    for apk, fault in REFUSED:
        named = {**files, "b.APK": apk}
        yield Case(query, "", f"refused: layer 1 apk: {fault}\n", 3, layers=listed("a.apk", ("b.APK", "map")), **named)
    # Files are read in the order in which words and lists name them, and an apk is opened as it is read.
    broken = {**files, "b.APK": NO_ZIP}
    yield Case(query, "", "refused: layer 0 apk: NotZip\n", 3, layers=listed("b.APK", "none"), **broken)
    yield Case(query, "", "refused: layer 0 apk: NotZip\n", 3, layers=listed(("b.APK", "none")), **broken)
    yield Case(query, "", "file: none\n", 5, layers=listed("none", "b.APK"), **broken)
    yield Case(f"query layers none {ID}", "", "refused: layer 0 apk: NotZip\n", 3, layers=listed("b.APK"), **broken)
    # A table that is refused is so behind all files.
    yield Case(query, "", "refused: layer 1 apk: NotZip\n", 3, layers=listed("map", "b.APK"), **broken)


def of_two():
    files = {"a.apk": APK, "b.apk": NO_MEMBER, "a.arsc": TABLE_A, "box": {"density": [160]}}
    left = "unmapped 0x7f010000 !NoSuch/!NoSuch\n"
    yield Case("map a.apk a.apk", "[]\n", left, 1, **files)
    yield Case("map a.arsc a.apk", "[]\n", left, 1, **files)
    yield Case("map a.apk a.arsc", "[]\n", left, 1, **files)
    yield Case("map b.apk a.apk", "", "refused: layer 0 apk: NoTable\n", 3, **files)
    yield Case("map a.apk b.apk", "", "refused: layer 1 apk: NoTable\n", 3, **files)
    yield Case("map b.apk none", "", "refused: layer 0 apk: NoTable\n", 3, **files)
    yield Case("map none b.apk", "", "file: none\n", 5, **files)
    for side, old, new in (("old", "b.apk", "a.apk"), ("new", "a.apk", "b.apk")):
        named = {"old": listed(old), "new": listed(new)}
        yield Case("diff old new box", "", f"refused: {side} layer 0 apk: NoTable\n", 3, **named, **files)


# ---- words that are lists of layers

NINE = changed(TABLE_B, (484, "09"))
"""Table B, whose one value is 9."""
WORDS = [
    # A word, and the layer and the number that 0x7f010000 is there. `b` has 5 and `n` 9, both with the names s/k; `a` has 5 and
    # none.
    ("a.apk", 0, 5),
    ("b.arsc", 0, 5),
    ("b.ARSC", 0, 5),
    # The earlier of two bases stays, where neither is better.
    ("b.arsc,n.arsc", 0, 5),
    ("n.arsc,b.arsc", 0, 9),
    ("b.arsc+n.arsc", 1, 9),
    ("b.arsc+n.apk", 1, 9),
    ("b.arsc,b.arsc+n.arsc", 2, 9),
    ("b.arsc+n.arsc,b.arsc", 1, 9),
    ("b.arsc+n.arsc+b.arsc", 2, 5),
    # Nothing of the overlay stands for anything where its names, or those of the target, are not there.
    ("a.apk+n.arsc", 0, 5),
    ("b.arsc+a.apk", 0, 5),
    # An overlay is one of the last base before it.
    ("b.arsc,a.apk+n.arsc", 0, 5),
    # Only the end of the word says that it is a list.
    ("b,n.arsc", 0, 5),
    ("b+n+b.arsc", 2, 5),
]

BROKEN = [
    # A word, the fault, and the status.
    ("none.apk", "file: none.apk", 5),
    ("b.arsc,none.apk", "file: none.apk", 5),
    ("b.arsc,.apk", "file: .apk", 5),
    (",b.arsc", "file: ", 5),
    ("b.arsc++b.arsc", "file: ", 5),
    ("b.arsc,b", "file: b.arsc,b", 5),
    ("b.arsc+b", "file: b.arsc+b", 5),
    ("b.arsc ", "file: b.arsc ", 5),
    ("z.apk", "refused: layer 0 apk: NotZip", 3),
    ("b.arsc+z.apk", "refused: layer 1 apk: NotZip", 3),
    ("b.arsc,short", "file: b.arsc,short", 5),
    ("short.arsc", "refused: layer 0 table: Chunk Truncated 0", 3),
    ("b.arsc,short.arsc", "refused: layer 1 table: Chunk Truncated 0", 3),
    # The map is made where the overlay is read, before the next layer.
    ("b.arsc+short.arsc,none.apk", "refused: layer 1 table: Chunk Truncated 0", 3),
    ("short.arsc+b.arsc,none.apk", "refused: layer 0 table: Chunk Truncated 0", 3),
    ("short.arsc,none.apk", "file: none.apk", 5),
    (",".join(["b.arsc"] * 65), "refused: layers: TooManyLayers", 3),
    ("+".join(["b.arsc"] * 65), "refused: layers: TooManyLayers", 3),
]
FILES = {"a.apk": APK, "b.arsc": TABLE_B, "b.ARSC": TABLE_B, "b": TABLE_B, "n.arsc": NINE, "n": NINE, "n.apk": apk_of([(TABLE, NINE)])}
FILES |= {"z.apk": NO_ZIP, "short.arsc": b"", "short": b"", "box": {"density": [160]}, "device": MEDIUM}


# What is said of the maps that are made. The names of `a` can't be read.
NO_NAMES, NO_TARGET = "unmapped 0x7f010000 !NoSuch/!NoSuch\n", 'unmapped 0x7f010000 "s"/"k"\n'
LEFT = {
    "a.apk+n.arsc": "layer 1 " + NO_TARGET, "b.arsc+a.apk": "layer 1 " + NO_NAMES, "b.arsc,a.apk+n.arsc": "layer 2 " + NO_TARGET,
}


def of_list_words():
    for word, layer, number in WORDS:
        yield Case(["query", word, "device", ID], says(layer, number), LEFT.get(word, ""), **FILES)
    # Of each overlay, by each command, and where the answer says no.
    word = "b.arsc+a.apk+a.apk"
    said = "layer 1 " + NO_NAMES + "layer 2 " + NO_NAMES
    yield Case(["ids", word], f"{ID} s/k\n", said, **FILES)
    yield Case(["query", word, "device", "0x7f020000"], "0x7f020000 absent 0x7f020000\nset-aside 0\n", said, 1, **FILES)
    for place in "old", "new":
        words = [word, "b.arsc"] if place == "old" else ["b.arsc", word]
        of_side = said.replace("layer", f"{place} layer")
        yield Case(["diff", *words, "box"], "same 1\n", of_side, **FILES)
    yield Case(["diff", word, "b.arsc", "box", "s/none"], "", "no resource s/none\n", 1, **FILES)
    yield Case(["query", word, "none", ID], "", "file: none\n", 5, **FILES)
    # Of maps in files nothing is said.
    mapped = listed("b.arsc", ("a.apk", "map"))
    yield Case(f"query list device {ID}", says(0, 5), list=mapped, map=[], **FILES)
    for word, fault, status in BROKEN:
        yield Case(["query", word, "device", ID], "", fault + "\n", status, **FILES)
        of_side = fault.replace("refused: ", "refused: new ")
        yield Case(["diff", "b.arsc", word, "box"], "", of_side + "\n", status, **FILES)
    yield Case("diff --raw b.arsc b.arsc+n.arsc box", "changed s/k decimal 5 -> decimal 9\nsame 0\n", "", 1, **FILES)
    yield Case("ids b.arsc+n.arsc", f"{ID} s/k\n", **FILES)
    # With a map that somebody else made it is the same.
    yield Case(f"query list device {ID}", says(1, 9), list=listed("b.arsc", ("n.arsc", "map")), map=[[ID, ID]], **FILES)
    # No other word is a list: not that of a table alone, nor of a device or a box.
    yield Case(["rows", "b.arsc,n.arsc"], "", "file: b.arsc,n.arsc\n", 5, **FILES)


# ---- devices

LANDSCAPE = "0 [] 1\n0 [orientation=2] 2\n0 [density=320] 3"
ONE, TWO, THREE = says(0, 1), says(0, 2), says(0, 3)

SAID = [
    # A device, and what it loads.
    ("config:port-160dpi", ONE),
    ("config: port-mdpi", ONE),
    ("config:\tmcc310-mnc4-es-rMX-ldltr-sw411dp-w411dp-h731dp-normal-long-notround-lowdr-nowidecg-port-notnight-560dpi-finger-keysexposed-nokeys-navhidden-nonav-v27", THREE),
    ("config: land-160dpi", TWO),
    ("config: 160dpi-land", TWO),
    # A better density is no reason against the orientation, which comes first.
    ("config: xhdpi-land", TWO),
    ("config: xhdpi-land-1440x2560-v27\nabi: arm64-v8a\nrecentConfigs:\n", TWO),
    ("config: land-mdpi\r\n", TWO),
]

UNSAID = [
    # A device, and why it is none.
    ("config:", "Qualifier "),
    ("config: land-mdpi-", "Qualifier "),
    ("config: land-mdpi-port", "Qualifier port"),
    ("config: land-round-mdpi-round", "Qualifier round"),
    ("config: land-medium", "Qualifier medium"),
    ("config: LAND-mdpi", "Qualifier LAND"),
    ("config: land", "Density"),
    ("config: land-mdpi v27", "Qualifier mdpi v27"),
    # In one line, in which nothing passes for another.
    ("config: land-\33[2J-mdpi", 'Qualifier "\\x1b[2J"'),
    ("config: land-a\x0bb-mdpi", 'Qualifier "a\\x0bb"'),
]


def of_devices():
    for word, out in SAID:
        yield over([LANDSCAPE], ["query", "layers", word, ID], out)
    for word, fault in UNSAID:
        for words in (["query", "layers", word, ID], ["explain", "layers", word, ID], ["bag", "layers", word, ID]):
            yield over([LANDSCAPE], words, "", f"refused: device: {fault}\n", 3)
        yield over([LANDSCAPE], ["attr", "layers", word, ID, ID], "", f"refused: device: {fault}\n", 3)
    # It is no file, and a box is none of these.
    yield over([LANDSCAPE], ["query", "layers", "config: land-mdpi", ID], TWO, **{"config: land-mdpi": "{"})
    yield over([LANDSCAPE], ["make", "layers", "config:mdpi", ID], "", "file: config:mdpi\n", 5)
    # Other words name files, also where they hold such a text.
    yield over([LANDSCAPE], ["query", "layers", "Config:mdpi", ID], "", "file: Config:mdpi\n", 5)
    yield over([LANDSCAPE], ["query", "layers", "device", ID], "", "refused: device: Syntax\n", 3, device="config: land-mdpi")
    # The layers are opened first.
    yield Case(["query", "layers", "config: none", ID], "", "refused: layer 0 table: Chunk Truncated 0\n", 3, **files_of([b""]))


FORMS = [
    # A device, and the same as JSON.
    ("config: land-mdpi-v27", '{"orientation":2,"uiType":1,"density":160,"sdk":27}'),
    ("config: v27-mdpi-land", '{"orientation":2,"uiType":1,"density":160,"sdk":27}'),
    (
        "config: mcc310-mnc00-es-r419,en-ldrtl-watch-1440x2560-560dpi",
        '{"mcc":310,"mnc":65535,"locale":"es-419","layoutDirection":2,"uiType":6,"density":560,"width":1440,"height":2560}',
    ),
    (MEDIUM, '{"density":160}'),
    ({"sdk": 0, "density": 160, "locale": ""}, '{"density":160}'),
    ({"minor": 65535, "density": 32767, "mcc": 1}, '{"mcc":1,"density":32767,"minor":65535}'),
]
PRINTED = [
    # A device of JSON, and the same as Android writes it; or what of it no word says.
    ({"density": 160, "uiType": 1}, "config: mdpi\n"),
    ({"density": 560, "uiType": 1, "locale": "es-419", "mnc": 65535, "sdk": 27}, "config: mnc00-b+es+419-560dpi-v27\n"),
    (MEDIUM, "uiType"),
    ({"density": 160, "uiType": 15}, "uiType"),
    ({"density": 160, "uiType": 1, "orientation": 7}, "orientation"),
]

BY_PHONE = ["--locales", "android"]
WRITTEN = [
    # The text of a device, by which rule its locale is read, and how it is written.
    ('{"density":1}', [], '{"density":1}'),
    ('{"density":32767,"mcc":0,"locale":"","minor":0}', [], '{"density":32767}'),
    (' { "sdk" : 27 , "locale" : "fil-PH" , "width" : 5 , "density" : 3.2e2 , "density" : 320 } ', [], '{"locale":"fil-PH","density":320,"width":5,"sdk":27}'),
    ('{"minor":1,"density":160,"mcc":65535}', [], '{"mcc":65535,"density":160,"minor":1}'),
    ('{"density":160,"locale":"es-419"}', [], '{"locale":"es-419","density":160}'),
    ('{"density":160,"locale":"sr-Latn-RS"}', BY_PHONE, '{"locale":"sr-Latn-RS","density":160}'),
    ('{"density":160,"locale":"zh-Hant-HK"}', BY_PHONE, '{"locale":"zh-HK","density":160}'),
    ('{"density":160}', BY_PHONE, '{"density":160}'),
    (
        '{"minor":25,"sdk":24,"height":23,"width":22,"navigation":4,"keyboard":3,"navHidden":2,"keysHidden":3,"touchscreen":3,'
        '"density":16,"night":2,"uiType":7,"orientation":3,"hdr":2,"wideColor":1,"round":2,"long":1,"screenSize":4,"heightDp":7,'
        '"widthDp":6,"smallestWidthDp":5,"layoutDirection":2,"locale":"fr-CA","mnc":2,"mcc":1}',
        [],
        '{"mcc":1,"mnc":2,"locale":"fr-CA","layoutDirection":2,"smallestWidthDp":5,"widthDp":6,"heightDp":7,"screenSize":4,"long":1,'
        '"round":2,"wideColor":1,"hdr":2,"orientation":3,"uiType":7,"night":2,"density":16,"touchscreen":3,"keysHidden":3,'
        '"navHidden":2,"keyboard":3,"navigation":4,"width":22,"height":23,"sdk":24,"minor":25}',
    ),
]


def of_forms():
    for device, text in FORMS:
        word, files = (device, {}) if isinstance(device, str) else ("device", {"device": device})
        yield Case(["device", word], text + "\n", **files)
        # What is printed is read as that device.
        yield Case(["device", "device"], text + "\n", device=text)
    for text, options, written in WRITTEN:
        yield Case(["device", *options, "device"], written + "\n", device=text)
    for device, said in PRINTED:
        out, err, status = (said, "", 0) if said.startswith("config") else ("", f"no word {said}\n", 1)
        yield Case("device --config device", out, err, status, device=device)
        if not status:
            yield Case(["device", "--config", said], said)
    yield Case("device none", "", "file: none\n", 5)
    yield Case("device device", "", "refused: device: Density\n", 3, device={})
    yield Case(["device", "config: land-land"], "", "refused: device: Qualifier land\n", 3)
    yield Case(["device", "--locales", "android", "config: b+sr+Latn-mdpi"], '{"locale":"sr-Latn","uiType":1,"density":160}\n')
    script = {"locale": "sr-Latn", "uiType": 1, "density": 160}
    yield Case("device --config --locales android device", "config: b+sr+Latn-mdpi\n", device=script)


def of_locales():
    """A locale is read by the rule that is asked for."""
    layers = ["0 [] 1\n0 [locale=sr,script=4c61746e,computed=0] 2"]
    word = "config: b+sr+Latn-mdpi"
    yield over(layers, ["query", "--locales", "android", "layers", word, ID], TWO)
    yield over(layers, ["query", "layers", word, ID], "", "refused: device: Qualifier b+sr+Latn\n", 3)
    yield over(layers, ["query", "--locales", "android", "layers", "config: en-rUS,b+sr+Latn-mdpi", ID], ONE)


GROUPS = of_one_table, of_layers, of_two, of_list_words, of_devices, of_forms, of_locales

if __name__ == "__main__":
    check_groups(GROUPS)

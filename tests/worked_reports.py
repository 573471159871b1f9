#!/usr/bin/env python3
"""Asks `restool survey` and `restool show` for reports of small tables and certificates that were worked out by hand:

    worked_reports.py PROGRAM [JOBS]

The cases are such as worked_rows.py has, and what is printed of them is the same. Each survey is asked for as JSON too."""
from json_of_survey import as_json
from small_tables import TABLE_A, TABLE_B, changed, pool_of_string, table_of_lines
from worked_rows import ID, Case, check_groups, files_of, lines

# ---- what chunks, configurations and entries of a table have

OVERLAYABLE = bytes.fromhex("0402080008000000")
"""A chunk that says which resources may be overlaid, of nothing."""
SPARSE, SHORT_OFFSETS = (357, "01"), (357, "02")

FOUND = [
    # What is put into table A, what is found there, once, and where; and why the table is refused, None where it is not.
    ([SHORT_OFFSETS], "16-bit-offsets", 348, None),
    ([(357, "04")], "type-flags", 348, None),
    ([(357, "81")], "type-flags", 348, None),
    ([(387, "03")], "gender", 348, None),
    ([(402, "08")], "compact-entry", 348, None),
    ([(402, "0e10")], "compact-entry", 348, None),
    ([(402, "10")], "entry-flags", 348, None),
    ([(402, "0780")], "entry-flags", 348, "Entry 400"),
    ([(328, "03")], "library", 328, "TypeWithoutSpec 348"),
    ([(328, "05")], "unknown-chunk", 328, "TypeWithoutSpec 348"),
    ([(328, "06")], "staged-alias", 328, "TypeWithoutSpec 348"),
    ([(12, "00")], "unknown-chunk", 12, None),
    ([(41, "01")], "unknown-chunk", 40, None),
    # Of a sparse type the entry is found where its offset, in words, leads to.
    ([SPARSE, (396, "00000100"), (406, "08")], "compact-entry", 348, "Entry 404"),
]

NOTHING_FOUND = [
    TABLE_A,
    # An entry that is public and weak, and none.
    changed(TABLE_A, (402, "06")),
    changed(TABLE_A, (396, "ffffffff")),
]

LONG_CONFIGS = changed(
    bytes(172),
    (0, "02000c00ac"), (12, "00020800a0"), (20, "01024c004c"), (40, "38"), (96, "01024c004c"), (116, "38"),
)
"""Two types, whose configurations of 56 bytes end with a numbering system, in a package whose header is too short."""


PATHS = ["layers0", "layers1"]


def in_both_forms(words, out, status, **files):
    """A survey that is answered, by these words behind `survey`."""
    yield Case(f"survey {words}", out, "", status, **files)
    yield Case(f"survey --json {words}", as_json(out, PATHS), "", status, **files)


def surveyed(table, told, fault=None):
    """A survey of one table. Where it is refused and nothing warns of it, the fault is a message."""
    out = lines([*told, *([f"refused: layer 0 table: {fault}"] if fault else [])])
    if fault and not told:
        return [Case(f"survey {form}layers", "", out, 3, **files_of([table])) for form in ("", "--json ")]
    return in_both_forms("layers", out, int(out.startswith("warning")), **files_of([table]))


def found(name, place, count=1):
    return f"warning layer 0 {name} {count} first {place}"


def of_chunks():
    for pieces, name, place, fault in FOUND:
        yield from surveyed(changed(TABLE_A, *pieces), [found(name, place)], fault)
    with_overlayable = TABLE_A[:328] + OVERLAYABLE + TABLE_A[328:]
    yield from surveyed(changed(with_overlayable, (4, "a801"), (44, "8001")), ["note layer 0 overlayable 1 first 328"])
    # What no device reads alone is no warning.
    yield from surveyed(changed(TABLE_A, (328, "04")), [], "TypeWithoutSpec 348")
    for table in NOTHING_FOUND:
        yield from surveyed(table, [])
    yield from surveyed(TABLE_A[:40], [], "Chunk Oversize 0")
    yield from surveyed(b"", [], "Chunk Truncated 0")
    # The second entry stands where its offset of 16 bits leads to. As offsets of 32 bits both are one, which leads nowhere.
    short = changed(TABLE_A, SHORT_OFFSETS, (360, "02"), (396, "ffff0100"), (406, "08"))
    yield from surveyed(short, [found("16-bit-offsets", 348), found("compact-entry", 348)], "Entry 131471")
    yield from of_long_configurations()


def of_long_configurations():
    fault = "Chunk HeaderShort 12"
    yield from surveyed(LONG_CONFIGS, [], fault)
    yield from surveyed(changed(LONG_CONFIGS, (40 + 49, "01")), [], fault)
    yield from surveyed(changed(LONG_CONFIGS, (40 + 49, "01"), (116 + 55, "6c")), [found("newer-qualifier", 96)], fault)
    both = changed(LONG_CONFIGS, (40 + 49, "0161"), (116 + 55, "6c"))
    yield from surveyed(both, [found("newer-qualifier", 20, 2)], fault)


# ---- rows and their qualifiers, beside a box

THREE_ROWS = "0 [] 1\n0 [density=320] 2\n1 [locale=fr-CA,density=160] 3"
FRENCH_NOTE = "note layer 0 locale 1 first 0x7f010001"
FRENCH_ROWS = ["qualifier locale rows 1 from fr-CA to fr-CA", "qualifier density rows 2 from 160 to 320"]

SURVEYS = [
    # The rows of a base and of an overlay that stands for nothing, a box, None where there is none, and what is printed.
    ("0 [] 1", "0 [] 2", None, []),
    (THREE_ROWS, "0 [orientation=2] 1", None, [
        FRENCH_NOTE, FRENCH_ROWS[0], "qualifier orientation rows 1 from 2 to 2", FRENCH_ROWS[1]]),
    (THREE_ROWS, "0 [] 1", {"density": [160], "locale": ["fr-CA", "de"]}, [FRENCH_NOTE, *FRENCH_ROWS]),
    (THREE_ROWS, "0 [] 1", {"density": [160], "locale": ["de", "fr-FR"]}, [
        FRENCH_NOTE, "warning layer 0 box-locale 1 first 0x7f010001", *FRENCH_ROWS]),
    ("0 [] 1", "0 [night=2,sdk=21] 1\n1 [sdk=26] 1", {"density": [160], "night": {"from": 0, "to": 0}}, [
        "qualifier night rows 1 from 2 to 2", "qualifier sdk rows 2 from 21 to 26", "warning box lacks night",
        "warning box lacks sdk"]),
    ("0 [locale=zh] 1", "0 [locale=tl] 1", {"density": [160], "locale": ["zh-TW"]}, [
        f"note layer 0 locale 1 first {ID}", f"warning layer 0 box-locale 1 first {ID}", f"note layer 1 locale 1 first {ID}",
        "qualifier locale rows 2 from tl to zh"]),
    ("0 [locale=de] 1", "0 [locale=tl] 1", {"density": [160], "locale": ["zh", "fil-PH"]}, [
        f"note layer 1 locale 1 first {ID}", f"warning layer 1 box-locale 1 first {ID}",
        "qualifier locale rows 2 from de to tl"]),
]


def of_surveys():
    for base, overlay, box, told in SURVEYS:
        words, files = ("layers", {}) if box is None else ("layers box", {"box": box})
        status = any(line.startswith("warning") for line in told)
        yield from in_both_forms(words, lines(told), status, **files_of([base, (overlay, [])]), **files)


def of_refused_tables():
    """A value of nine bytes, in a table with offsets of 16 bits and in one without."""
    table = changed(TABLE_A, (408, "09"))
    yield from surveyed(table, [], "Value 408")
    yield from surveyed(changed(table, SHORT_OFFSETS), [found("16-bit-offsets", 348)], "Value 408")


# ---- certificates for people

PORCELAIN = {"version": 1, "goals": [
    {"id": "0x7f050000", "nodes": [
        {"coord": "locale", "in": ["de-AT", "de-CH", "de-DE"]},
        {"layer": 1, "kind": 3, "word": 1}, {"layer": 1, "kind": 3, "word": 0}]},
    {"id": "0x7f030000", "nodes": [
        {"coord": "density", "atMost": 197},
        {"layer": 1, "kind": 5, "word": 4097}, {"layer": 0, "kind": 5, "word": 3329}]},
]}
"""That of examples/porcelain."""
STYLED = {"version": 2, "goals": [
    {"attr": "0x01010001", "styles": [ID, "0x7f010009"], "nodes": [
        {"coord": "night", "in": [1, 0]}, {"coord": "locale", "in": ["", "fr"]},
        {"bag": ID}, {"layer": 5, "kind": 3, "word": 0}]},
]}
"""One of an attribute under styles, whose list ends early."""
LONG = {"version": 1, "goals": [{"id": ID, "nodes": [{"layer": 0, "kind": 16, "word": 7}, {"coord": "sdk", "atMost": 20}]}]}
"""One with a node behind the end of its tree."""

SHOWN = [
    # A certificate, and what is shown of it.
    (PORCELAIN, [
        "goal 0 0x7f050000 nodes 3",
        "0\tif locale one of de-AT de-CH de-DE",
        "1\t  value layer 1 string 1 !NoSuch",
        '2\telse value layer 1 string 0 "A"',
        "goal 1 0x7f030000 nodes 3",
        "0\tif density at most 197",
        "1\t  value layer 1 dimension 16/2^0 dp",
        "2\telse value layer 0 dimension 13/2^0 dp",
        "goals 2"]),
    (STYLED, [
        f"goal 0 0x01010001 under {ID} s/k 0x7f010009 nodes 4",
        "0\tif night one of 1 0",
        "1\t  if locale one of none fr",
        f"2\t    bag {ID} s/k",
        "3\t  else value layer 5 string 0 (no such layer)",
        "\telse ends early",
        "goals 1"]),
    (LONG, [
        f"goal 0 {ID} s/k nodes 2",
        "0\tvalue layer 0 decimal 7",
        "1\tnot reached: if sdk at most 20",
        "goals 1"]),
]

NOTATED = [
    # The same in Android's notation.
    (PORCELAIN, [
        "goal 0 0x7f050000 nodes 3",
        "0\tif de-rAT,de-rCH,de-rDE",
        "1\t  value layer 1 !NoSuch",
        '2\telse value layer 1 "A"',
        "goal 1 0x7f030000 nodes 3",
        "0\tif <198dpi",
        "1\t  value layer 1 16dp",
        "2\telse value layer 0 13dp",
        "goals 2"]),
    (STYLED, [
        f"goal 0 0x01010001 under {ID} s/k 0x7f010009 nodes 4",
        "0\tif notnight,night=0",
        "1\t  if no-locale,fr",
        f"2\t    bag {ID} s/k",
        "3\t  else value layer 5 string 0 (no such layer)",
        "\telse ends early",
        "goals 1"]),
    (LONG, [
        f"goal 0 {ID} s/k nodes 2",
        "0\tvalue layer 0 7",
        "1\tnot reached: if v<21",
        "goals 1"]),
    ({"version": 1, "goals": [{"id": ID, "nodes": [{"layer": 0, "kind": kind, "word": word}]} for kind, word in (
        (1, 0), (1, 0x7F010000), (2, 0x7F010000), (2, 0x01010001), (7, 5), (18, 1), (18, 0xFFFFFFFF))]}, [
        line for place, text in enumerate(("@null", "@s/k", "?s/k", "?0x01010001", "dynamic 0x00000005", "kind 0x12 0x00000001", "true"))
        for line in (f"goal {place} {ID} s/k nodes 1", f"0\tvalue layer 0 {text}")] + ["goals 7"]),
]

PICTURE = [
    "digraph {",
    f'  label="goal 0 0x01010001 under {ID} s/k 0x7f010009";',
    "  node [shape=box];",
    '  n0 [label="night one of 1 0"];',
    '  n1 [label="locale one of none fr"];',
    "  n0 -> n1 [label=yes];",
    f'  n2 [label="bag {ID} s/k"];',
    "  n1 -> n2 [label=yes];",
    '  n3 [label="value layer 5 string 0 (no such layer)"];',
    "  n1 -> n3 [label=no];",
    '  n0no [label="ends early"];',
    "  n0 -> n0no [label=no];",
    "}",
]


NOTATED_PICTURE = [line.replace("night one of 1 0", "notnight,night=0").replace("locale one of none fr", "no-locale,fr") for line in PICTURE]


def of_certificates():
    """Over a base with the names of one resource, and an overlay with one string, which stands for nothing."""
    files = files_of([TABLE_B, (table_of_lines("0 [] string", pool_of_string(b"\1\1A\0")), [])])
    for certificate, told in SHOWN:
        yield Case("show --raw layers certificate", lines(told), certificate=certificate, **files)
    yield Case("show --raw --dot 0 layers certificate", lines(PICTURE), certificate=STYLED, **files)
    for certificate, told in NOTATED:
        yield Case("show layers certificate", lines(told), certificate=certificate, **files)
    yield Case("show --dot 0 layers certificate", lines(NOTATED_PICTURE), certificate=STYLED, **files)
    yield Case("show --dot 1 layers certificate", "no goal 1\n", "", 1, certificate=STYLED, **files)


if __name__ == "__main__":
    check_groups([of_chunks, of_surveys, of_refused_tables, of_certificates])

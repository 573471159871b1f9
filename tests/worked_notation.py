#!/usr/bin/env python3
"""Asks the program in Android's notation about small tables whose answers were worked out by hand:

    worked_notation.py PROGRAM [JOBS]

as worked_rows.py does. The last line is the number of cases."""
from small_tables import TABLE_B, pool_of_string, table_of_lines
from worked_rows import A, B, ID, INHERITED, MEDIUM, SAME, SECOND, Case, check_groups, lines, of_table, over

FRENCH_DAY = {"density": 160, "locale": "fr", "night": 1}
WIDE = table_of_lines("0 [] string\n0 [locale=fr] 5", pool_of_string(b"\x02\x06" + "日本".encode() + b"\0"))


def of_tables():
    told = [f"row {SECOND} (default) bag count 2", f"  {A} 9", f"  {B} 2", f"row {ID} (default) bag parent {SECOND} count 2", f"  {A} 1", "  0x01010003 3"]
    yield of_table(INHERITED, "rows --android", lines([*told, "rows 2 set-aside 0"]))
    told = [f"row {ID} (default) 1", f"row {ID} b+sr+Latn 2", "rows 2 set-aside 1"]
    yield of_table("0 [] 1\n0 [locale=sr,script=4c61746e] 2", "rows --android", lines(told))
    yield of_table(TABLE_B, "dump --android", f'package 0x7f ""\n  {ID} s/k flags 0x00000000 (default) 5\n')
    for rows, told in (
        (f"0 [] @{ID}", f"@{ID}"), ("0 [] @0x00000000", "@null"), ("0 [] 05:801", "8dp"), ("0 [] 04:3fc00000", "1.5"), ("0 [] empty", "@empty"),
        ("0 [] 1d:ffb5651d", "#b5651d"), ("0 [] 11:fa", "0xfa"), ("0 [] string", "!NoSuch 0"), ("0 [] 12:ffffffff", "true"),
    ):
        yield of_table(rows, "rows --android", f"row {ID} (default) {told}\nrows 1 set-aside 0\n")
    attribute = "0 [] bag 0x00000000 0x01000000=10:3 0x01000001=7 0x01000002=9"
    told = [f"row {ID} (default) bag count 3", "  format reference|string", "  min 7", "  max 9", "rows 1 set-aside 0"]
    yield of_table(attribute, "rows --android", lines(told))


def of_ends():
    yield over([TABLE_B], f"query --android layers device s/k {SECOND}", f"s/k 5 from layers0 (default)\n{SECOND} absent {SECOND}\nset-aside 0\n", status=1)
    yield over([f"0 [] bag 0x00000000 {A}=1"], f"query --android layers device {ID}", f"{ID} bag from layers0 (default)\nset-aside 0\n")
    chain = f"0 [] @{SECOND}\n1 [] 1\n1 [density=160] 2"
    yield over([chain], f"query --android layers device {ID}", f"{ID} 2 from layers0 mdpi\nset-aside 0\n")
    circle = f"0 [] @{SECOND}\n1 [] @{ID}"
    yield over([circle], f"query --android layers device {ID}", f"{ID} too many references {SECOND}\nset-aside 0\n", status=1)
    for path, told in (("a b", '"a b"'), ("é", '"é"'), ("a\tb", '"a\\x09b"'), ('"a"', '"a"'), ("a,b+c", "a,b+c")):
        files = {path: TABLE_B, "layers": [{"table": path}], "device": MEDIUM}
        yield Case("query --android layers device s/k", f"s/k 5 from {told} (default)\nset-aside 0\n", **files)


def of_explanations():
    def explained(rows, told, options="", status=0, device=MEDIUM):
        return over(rows, f"explain --android {options}layers device {ID}", lines(told), status=status, device=device)

    rows = "0 [] 1\n0 [locale=de] 22\n0 [night=2] 3"
    told = [ID, "  layers0  (default)  1  first", "  2 more rows do not match", "1 from layers0 (default)"]
    yield explained([rows], told, device=FRENCH_DAY)
    told = [
        ID, "  layers0  (default)  1   first", "  layers0  de         22  no match: locale", "  layers0  night      3   no match: night",
        "1 from layers0 (default)",
    ]
    yield explained([rows], told, "--all ", device=FRENCH_DAY)
    yield explained(["0 [locale=de] 2"], [ID, "  1 row does not match", f"absent {ID}"], status=1)
    yield explained([], [ID, f"absent {ID}"], status=1)
    told = [ID, "  layers0  (default)  1  first", "  layers0  (default)  2  kept out: not better", "1 from layers0 (default)"]
    yield explained(["0 [] 1\n0 [] 2"], told)
    told = [
        ID, "  layers0  (default)  1  first", "  layers1  (default)  2  took over: same configuration, of an overlay",
        "2 from layers1 (default)",
    ]
    yield explained(["0 [] 1", ("0 [] 2", SAME)], told)
    told = [ID, "  layers0  (default)  1  first", "  layers0  b+sr+Latn  2  no match: script or variant", "1 from layers0 (default)"]
    yield explained(["0 [] 1\n0 [locale=sr,script=4c61746e] 2"], told, "--all ")
    told = [ID, '  layers0  (default)  "日本"  first', "  layers0  fr         5       took over: locale (P3)", "5 from layers0 fr"]
    yield explained([WIDE], told, device=FRENCH_DAY)
    told = [ID, "  layers0  (default)  bag  first", "bag from layers0 (default)"]
    yield explained([f"0 [] bag 0x00000000 {A}=1"], told)


def of_bags():
    yield over([INHERITED], f"bag --android layers device {ID}", lines([f"{A} 1 from layers0", f"{B} 2 from layers0", "0x01010003 3 from layers0"]))
    yield over(["0 [] 1"], f"bag --android layers device {ID}", "no bag Plain\n", status=1)
    styles = f"0 [] bag 0x00000000 {A}=1\n1 [] bag 0x00000000 {B}=2\n2 [] bag 0x00000000 {A}=@0x7f010003\n3 [] 7"
    words = f"layers device {A} {ID} {SECOND} 0x7f010002"
    told = [
        A, f"  {ID}  1            layers0  first", f"  {SECOND}                        not set", "  0x7f010002  @0x7f010003  layers0  took over",
        "0x7f010003", "  layers0  (default)  7  first", "7 from layers0 (default)",
    ]
    yield over([styles], f"attr --android {words}", lines(told))
    told = [*told[:3], "  0x7f010002  @0x7f010003  layers0  kept out: set already", "1 from layers0"]
    yield over([styles], f"attr --android --keep {words}", lines(told))
    yield over([styles], f"attr --android layers device {B} {ID}", lines([B, f"  {ID}      not set", f"absent {B}"]), status=1)
    yield over([styles], f"attr --android layers device {A} 0x7f010003", "no bag Plain\n", status=1)


GROUPS = [of_tables, of_ends, of_explanations, of_bags]

if __name__ == "__main__":
    check_groups(GROUPS)

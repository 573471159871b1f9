#!/usr/bin/env python3
"""Asks the program about small tables and texts whose answers were worked out by hand:

    worked_rows.py PROGRAM [JOBS]

Each case has the files that the program reads, its words, and what it is to print to both streams, with which status. A line
`failed: GROUP: ..` says which group of cases has one that is not so. The last line is the number of cases."""
import json
import os
import subprocess
import sys
import tempfile
from concurrent.futures import ThreadPoolExecutor

from made_layers import NamedTable, Pool, Resource, entries_chunk, entry_bytes, ids_of, table_of, type_spec
from plain_bags import Bag
from plain_rules import Record
from small_tables import TABLE_A, TABLE_B, changed, lines_of_chain, pool_of_string, table_of_lines

ID = "0x7f010000"
ANY = Record({})
MEDIUM, FRENCH = {"density": 160}, {"density": 160, "locale": "fr"}
MEDIUM_BOX, TO_198 = {"density": [160]}, {"density": {"from": 120, "to": 198}}
SAME = [[ID, ID]]
"""A map in which entry 0 stands for entry 0."""
A, B, C, D = (f"0x0101000{place}" for place in range(1, 5))


class Case:
    def __init__(self, words, out="", err="", status=0, **files):
        self.words = words.split(" ") if isinstance(words, str) else words
        self.due = out, err, status
        self.files = files

    def answer(self, program, folder):
        for name, said in self.files.items():
            with open(os.path.join(folder, name), "wb") as out:
                out.write(bytes_of(said))
        done = subprocess.run([program, *self.words], cwd=folder, capture_output=True)
        return done.stdout.decode("utf-8", "surrogateescape"), done.stderr.decode(), done.returncode


def bytes_of(said):
    """The bytes of a file: a table, a text, or the JSON of something."""
    if isinstance(said, bytes):
        return said
    return (said if isinstance(said, str) else json.dumps(said)).encode()


def files_of(layers, name="layers"):
    """The files of a list of layers. A layer is a table, or the lines of its rows, and an overlay is that and its map."""
    files, listed = {}, []
    for place, layer in enumerate(layers):
        table, own = layer if isinstance(layer, tuple) else (layer, None)
        files[f"{name}{place}"] = table if isinstance(table, bytes) else table_of_lines(table)
        listed.append({"table": f"{name}{place}"})
        if own is not None:
            files[f"{name}{place}map"] = own
            listed[-1]["map"] = f"{name}{place}map"
    return {**files, name: listed}


def over(layers, words, out="", err="", status=0, device=MEDIUM, **files):
    return Case(words, out, err, status, **files_of(layers), device=device, **files)


def of_table(table, command, out="", err="", status=0):
    table = table if isinstance(table, bytes) else table_of_lines(table)
    return Case(f"{command} table", out, err, status, table=table)


def refused(table, fault):
    """A refused table, asked for in two ways."""
    for command in ("rows", "dump"):
        yield of_table(table, command, "", f"refused: table: {fault}\n", 3)


# ---- one table

NO_ENTRIES = "02021000100000000100000000000000"
"""A type spec that counts no entry."""
THREE_PACKAGES = changed(TABLE_A + 2 * TABLE_A[40:], (4, "9004"))
TWO_SPECS = changed(TABLE_A + bytes.fromhex(NO_ENTRIES) + TABLE_A[348:], (4, "f401"), (44, "cc01"))
BAG_OF_TWO = table_of_lines(f"0 [] bag 0x00000000 {A}=1 {B}=2")
ONE_ROW = f"row {ID} [] decimal 5\nrows 1 set-aside 0\n"
NO_ROW = "rows 0 set-aside 0\n"
INHERITED = f"1 [] bag 0x00000000 {A}=9 {B}=2\n0 [] bag 0x7f010001 {A}=1 {C}=3"
SPARSE = 357, "01"

ROWS = [
    ("0 [density=160] 2\n0 [] 1", f"row {ID} [density=160] decimal 2\nrow {ID} [] decimal 1\nrows 2 set-aside 0\n"),
    (
        "0 [] 1\n0 [locale=sr,script=4c61746e] 2",
        f"row {ID} [] decimal 1\nrow {ID} [locale=sr,script=4c61746e] decimal 2\nrows 2 set-aside 1\n",
    ),
    (
        INHERITED,
        f"row 0x7f010001 [] bag parent 0x00000000 count 2\n  {A} decimal 9\n  {B} decimal 2\n"
        f"row {ID} [] bag parent 0x7f010001 count 2\n  {A} decimal 1\n  {C} decimal 3\nrows 2 set-aside 0\n",
    ),
    (
        "0 [] bag 0x7f010001\n0 [sdk=21] empty",
        f"row {ID} [] bag parent 0x7f010001 count 0\nrow {ID} [sdk=21] empty\nrows 2 set-aside 0\n",
    ),
    # Only the first of these has an id.
    ("65535 [] 7\n65536 [] 8\n65537 [] 9", "row 0x7f01ffff [] decimal 7\nrows 1 set-aside 0\n"),
    (TABLE_A, ONE_ROW),
    (changed(TABLE_A, (340, "00")), NO_ROW),
    (TWO_SPECS, ONE_ROW),
    (THREE_PACKAGES, f"row {ID} [] decimal 5\n" * 3 + "rows 3 set-aside 0\n"),
    (changed(TABLE_A, SPARSE), ONE_ROW),
    (changed(TABLE_A, SPARSE, (396, "01")), NO_ROW),
    # The second offset has index 8, and the same entry.
    (changed(TABLE_A, SPARSE, (360, "02")), ONE_ROW),
]

VALUES = [
    ("00:0", "null"), ("00:1", "empty"), ("00:2", "null 0x00000002"), ("01:7f040002", "@0x7f040002"),
    ("02:01010036", "?0x01010036"), ("03:a", "string 10"), ("04:40490fd0", "float 0x40490fd0"),
    ("05:801", "dimension 8/2^0 dp"), ("05:8010", "dimension 128/2^7 px"), ("05:e66620", "dimension 58982/2^15 px"),
    ("05:fdc00021", "dimension -147456/2^15 dp"), ("05:20000034", "dimension 2097152/2^23 in"), ("05:e02", "dimension 14/2^0 sp"),
    ("05:703", "dimension 7/2^0 pt"), ("05:800000c5", "dimension -8388608/2^0 mm"), ("05:106", "dimension 1/2^0 unit 6"),
    ("06:2a9fbe30", "fraction 2793406/2^23 %"), ("06:40000031", "fraction 4194304/2^23 %p"),
    ("06:ffffff0f", "fraction -1/2^0 unit 15"), ("07:02010003", "dynamic 0x02010003"), ("08:02010003", "kind 0x08 0x02010003"),
    ("10:11", "decimal 17"), ("10:fffffff4", "decimal -12"), ("10:80000000", "decimal -2147483648"),
    ("11:7fffffff", "hex 0x7fffffff"),
    ("12:0", "false"), ("12:ffffffff", "true"), ("1c:ff202020", "argb8 #ff202020"), ("1d:ff0066cc", "rgb8 #ff0066cc"),
    ("1e:88000000", "argb4 #88000000"), ("1f:ff00ff00", "rgb4 #ff00ff00"), ("ff:1", "kind 0xff 0x00000001"),
]

STRINGS = [
    # The bytes of a string, whether its pool is UTF-8, where it stands, and how it is printed.
    (b"\x02\x02Hi\0", True, 0, '"Hi"'),
    (b"\x80\x02\x80\x02Hi\0", True, 0, '"Hi"'),
    (b"\x02\0H\0i\0\0\0", False, 0, '"Hi"'),
    (b"\0\x80\x02\0H\0i\0\0\0", False, 0, '"Hi"'),
    (b"\x02\x02Hi\x01", True, 0, "!NotEnded"),
    (b"\x02\x02Hi", True, 0, "!Cut"),
    (b"\xff\xff\xff\xff", True, 0, "!Cut"),
    (b"\xff\xff\xff\xff", False, 0, "!Cut"),
    (b"\x02\x02Hi\0", True, 0xFFFFFFFF, "!Cut"),
    (b"\x03\x03a\xff\"\0", True, 0, r'"a\xff\""'),
    (b"\x04\x05\xc3\xa9\\\n\x7f\0", True, 0, r'"é\\\x0a\x7f"'),
    (b"\x02\x05\xe2\x82\xe2\x82\xac\0", True, 0, r'"\xe2\x82€"'),
    (b"\x01\0\x00\xd8\0\0", False, 0, r'"\ud800"'),
    (b"\x02\0\x3d\xd8\x00\xde\0\0", False, 0, '"😀"'),
]

NAMES = [
    # What is put into table B, and the names of its row.
    ((), '"s"/"k"'),
    (((308, "0000"),), '!NoSuch/"k"'),
    (((476, "01"),), '"s"/!NoSuch'),
    (((476, "ffffffff"),), '"s"/!NoSuch'),
    (((361, "09"),), '!Cut/"k"'),
    (((399, "01"),), '"s"/!NotEnded'),
]

FAULTS = [
    # A table, what is put into it, and its fault.
    (TABLE_A, [(408, "07")], "Value 408"),
    (TABLE_A, [(336, "00")], "TypeId 328"),
    (TABLE_A, [(368, "1b")], "Config 348"),
    (TABLE_A, [(48, "00")], "PackageId 40"),
    (TABLE_A, [(49, "01")], "PackageId 40"),
    (TABLE_A, [(0, "03")], "NotTable"),
    (TABLE_A, [(340, "ffffffff")], "Offsets 328"),
    (TABLE_A, [(360, "ffffffff")], "Offsets 348"),
    (TABLE_A, [(364, "ffffffff")], "Entry 4294967643"),
    (TABLE_A, [(400, "04")], "Entry 400"),
    (TABLE_A, [(402, "01")], "Entry 400"),
    (TABLE_A, [(356, "02")], "TypeWithoutSpec 348"),
    (TABLE_A, [(42, "1801")], "Chunk HeaderShort 40"),
    (TABLE_A, [(308, "02")], "PackageHeader 40"),
    (TABLE_A, [(308, "20010000")], "PackageHeader 40"),
    (TABLE_A, [(14, "18")], "Pool HeaderSize 12"),
    (TABLE_A, [(20, "01")], "Pool Offsets 12"),
    (TABLE_A, [(20, "ffffffff")], "Pool Offsets 12"),
    (TABLE_A, [(4, "a4")], "Chunk Oversize 0"),
    # What the header of a chunk says, here that of the pool of strings.
    (TABLE_A, [(14, "0400")], "Chunk HeaderShort 12"),
    (TABLE_A, [(14, "2000")], "Chunk HeaderLong 12"),
    (TABLE_A, [(16, "1e")], "Chunk Misaligned 12"),
    (TABLE_A, [(16, "b001")], "Chunk Oversize 12"),
    (TABLE_B, [(308, "1c01")], "PackageHeader 40"),
    (TABLE_B, [(308, "c001")], "PackageHeader 40"),
    (TABLE_B, [(316, "46")], "PackageHeader 40"),
    (TABLE_B, [(364, "02")], "PackageHeader 40"),
    (TABLE_B, [(316, "bc01")], "Chunk Truncated 484"),
    (TABLE_B, [(330, "18")], "Pool HeaderSize 328"),
    (TABLE_B, [(336, "ff")], "Pool Offsets 328"),
    (TABLE_B, [(348, "28")], "Pool Start 328"),
    (TABLE_B, [(366, "18")], "Pool HeaderSize 364"),
    (BAG_OF_TWO, [(424, "08")], "Entry 424"),
    (BAG_OF_TWO, [(424, "14")], "Entry 424"),
    (BAG_OF_TWO, [(436, "03")], "Entry 424"),
    (BAG_OF_TWO, [(436, "ffffffff")], "Entry 424"),
    (BAG_OF_TWO, [(444, "07")], "Value 444"),
    (BAG_OF_TWO, [(456, "09")], "Value 456"),
    (THREE_PACKAGES, [(424, "00")], "PackageId 416"),
    (THREE_PACKAGES, [(712, "00")], "TypeId 704"),
    (THREE_PACKAGES, [(776, "04")], "Entry 776"),
    (THREE_PACKAGES, [(784, "07")], "Value 784"),
    (THREE_PACKAGES, [(418, "1801")], "Chunk HeaderShort 416"),
    (THREE_PACKAGES, [(800, "00")], "PackageId 792"),
    (THREE_PACKAGES, [(1060, "02")], "PackageHeader 792"),
    (THREE_PACKAGES, [(1092, "ffffffff")], "Offsets 1080"),
    (THREE_PACKAGES, [(1152, "04")], "Entry 1152"),
    (THREE_PACKAGES, [(1160, "07")], "Value 1160"),
    # 65535 is an offset like others. Of the indexes of a sparse type two are the same, then fall, also where an entry is wrong.
    (TABLE_A, [SPARSE, (398, "ffff")], "Entry 262540"),
    (TABLE_A, [SPARSE, (360, "02"), (400, "00")], "Offsets 348"),
    (TABLE_A, [SPARSE, (360, "02"), (396, "09")], "Offsets 348"),
    (TABLE_A, [SPARSE, (360, "02"), (396, "0900ffff")], "Offsets 348"),
    (TABLE_A, [SPARSE, (360, "06")], "Offsets 348"),
    (TABLE_A, [SPARSE, (396, "01"), (408, "07")], "Value 408"),
]


def shared_bags(is_sparse, last):
    """40 entries that are one bag of four rows, but the last, which may say another size of its last value."""
    bag = entry_bytes(Bag(0, [(0x01010000, (0x10, place)) for place in range(4)]))
    entries = {place: bag for place in range(39)}
    entries[39] = changed(bag, (56, last))
    return table_of(type_spec(1, 40) + entries_chunk(1, ANY, entries, is_sparse))


def late_entries(lines):
    """A table, with another size of its last entry, and of the value of that."""
    table = table_of_lines(lines)
    for from_end, digits, fault in ((16, "04", "Entry"), (8, "07", "Value")):
        yield from refused(changed(table, (len(table) - from_end, digits)), f"{fault} {len(table) - from_end}")


def of_tables():
    for table, out in ROWS:
        yield of_table(table, "rows", out)
    for text, shown in VALUES:
        yield of_table(f"0 [] {text}", "rows", f"row {ID} [] {shown}\nrows 1 set-aside 0\n")
    head = f'package 0x7f ""\n  {ID} !NoSuch/!NoSuch flags 0x00000000 [] '
    for some, is_utf8, offset, shown in STRINGS:
        table = table_of_lines("0 [] string", pool_of_string(some, is_utf8, offset))
        yield of_table(table, "dump", f"{head}string 0 {shown}\n")
    yield of_table("0 [] 03:ffffffff", "dump", f"{head}string 4294967295 !NoSuch\n")
    for pieces, names in NAMES:
        yield of_table(changed(TABLE_B, *pieces), "dump", f'package 0x7f ""\n  {ID} {names} flags 0x00000000 [] decimal 5\n')
    bag = f'package 0x7f ""\n  {ID} !NoSuch/!NoSuch flags 0x00000000 [night=2] bag parent 0x7f010001 count 1\n    {A} @{ID}\n'
    after = "  0x7f010001 !NoSuch/!NoSuch flags 0x00000000 [] decimal 7\n"
    yield of_table(f"0 [night=2] bag 0x7f010001 {A}=@{ID}\n1 [] 7", "dump", bag + after)
    for table, pieces, fault in FAULTS:
        yield from refused(changed(table, *pieces), fault)
    yield from late_entries("0 [] 1\n300 [] 5")
    yield from late_entries("65535 [] 7\n65536 [] 8\n65537 [] 9")
    yield from of_entries()


def of_entries():
    for is_sparse in (False, True):
        shared = "".join(f"row 0x{0x7F010000 + place:08x} [] bag parent 0x00000000 count 4\n" + "".join(
            f"  0x01010000 decimal {number}\n" for number in range(4)) for place in range(40))
        yield of_table(shared_bags(is_sparse, "08"), "rows", f"{shared}rows 40 set-aside 0\n")
        wrong = shared_bags(is_sparse, "07")
        yield from refused(wrong, f"Value {len(wrong) - 8}")
    five = entry_bytes((0x10, 5))
    entries = entries_chunk(1, ANY, {7: five, 65535: five}, True)
    rows = [f"row {name} [] decimal 5\n" for name in ("0x7f010007", "0x7f01ffff")]
    yield of_table(table_of(type_spec(1, 65536) + entries), "rows", f"{''.join(rows)}rows 2 set-aside 0\n")
    yield of_table(table_of(type_spec(1, 8) + entries), "rows", f"{rows[0]}rows 1 set-aside 0\n")


# ---- one device

SELECTED = [
    # The rows of a base, a device, and the number that it selects for entry 0.
    ("0 [] 1\n0 [density=160] 2", {}, 2),
    ("0 [] 1\n0 [density=160] 2", {"density": 120}, 1),
    ("0 [density=160] 1\n0 [density=320] 2", {"density": 197}, 1),
    ("0 [density=160] 1\n0 [density=320] 2", {"density": 198}, 2),
    ("0 [] 1\n0 [density=320] 2\n0 [density=65535] 3", {"density": 480}, 2),
    ("0 [] 1\n0 [density=65535] 3", {"density": 480}, 3),
    ("0 [density=65535] 1\n0 [density=65534] 2", {}, 2),
    ("0 [density=65534] 1\n0 [density=65535] 2", {}, 1),
    ("0 [keysHidden=1] 1\n0 [] 2", {"keysHidden": 3}, 1),
    ("0 [keysHidden=1] 1\n0 [] 2\n0 [keysHidden=3] 3", {"keysHidden": 3}, 3),
    ("0 [widthDp=600] 1\n0 [heightDp=400] 2", {"widthDp": 600, "heightDp": 400}, 1),
    ("0 [widthDp=400] 1\n0 [heightDp=400] 2", {"widthDp": 600, "heightDp": 400}, 1),
    ("0 [screenSize=1] 1\n0 [] 2", {"screenSize": 1}, 1),
    ("0 [screenSize=1] 1\n0 [] 2", {"screenSize": 2}, 2),
    ("0 [] 1\n0 [locale=sr,script=4c61746e] 2", {"locale": "sr"}, 1),
]

OVERLAID = [
    # The rows of a base and of an overlay, a device's locale, and the layer and the number that it selects.
    ("0 [locale=fr] 1", "0 [locale=fr] 2", "fr", 1, 2),
    ("0 [locale=fr] 1", "0 [] 2", "fr", 0, 1),
    ("0 [locale=fr] 1\n0 [] 3", "0 [] 2", "de", 1, 2),
    # The references of an overlay are followed in the stack.
    ("0 [] 1\n1 [] 7", "0 [] @0x7f010001\n1 [] 9", "", 0, 7),
    ("0 [] 1", "0 [] @0x7f010001\n1 [] 9", "", None, None),
]

ENDS = [
    # The rows of a base, and where entry 0 ends.
    ("0 [] @0x7f010000", "too long 0x7f010000"),
    ("0 [] @0x7f010009", "absent 0x7f010009"),
    ("0 [] @0x7f010001\n1 [] @0x00000000", "value layer 0 @0x00000000"),
    ("0 [] @0x7f010001\n1 [] bag 0x00000000", "bag 0x7f010001"),
    ("0 [] @0x7f010001\n1 [] @0x7f010000", "too long 0x7f010001"),
    (f"{lines_of_chain(20, '@')}20 [] 5", "value layer 0 decimal 5"),
    (f"{lines_of_chain(21, '@')}21 [] 5", "too long 0x7f010015"),
]

EXPLAINED = [
    ("0 [density=160] 1\n0 [density=320] 2", {"density": 198}, [
        f"lookup {ID}", "candidate 0 layer 0 [density=160] first", "candidate 1 layer 0 [density=320] took over P15",
        "end value layer 0 decimal 2"]),
    ("0 [] @0x7f010001\n1 [] 5", {}, [
        f"lookup {ID}", "candidate 0 layer 0 [] first", "lookup 0x7f010001", "candidate 0 layer 0 [] first",
        "end value layer 0 decimal 5"]),
    ("0 [] @0x7f010009", {}, [f"lookup {ID}", "candidate 0 layer 0 [] first", "lookup 0x7f010009", "end absent 0x7f010009"]),
    ("0 [night=2] 1\n0 [locale=sr,script=4c61746e] 2\n0 [] 3\n0 [] 4\n0 [sdk=26] 5", {"locale": "sr", "night": 1, "sdk": 25}, [
        f"lookup {ID}", "candidate 0 layer 0 [night=2] no match night",
        "candidate 1 layer 0 [locale=sr,script=4c61746e] set aside", "candidate 2 layer 0 [] first",
        "candidate 3 layer 0 [] kept out", "candidate 4 layer 0 [sdk=26] no match sdk", "end value layer 0 decimal 3"]),
    ("0 [mcc=310,sdk=26] 1", {"sdk": 25}, [
        f"lookup {ID}", "candidate 0 layer 0 [mcc=310,sdk=26] no match mcc", f"end absent {ID}"]),
    ("0 [] 1\n0 [density=160] 2\n0 [] 3", {}, [
        f"lookup {ID}", "candidate 0 layer 0 [] first", "candidate 1 layer 0 [density=160] took over P15",
        "candidate 2 layer 0 [] took over P15", "end value layer 0 decimal 3"]),
    ("0 [] 1\n0 [density=160] 2\n0 [] 3", {"density": 120}, [
        f"lookup {ID}", "candidate 0 layer 0 [] first", "candidate 1 layer 0 [density=160] kept out P15",
        "candidate 2 layer 0 [] kept out", "end value layer 0 decimal 1"]),
    ("0 [locale=fr] 1\n0 [density=160] 1\n0 [density=320] 2\n0 [density=120] 3", {"density": 198}, [
        f"lookup {ID}", "candidate 0 layer 0 [locale=fr] no match locale", "candidate 1 layer 0 [density=160] first",
        "candidate 2 layer 0 [density=320] took over P15", "candidate 3 layer 0 [density=120] kept out P15",
        "end value layer 0 decimal 2"]),
    ("0 [] 1\n0 [screenSize=2] 2", {"screenSize": 2}, [
        f"lookup {ID}", "candidate 0 layer 0 [] first", "candidate 1 layer 0 [screenSize=2] took over P7",
        "end value layer 0 decimal 2"]),
    (f"0 [] bag 0x00000000 {A}=9", {}, [f"lookup {ID}", "candidate 0 layer 0 [] first", f"end bag {ID}"]),
    ("0 [] @0x7f010000", {}, [f"lookup {ID}", "candidate 0 layer 0 [] first"] * 21 + [f"end too long {ID}"]),
]

SEVERAL = "0 [] @0x7f010001\n1 [] 1\n1 [locale=sr,script=4c61746e] 2\n2 [] bag 0x00000000\n3 [] @0x7f010003"


def lines(some):
    return "".join(f"{line}\n" for line in some)


def is_no_value(end):
    return end.startswith(("absent", "too long"))


def of_devices():
    for rows, device, word in SELECTED:
        out = f"{ID} value layer 0 decimal {word}\nset-aside {'script' in rows:d}\n"
        yield over([rows], f"query layers device {ID}", out, device=MEDIUM | device)
    for base, overlay, locale, layer, word in OVERLAID:
        end = f"value layer {layer} decimal {word}" if word else "absent 0x7f010001"
        files = {"status": not word, "device": MEDIUM | {"locale": locale}}
        yield over([base, (overlay, SAME)], f"query layers device {ID}", f"{ID} {end}\nset-aside 0\n", **files)
    for rows, end in ENDS:
        yield over([rows], f"query layers device {ID}", f"{ID} {end}\nset-aside 0\n", status=is_no_value(end))
    for rows, device, told in EXPLAINED:
        status = is_no_value(told[-1].removeprefix("end "))
        yield over([rows], f"explain layers device {ID}", lines(told), status=status, device=MEDIUM | device)
    for overlay, decided, end in (("[locale=fr] 2", "[locale=fr] took over equal", 1), ("[] 2", "[] kept out P3", 0)):
        told = [f"lookup {ID}", "candidate 0 layer 0 [locale=fr] first", f"candidate 1 layer 1 {decided}"]
        told.append(f"end value layer {end} decimal {end + 1}")
        yield over(["0 [locale=fr] 1", (f"0 {overlay}", SAME)], f"explain layers device {ID}", lines(told), device=FRENCH)
    yield from of_layers()
    yield from of_refused_inputs()


def of_layers():
    both = [SEVERAL, ("0 [variant=7831000000000000] 3", SAME)]
    for ids, ends in (
        (["0x7f010002", "0x7f010001", "0x7f010002"], ["bag 0x7f010002", "value layer 0 decimal 1", "bag 0x7f010002"]),
        ([ID], ["value layer 0 decimal 1"]),
        (["0x7f010003"], ["too long 0x7f010003"]),
        (["0x7f010009", "0x7f010001"], ["absent 0x7f010009", "value layer 0 decimal 1"]),
    ):
        told = [f"{name} {end}" for name, end in zip(ids, ends)] + ["set-aside 2"]
        status = any(map(is_no_value, ends))
        yield over(both, ["query", "layers", "device", *ids], lines(told), status=status, device=MEDIUM | {"locale": "sr"})
    # Of an overlay's ids some stand for others, some for none.
    first = [["0x7f010000", "0x7f010001"]]
    three = ["0 [locale=fr] 1\n1 [] 9\n0 [] 2", ("0 [] 8\n1 [night=2] 3\n1 [] 4", first), ("0 [] 5", [["0x7f010001", ID]])]
    for entry, rows in ((0, ["0 [locale=fr]", "0 []", "1 [night=2]", "1 []"]), (1, ["0 []", "2 []"]), (2, [])):
        name = f"0x7f01000{entry}"
        decided = [["no match locale", "first", "no match night", "took over equal"], ["first", "took over equal"], []][entry]
        told = [f"candidate {place} layer {row} {does}" for place, (row, does) in enumerate(zip(rows, decided))]
        end = ["value layer 1 decimal 4", "value layer 2 decimal 5", f"absent {name}"][entry]
        yield over(three, f"explain layers device {name}", lines([f"lookup {name}", *told, f"end {end}"]), status=not rows)
    for letter, layers in (("b", 1), ("o", 2)):
        base, overlay = (table_of_lines("0 [] string", pool_of_string(b"\1\1" + one + b"\0")) for one in (b"b", b"o"))
        stack = [base, (overlay, SAME)]
        out = f'{ID} value layer {layers - 1} string 0 "{letter}"\nset-aside 0\n'
        yield over(stack[:layers], f"query layers device {ID}", out)
    last = ["1 [] 1"] * 63 + [("1 [] 1", first)]
    yield over(last, f"query layers device {ID}", f"{ID} value layer 63 decimal 1\nset-aside 0\n")
    yield over(["0 [] 1"] * 65, f"query layers device {ID}", "", "refused: layers: TooManyLayers\n", 3)
    named = f"1 [] bag 0x00000000 {ID}=7\n2 [] @{ID}"
    for words, out, status in (
        (f"query --names layers device {ID} 0x7f010001 0x7f010009", [
            f"{ID} s/k value layer 0 decimal 5", "0x7f010001 bag 0x7f010001",
            "0x7f010009 absent 0x7f010009", "set-aside 0"], 1),
        ("explain --names layers device 0x7f010002", [
            "lookup 0x7f010002", "candidate 0 layer 1 [] first", f"lookup {ID} s/k",
            "candidate 0 layer 0 [] first", "end value layer 0 decimal 5"], 0),
        ("bag --names layers device 0x7f010001", [f"{ID} s/k layer 1 decimal 7"], 0),
        (f"attr --names layers device {ID} 0x7f010001", [f"{ID} s/k value layer 1 decimal 7"], 0),
    ):
        yield over([TABLE_B, named], words, lines(out), status=status)


TWICE = [[ID, ID], [ID, "0x7f010001"]]
BAD = changed(TABLE_A, (0, "01"))

REFUSED_LISTS = [
    ("", "Syntax"), ('[{"table":"a"}', "Syntax"), ("{}", "Shape"), ('["a"]', "Shape"), ("[{}]", "Shape"),
    ('[{"map":"m"}]', "Shape"),
    ('[{"table":1}]', "Shape"), ('[{"table":"a","map":null}]', "Shape"), ('[{"table":"a","maps":"m"}]', "Shape"),
    ('[{"table":"a","ma":"m"}]', "Shape"), ('[{"table":"a","map ":"m"}]', "Shape"), ('[["table"]]', "Shape"), ("[null]", "Shape"),
    ('[{"table":"a"},{"table":null}]', "Shape"), ("[" + '{"table":"a"},' * 64 + '{"table":"a"}]', "TooManyLayers"),
    ("[" + '{"table":"a"},' * 64 + "{}]", "Shape"),
]
REFUSED_MAPS = [
    (TWICE, f"Repeated {ID}"), ([[ID, ID], ["0x01010000", "0x7f010001"]], "OtherPackage 0x01010000"), ([["0x7f01"]], "Shape"),
    ("[", "Syntax"), ([*TWICE, []], "Shape"), ({}, "Shape"), ([["0x00000000", ID]] * 2, "Repeated 0x00000000"),
]
REFUSED_CERTIFICATES = [
    ("[", "Syntax"), ({"version": 3, "goals": []}, "Version"), ({"goals": []}, "Version"), ({"version": 1}, "Shape 0 0"),
    ({"version": 1, "goals": [{"id": ID, "nodes": [{"bag": 5}]}]}, "Shape 0 0"),
    ({"version": 1, "goals": [{"id": ID, "nodes": [{"bag": ID}, 5]}]}, "Shape 0 1"),
    ({"version": 1, "goals": [{"attr": A, "styles": [ID], "nodes": []}]}, "Shape 0 0"),
    ({"version": 1, "goals": [{"id": ID, "nodes": [0] * 1000001}]}, "TooManyNodes"),
]


def of_refused_inputs():
    query, check = f"query layers device {ID}", f"check layers box certificate {ID}"
    one = files_of(["0 [] 1"])
    for text, fault in REFUSED_LISTS:
        yield Case(query, "", f"refused: layers: {fault}\n", 3, layers=text)
    for own, fault in REFUSED_MAPS:
        yield over(["0 [] 1", ("0 [] 1", own)], query, "", f"refused: layer 1 map: {fault}\n", 3)
    for certificate, fault in REFUSED_CERTIFICATES:
        yield Case(check, "", f"refused: certificate: {fault}\n", 3, **one, box=MEDIUM_BOX, certificate=certificate)
    for layers, fault in (
        (["0 [] 1", (BAD, TWICE)], "layer 1 table: NotTable"),
        (["0 [] 1", ("0 [] 1", TWICE), BAD], f"layer 1 map: Repeated {ID}"),
        ([BAD] * 64, "layer 0 table: NotTable"),
        ([BAD] * 65, "layers: TooManyLayers"),
    ):
        yield over(layers, query, "", f"refused: {fault}\n", 3, device="")
    yield over(["0 [] 1"], f"explain layers device {ID}", "", "refused: device: Density\n", 3, device={})
    small_map = [["0x7f010000", "0x7F02000a"], ["0x7f010001", "0x01010000"]]
    yield over(["0 [] 1", ("0 [] 2", small_map)], query, f"{ID} value layer 0 decimal 1\nset-aside 0\n")


# ---- bags and themes

STYLES = f"0 [] bag 0x00000000 {A}=1 {B}=empty\n1 [] bag 0x00000000 {A}=2 {B}=2 {C}=?{A}"
FIRST, SECOND, NOWHERE = "0x7f010000", "0x7f010001", "0x7f010009"
PARENTS = lines_of_chain(65, "bag ")
ATTRIBUTES = " ".join(f"0x{0x01010001 + place:08x}=?0x{0x01010002 + place:08x}" for place in range(20))

BAGS = [
    # The rows of a base, and what is printed of the bag of entry 0.
    (INHERITED, [f"{A} layer 0 decimal 1", f"{B} layer 0 decimal 2", f"{C} layer 0 decimal 3"]),
    ("0 [] bag 0x00000000 0x00000005=1 0x00000004=2", ["0x00000005 layer 0 decimal 1", "0x00000004 layer 0 decimal 2"]),
    ("0 [] bag 0x00000000", []),
    ("0 [] bag 0x7f010001", []),
    (f"0 [] bag 0x7f010001 {A}=1\n1 [] @0x7f010002\n2 [] bag 0x00000000 {B}=2", [f"{A} layer 0 decimal 1"]),
    ("1 [] 5", ["no bag Absent"]),
    ("0 [] 5", ["no bag Plain"]),
    ("0 [] bag 0x7f010000", ["no bag BagDepth"]),
    (f"{PARENTS}66 [] 5", []),
    (f"{PARENTS}65 [] 5", []),
    (f"{PARENTS}65 [] bag 0x00000000", ["no bag BagDepth"]),
    (f"{lines_of_chain(64, 'bag ')}64 [] bag 0x00000000 {A}=6", [f"{A} layer 0 decimal 6"]),
]

THEMES = [
    # The rows of a base, words of `attr` behind the device, and where the attribute ends.
    (STYLES, f"--keep {A} {FIRST} {SECOND}", f"{A} value layer 0 decimal 1"),
    (STYLES, f"--keep {B} {FIRST} {SECOND}", f"{B} value layer 0 empty"),
    (STYLES, f"--keep {C} {FIRST} {SECOND}", f"{C} value layer 0 decimal 1"),
    (STYLES, f"--keep {D} {FIRST} {SECOND}", f"{D} absent {D}"),
    (STYLES, f"{A} {FIRST} {SECOND}", f"{A} value layer 0 decimal 2"),
    (STYLES, f"{B} {FIRST} {SECOND}", f"{B} value layer 0 decimal 2"),
    (STYLES, f"{A} {SECOND} {FIRST}", f"{A} value layer 0 decimal 1"),
    (f"0 [] bag 0x00000000\n1 [] bag 0x00000000 {A}=1", f"{A} {FIRST}", f"{A} absent {A}"),
    (f"0 [] bag 0x00000000\n1 [] bag 0x00000000 {A}=1", f"{A} {FIRST} {SECOND}", f"{A} value layer 0 decimal 1"),
    (f"0 [] bag 0x00000000\n1 [] bag 0x00000000 {A}=1", f"{A} {SECOND} {FIRST}", f"{A} value layer 0 decimal 1"),
    (f"0 [] bag 0x00000000 {A}=00:0", f"{A} {FIRST}", f"{A} absent {A}"),
    (f"0 [] bag 0x00000000 {A}=@0x00000000", f"{A} {FIRST}", f"{A} value layer 0 @0x00000000"),
    (f"0 [] bag 0x00000000 {A}=?{B} {B}=@0x7f010005\n5 [] 3", f"{A} {FIRST}", f"{A} value layer 0 decimal 3"),
    (f"0 [] bag 0x00000000 {C}=?{C}", f"{C} {FIRST}", f"{C} too long {C}"),
    (f"0 [] bag 0x00000000 {A}=?{B} {B}=?{A}", f"{A} {FIRST}", f"{A} too long {B}"),
    (f"0 [] bag 0x00000000 {ATTRIBUTES} 0x01010015=5", f"{A} {FIRST}", f"{A} value layer 0 decimal 5"),
    (f"0 [] bag 0x00000000 {ATTRIBUTES} 0x01010015=?0x01010016", f"{A} {FIRST}", f"{A} too long 0x01010016"),
    ("0 [] bag 0x7f010000\n1 [] 5", f"{A} {SECOND} {NOWHERE}", "no bag Plain"),
    ("0 [] bag 0x7f010000\n1 [] 5", f"{A} {NOWHERE} {SECOND}", "no bag Absent"),
    ("0 [] bag 0x7f010000\n1 [] 5", f"{A} {FIRST} {NOWHERE}", "no bag BagDepth"),
]


def behind_references(count):
    return f"99 [] bag 0x00000000 {A}=@0x7f010001\n{lines_of_chain(count, '@')}{count} [] 9"


def of_bags():
    for rows, told in BAGS:
        yield over([rows], f"bag layers device {ID}", lines(told), status=told[:1] != [] and told[0].startswith("no bag"))
    rows = f"1 [] bag 0x00000000 {A}=9 {B}=2\n0 [] bag 0x7f010001 {A}=1"
    both = [rows, (f"0 [] bag 0x00000000 {B}=7", [["0x7f010001", ID]])]
    yield over(both, f"bag layers device {ID}", f"{A} layer 0 decimal 1\n{B} layer 1 decimal 7\n")
    themes = THEMES + [
        (behind_references(20), f"{A} 0x7f010063", f"{A} value layer 0 decimal 9"),
        (behind_references(21), f"{A} 0x7f010063", f"{A} too long 0x7f010015"),
    ]
    for rows, words, told in themes:
        status = told.startswith("no bag") or is_no_value(told.split(" ", 1)[1])
        keep = words.startswith("--keep ")
        words = f"attr {'--keep ' * keep}layers device {words.removeprefix('--keep ')}"
        yield over([rows], words, f"{told}\n", status=status)
    by_density = f"0 [] bag 0x00000000 {A}=1\n0 [density=320] bag 0x00000000 {A}=2"
    for density, number in ((160, 1), (197, 1), (198, 2)):
        out = f"{A} value layer 0 decimal {number}\n"
        yield over([by_density], f"attr layers device {A} {ID}", out, device={"density": density})
    yield from of_styled_goals()


def of_styled_goals():
    """Attributes under styles, for all devices of a box: by a certificate of one leaf, or a device that it fails at."""
    two = f"0 [] bag 0x00000000 {A}=1\n1 [] bag 0x00000000 {A}=7\n2 [] 5\n3 [] bag 0x7f010003"
    circle = "0x7f010003"
    for rows, goal, end in (
        (two, f"{A}@{FIRST},{SECOND}", 7), (two, f"{A}@{SECOND},{FIRST}", 1),
        (two, f"{A}@{NOWHERE}", f"absent {NOWHERE}"), (two, f"{A}@{FIRST},0x7f010002,{circle}", "absent 0x7f010002"),
        (two, f"{A}@{FIRST},{circle},0x7f010002", f"too long {circle}"), (two, f"{B}@{FIRST}", f"absent {B}"),
        (f"{lines_of_chain(64, 'bag ')}64 [] bag 0x00000000 {A}=6", f"{A}@{FIRST}", 6),
        (f"{PARENTS}65 [] bag 0x00000000 {A}=6", f"{A}@{FIRST}", f"too long {FIRST}"),
        (f"{PARENTS}65 [] 5", f"{A}@{FIRST}", f"absent {A}"),
        (behind_references(20), f"{A}@0x7f010063", 9), (behind_references(21), f"{A}@0x7f010063", "too long 0x7f010015"),
    ):
        words = f"make layers box {goal}"
        if isinstance(end, int):
            attr, styles = goal.split("@")
            nodes = [{"kind": 16, "layer": 0, "word": end}]
            goals = [{"attr": attr, "nodes": nodes, "styles": styles.split(",")}]
            out = json.dumps({"goals": goals, "version": 2}, separators=(",", ":")) + "\n"
            yield over([rows], words, out, box=MEDIUM_BOX)
        else:
            yield over([rows], words, f"counter goal 0\ndevice density=160\nend {end}\n", status=1, box=MEDIUM_BOX)


# ---- words

NO_NAMES = ["", "margin", "dimen/", "/margin", "*/*", "dimen/m*", "a,b/c"]
NO_NAMES += [":dimen/margin", "android:/margin", "android:margin", "android:*", "a@b:dimen/margin", "a*:dimen/*", "::/x"]
NO_NAMES += ["0x7f01", "0X7f010000", "0x7f0100000", "0x7f01000g", "0x+f010000"]
NO_GOALS = [
    "margin", "0x7f01", "0x7f010000,0x7f010001", "attr/a@", "0x01010001@", "attr/*@style/Theme", "attr/a@style/*",
    "attr/a@style/Theme,", "attr/a@,style/Theme", "0x01010001@0x7f010000 ,0x7f010001", "attr/a@style/Theme@style/Other",
    "attr/a@@Style/Theme", "attr/a@@@style/Theme", "attr/a@@style/*", "0x0101000g@0x7f010000", f"{A}@{','.join([ID] * 65)}", f"{A}@{','.join([ID] * 65)},style/Theme",
]
WORD_FILES = [
    ("dimen/a", ["dimen/a"]), ("dimen/a\r\n*\r\n", ["dimen/a", "*"]), (" dimen/a\t\n\n  # more\n\u3000*\n", ["dimen/a", "*"]),
    ("\ufeffdimen/a", ["dimen/a"]), ("\ufeff# more\n*", ["*"]), ("dimen/a\ndimen/b # more", ["dimen/a", "dimen/b # more"]),
]


def bad(words, word):
    return Case(words, "", f"command: bad id {word}\n", 2)


def of_words():
    for word in NO_NAMES:
        yield bad(["query", "absent", "absent", word], word)
        yield bad(["explain", "absent", "absent", word], word)
    for word in ("dimen/*", "*", "android:dimen/*", "@ids.txt", "@style/*", "@Style/Theme", "@style/", "@android:/x", "@attr/a@style/b"):
        yield bad(["explain", "absent", "absent", word], word)
    for word in NO_GOALS:
        yield bad(["make", "absent", "absent", word], word)
    yield Case(["make", "absent", "absent", f"{A}@{','.join([ID] * 64)}"], "", "file: absent\n", 5)
    for path in (
        "ids.txt", "0x7f01000", "0x7f010000,", "./0x7f010000", "./style/Theme", "lists/a", "Style/Theme", "style/", "/style/Theme",
        "style/a,b", "style/*", ":style/a", "lists:style", "a:lists/b",
    ):
        yield over(["0 [] 1"], f"query layers device @{path}", "", f"file: {path}\n", 5)
    two = named_table({"dimen/a": 1, "dimen/b # more": 2})
    for text, words in WORD_FILES:
        ids = [name for word in words for name in {"dimen/a": (FIRST,), "*": (FIRST, SECOND)}.get(word, (SECOND,))]
        out = lines([f"{name} value layer 0 decimal {1 + (name == SECOND)}" for name in ids] + ["set-aside 0"])
        yield over([two], "query layers device @list", out, list=text)
    for text in ("", " \t\r\n\n", "# more\n\t#", "\ufeff"):
        yield over([two], "query layers device @list", "", "command: no words in list\n", 2, list=text)
    for text, word in (("dimen/a\r*", r'"dimen/a\x0d*"'), ("\ufeff\ufeff*", "\ufeff*"), ("*\n\ufeff*", "\ufeff*")):
        yield over([two], "query layers device @list", "", f"command: bad id {word}\n", 2, list=text)
    slashed = named_table({"dimen/a/b": 3})
    yield over([slashed], "query layers device dimen/a/b", f"{FIRST} value layer 0 decimal 3\nset-aside 0\n")


def resource_of(name, cell):
    cell = (0x10, cell) if isinstance(cell, int) else cell
    return Resource(*name.split("/", 1), [] if cell is None else [(ANY, cell)])


def resources_of(cells):
    return [resource_of(name, cell) for name, cell in cells.items()]


def named_table(cells, package_id=0x7F, ids=None, name=""):
    """A table of resources by their names, in their order; where the cell is None, one without a row."""
    resources = resources_of(cells)
    return NamedTable(resources, ids or ids_of(resources, package_id), package_id, name=name).bytes


def letters(package, entry, type_id=1):
    """Table B as one of another package, entry name and type."""
    digits = f"{type_id:02x}"
    pieces = (48, f"{package:02x}"), (398, entry.encode().hex()), (324, f"{type_id - 1:02x}"), (408, digits), (428, digits)
    return changed(TABLE_B, *pieces)


def of_names():
    """The app with s/k, an overlay with s/o, the system with s/m, and a library with s/k again."""
    app = [letters(0x7F, "k"), (letters(0x7F, "o"), SAME), letters(0x01, "m"), letters(0x02, "k")]
    system, library = "0x01010000", "0x02010000"
    for words, ids in (
        (["0x7f:s/k"], [ID]), (["s/m"], [system]), (["s/*"], [system, library, ID]), (["*"], [system, library, ID]),
        (["0x02:s/k", "0x01:s/m", "0x7F:s/k"], [library, system, ID]), (["0x02:s/*"], [library]),
    ):
        told = [f"{name} value layer {(system, library).index(name) + 2 if name != ID else 1} decimal 5" for name in ids]
        yield over(app, ["query", "layers", "device", *words], lines(told + ["set-aside 0"]))
    two = "two resources s/k: 0x7f:s/k, 0x02:s/k\n"
    for words in (["s/k"], ["s/m", "s/k", "s/x"], ["s/*", "s/k"]):
        yield over(app, ["query", "layers", "device", *words], "", two, 1)
    yield over(app, "explain layers device s/k", "", two, 1)
    yield over(app, "query layers device s/x s/k", "", "no resource s/x\n", 1)
    for word in ("s/k", "0x7f010000@s/k", "s/k@s/m"):
        yield over(app, ["make", "layers", "box", word], "", two, 1, box=MEDIUM_BOX)
    yield over(app, "query layers device 0x12345678", "0x12345678 absent 0x12345678\nset-aside 0\n", status=1)
    for word in ("s/o", "s/x", "k/s", "t/*", "0x01:s/k", "0x03:s/k", "0x01:t/*", "0x03:s/*", "android:s/m", "android:s/*"):
        yield over(app, f"query layers device 0x7f:s/k {word} s/y", "", f"no resource {word}\n", 1)
    yield over([], "query layers device *", "", "no resource *\n", 1)
    for words, missing in ((["s/m@s/y", "t/*"], "s/y"), (["s/x@s/y"], "s/x"), (["0x7f:s/k", "t/*", "s/x"], "t/*")):
        yield over(app, ["make", "layers", "box", *words], "", f"no resource {missing}\n", 1, box=MEDIUM_BOX)
    goals = '{"goals":[{"id":"0x7f010000","nodes":[{"kind":16,"layer":1,"word":5}]}],"version":1}\n'
    yield over(app, "make layers box 0x7f:s/k", goals, box=MEDIUM_BOX)
    counter = f"counter goal 0\ndevice density=160\nend absent {ID}\n"
    yield over(app, "make layers box s/m@0x7f:s/k,0x7f030001", counter, status=1, box=MEDIUM_BOX)
    for name, ids in (("s/k", ID), ("s/x", None), ("k/k", None), ("k/s", None)):
        out = f"{ids} value layer 0 decimal 5\nset-aside 0\n" if ids else ""
        yield over([TABLE_B], f"query layers device {name}", out, "" if ids else f"no resource {name}\n", int(not ids))
    # aapt2 writes a character above U+FFFF as two surrogates of three bytes.
    for name, words in (("\ud83d\ude00", "s/😀"), ("😀", "s/😀"), ("\ud83d\ude00", "s/*")):
        for is_utf16 in (False, True):
            table = NamedTable([Resource("s", name, [(ANY, (0x10, 5))])], {}, is_utf16=is_utf16).bytes
            yield over([table], f"query layers device {words}", f"{ID} value layer 0 decimal 5\nset-aside 0\n")
    half = NamedTable([Resource("s", "\ud83d", [(ANY, (0x10, 5))])], {}).bytes
    yield over([half], ["query", "layers", "device", "s/\ufffd"], "", "no resource s/\ufffd\n", 1)
    sparse = changed(TABLE_B, (357 + 72, "01"))
    yield over([sparse], "query layers device s/k", f"{ID} value layer 0 decimal 5\nset-aside 0\n")
    yield over([changed(sparse, (396 + 72, "01"))], "query layers device s/k", "", "no resource s/k\n", 1)


def of_packages():
    """A framework, an app in two layers of which the second has another name, and a library that has the name of the app."""
    def table(cells, number, name):
        resources = resources_of(cells)
        return NamedTable(resources, ids_of(resources, number), number, name=name).bytes

    layers = [
        table({"string/cancel": 1, "string/a:b": 2}, 0x01, "android"), table({"string/title": 3, "string/cancel": 4}, 0x7F, "org.example"),
        table({"string/title": 5, "string/cancel": 6}, 0x7F, "org.example.split"), table({"string/title": 7, "dimen/d": 8}, 0x02, "org.example"),
    ]
    for word, found in (
        ("android:string/cancel", "0x01010000 value layer 0 decimal 1"), ("@android:string/cancel", "0x01010000 value layer 0 decimal 1"),
        ("0x01:string/cancel", "0x01010000 value layer 0 decimal 1"), ("@0x7f:string/cancel", "0x7f010001 value layer 1 decimal 4"),
        ("org.example.split:string/cancel", "0x7f010001 value layer 1 decimal 4"),
        ("org.example:string/cancel", "0x7f010001 value layer 1 decimal 4"), ("@string/a:b", "0x01010001 value layer 0 decimal 2"),
        ("android:string/a:b", "0x01010001 value layer 0 decimal 2"), ("org.example:dimen/d", "0x02020000 value layer 3 decimal 8"),
        ("org.example:dimen/*", "0x02020000 value layer 3 decimal 8"), ("@dimen/d", "0x02020000 value layer 3 decimal 8"),
    ):
        yield over(layers, ["query", "layers", "device", word], f"{found}\nset-aside 0\n")
        yield over(layers, ["query", "layers", "device", "@./list"], f"{found}\nset-aside 0\n", list=word)
    for word, names in (
        ("string/cancel", "android:string/cancel, 0x7f:string/cancel"), ("@string/cancel", "android:string/cancel, 0x7f:string/cancel"),
        ("org.example:string/title", "0x7f:string/title, 0x02:string/title"), ("string/title", "0x7f:string/title, 0x02:string/title"),
    ):
        yield over(layers, ["query", "layers", "device", word], "", f"two resources {word.removeprefix('@')}: {names}\n", 1)
    alone = layers[:2]
    yield over(alone, "query layers device string/cancel", "", "two resources string/cancel: android:string/cancel, org.example:string/cancel\n", 1)
    for word in ("org.example:string/a:b", "org:string/cancel", "Android:string/cancel", "0x02:string/cancel", "org.example.split:string/title"):
        yield over(alone, ["query", "layers", "device", word], "", f"no resource {word}\n", 1)


# ---- ids

def of_ids():
    def listed(layers, *told):
        return Case("ids layers", lines(told), **files_of(layers))

    two = named_table({"s/a": 1, "s/b": 2})
    yield listed([changed(two, (len(two) - 12, "ff"))], f"{FIRST} s/a", SECOND)
    yield listed(["1 [night=2] 7\n0 [] bag 0x00000000\n1 [] 7"], FIRST, SECOND)
    yield listed([named_table({"s/a": None, "s/b": 2})], f"{SECOND} s/b")
    # An overlay has no ids of its own, also where one stands for an id of the base.
    own = [[FIRST, SECOND]]
    yield listed([letters(0x7F, "k"), (two, own)], f"{FIRST} s/k")
    yield listed([(two, own)])
    # The first base layer names what is in both.
    first, last = letters(0x7F, "k"), letters(0x7F, "m")
    yield listed([first, last], f"{FIRST} s/k")
    yield listed([last, first], f"{FIRST} s/m")
    yield listed([two, last], f"{FIRST} s/a", f"{SECOND} s/b")
    yield listed([last, two], f"{FIRST} s/m", f"{SECOND} s/b")
    of_packages = "0x01010000 0x01:s/m", "0x02010000 0x02:s/k", f"{FIRST} 0x7f:s/k"
    yield listed([letters(0x7F, "k"), letters(0x02, "k"), letters(0x01, "m")], *of_packages)
    yield listed([])
    yield listed([""])
    broken = changed(TABLE_B, (0, "03"))
    for layers, fault in (
        ([two, broken], "layer 1 table: NotTable"), ([broken, (two, "{")], "layer 0 table: NotTable"),
        ([two, (two, "{")], "layer 1 map: Syntax"), ([two] * 65, "layers: TooManyLayers"),
    ):
        yield Case("ids layers", "", f"refused: {fault}\n", 3, **files_of(layers))


# ---- maps

def of_maps():
    """Overlays of s/a, s/b and s/c, the last value of which is a reference to the resource of some index."""
    target = named_table({"s/a": 5, "s/b": 5, "s/c": 5})
    first, second, third = "0x7f010000", "0x7f010001", "0x7f010002"
    for names, index, pairs, told in (
        ("bdc", 0, [(second, first), (third, third)], [
            f'unmapped {second} "s"/"d"', f'astray {third} "s"/"c" to {first} "s"/"b"']),
        ("bac", 2, [(first, second), (second, first), (third, third)], []),
        ("ccd", 0, [(third, first)], [f'unmapped {second} "s"/"c"', f'unmapped {third} "s"/"d"']),
        ("xyz", 0, [], [f'unmapped 0x7f01000{place} "s"/"{name}"' for place, name in enumerate("xyz")]),
    ):
        resources = [Resource("s", name, [(ANY, (0x10, 5))]) for name in names[:2]]
        resources.append(Resource("s", names[2], [(ANY, (1, 0x7F010000 + index))]))
        overlay = NamedTable(resources, {}).bytes
        text = "[" + ",\n ".join(f'["{target_id}","{own}"]' for target_id, own in pairs) + "]\n"
        yield Case("map target overlay", text, lines(told), int(bool(told)), target=target, overlay=overlay)
    overlay = NamedTable([Resource("s", "d", [(ANY, (0x10, 5))]), Resource("s", "a", [(ANY, (1, 0x7F010000))])], {}).bytes
    yield Case("map --json target overlay", lines([
        f'{{"line":"pair","name":"s/a","own":"{second}","target":"{first}"}}',
        f'{{"id":"{first}","line":"unmapped","name":"s/d"}}',
        f'{{"from":{{"id":"{second}","name":"s/a"}},"line":"astray","to":{{"id":"{first}","name":"s/d"}}}}',
    ]), "", 1, target=target, overlay=overlay)


# ---- what a survey warns of, and characters that end lines or turn their direction

def of_surveys():
    broken, shared = "0 [] 5\n1 [] string\n1 [sdk=21] bag 0x00000000 0x01010001=1 0x01010002=string 0x01010003=string", TABLE_B
    sdk = "qualifier sdk rows 1 from 21 to 21\n"
    yield Case("survey layers", f"warning layer 0 broken-string 2 first 0x7f010001\n{sdk}", "", 1, **files_of([broken]))
    whole = table_of_lines(broken, pool_of_string(b"\1\1a\0"))
    yield Case("survey layers", sdk, **files_of([whole]))
    once = letters(0x7F, "k", 2)
    yield Case("survey layers", "warning shared-names 1 first 0x7f020000\n", "", 1, **files_of([shared, once]))
    as_json = '{"count":1,"first":{"id":"0x7f020000"},"line":"shared-names","warning":true}\n'
    yield Case("survey --json layers", as_json, "", 1, **files_of([shared, once]))
    yield Case("survey layers", **files_of([shared, (once, SAME)]))
    yield Case("survey layers", **files_of([shared, letters(0x02, "k")]))
    for language, region in (("en", "XA"), ("ar", "XB")):
        files = {**files_of([f"0 [locale={language}] 1"]), "box": {"density": [160], "locale": [f"{language}-{region}"]}}
        noted = f"note layer 0 locale 1 first {ID}\n"
        qualifier = f"qualifier locale rows 1 from {language} to {language}\n"
        yield Case("survey layers", noted + qualifier, **files)
        yield Case("survey layers box", f"{noted}warning layer 0 box-locale 1 first {ID}\n{qualifier}", "", 1, **files)
        for others in ([language], [f"{language}-EG"]):
            yield Case("survey layers box", noted + qualifier, **{**files, "box": {"density": [160], "locale": others}})
    for bad in (BAD, changed(TABLE_A, (0, "03"))):
        yield Case("survey layers", "", "refused: layer 0 table: NotTable\n", 3, **files_of([bad]))
    yield from of_escapes()


def of_escapes():
    for code in (0x85, 0x2028, 0x2029, *range(0x202A, 0x202F), *range(0x2066, 0x206A)):
        name, written = f"a{chr(code)}b", f"a\\u{code:04x}b"
        table, other = named_table({f"s/{name}": 5}), named_table({"s/k": 5})
        yield compared([other], [table], f'added s/"{written}"\nremoved s/k\nsame 0\n')
        yield Case("map other table", "[]\n", f'unmapped {ID} "s"/"{written}"\n', 1, other=other, table=table)
        text = name.encode()
        text = table_of_lines("0 [] string", pool_of_string(bytes([3, len(text)]) + text + b"\0"))
        certificate = {"version": 1, "goals": [{"id": ID, "nodes": [{"layer": 1, "kind": 3, "word": 0}]}]}
        out = f'goal 0 {ID} s/"{written}" nodes 1\n0\tvalue layer 1 string 0 "{written}"\ngoals 1\n'
        yield Case("show --raw layers certificate", out, certificate=certificate, **files_of([table, (text, SAME)]))
        # The texts of the other commands stay.
        yield over([text], f"query layers device {ID}", f'{ID} value layer 0 string 0 "{name}"\nset-aside 0\n')
    for code in (0x84, 0x86, 0xA0, 0x2027, 0x202F, 0x2065, 0x206A, 0xFEFF):
        yield compared([], [named_table({f"s/a{chr(code)}": 5})], f"added s/a{chr(code)}\nsame 0\n")


# ---- two stacks

def compared(old, new, out, status=1, box=MEDIUM_BOX, words=()):
    files = {**files_of(old, "old"), **files_of(new, "new"), "box": box}
    return Case(["diff", "--raw", "old", "new", "box", *words], out, "", status, **files)


BAG_BEFORE = f"0 [] bag 0x7f010001 {A}=1\n1 [] bag 0x00000000 {B}=5 {C}=8\n1 [sdk=26] bag 0x00000000 {B}=5"
BAG_AFTER = f"0 [] bag 0x7f010001 {A}=1\n1 [] bag 0x00000000 {B}=6 {D}=7\n1 [sdk=26] bag 0x00000000 {B}=5"
ROWS_CHANGED = f" on sdk=21..25\n  {B} decimal 5 -> decimal 6\n  removed {C} decimal 8\n  added {D} decimal 7\n"
REFERRED = "0 [] @0x7f010001\n1 [] {}\n2 [] bag 0x00000000 0x01010001=@0x7f010001"

CHANGES = [
    # The rows of a table before and after, a box, and what is printed.
    ("0 [density=160] 1\n0 [density=320] 2", "0 [density=160] 1\n0 [density=320] 3", TO_198,
     f"changed {ID} decimal 2 -> decimal 3 on density=198\nsame 0\n"),
    ("0 [density=160] 1\n0 [density=320] 2", "0 [density=160] 1\n0 [density=320] 3", {"density": {"from": 120, "to": 197}},
     "same 1\n"),
    ("0 [locale=fr] 1\n0 [locale=de] 2", "0 [locale=fr] 1", {"density": [160], "locale": ["fr", "de-AT", "de"]},
     f"changed {ID} decimal 2 -> absent {ID} on locale=de,de-AT\nsame 0\n"),
    (BAG_BEFORE, BAG_AFTER, {"density": [160], "sdk": {"from": 21, "to": 30}},
     f"changed {ID}{ROWS_CHANGED}changed 0x7f010001{ROWS_CHANGED}same 0\n"),
    # What a reference leads to has changed; a row of a bag says the reference.
    (REFERRED.format(5), REFERRED.format(6), MEDIUM_BOX,
     f"changed {ID} decimal 5 -> decimal 6\nchanged 0x7f010001 decimal 5 -> decimal 6\nsame 1\n"),
    ("0 [] @0x0106000b", "0 [] @0x0106000c", MEDIUM_BOX, f"changed {ID} absent 0x0106000b -> absent 0x0106000c\nsame 0\n"),
    ("0 [] 1\n1 [] 2\n2 [] 3", "0 [] 1\n2 [] 3\n3 [] 4", MEDIUM_BOX, "removed 0x7f010001\nadded 0x7f010003\nsame 2\n"),
    ("0 [] @0x7f010001\n1 [] 5", "0 [] 5\n1 [] 5", MEDIUM_BOX, "same 2\n"),
    ("0 [] 1", f"0 [] bag 0x00000000 {A}=1", MEDIUM_BOX, f"changed {ID} decimal 1 -> bag\n  added {A} decimal 1\nsame 0\n"),
    (f"0 [] bag 0x00000000 {A}=1", "0 [] @0x0106000b", MEDIUM_BOX,
     f"changed {ID} bag -> absent 0x0106000b\n  removed {A} decimal 1\nsame 0\n"),
    # Rows of one name go side by side in their order.
    (f"0 [] bag 0x00000000 {B}=1 {B}=2 {B}=3 {C}=3", f"0 [] bag 0x00000000 {B}=1 {B}=4 {D}=5", MEDIUM_BOX,
     f"changed {ID}\n  {B} decimal 2 -> decimal 4\n  removed {B} decimal 3\n  removed {C} decimal 3\n"
     f"  added {D} decimal 5\nsame 0\n"),
    (f"0 [] bag 0x00000000 {B}=1", f"0 [] bag 0x00000000 {B}=1 {B}=1", MEDIUM_BOX,
     f"changed {ID}\n  added {B} decimal 1\nsame 0\n"),
    ("0 [] bag 0x00000000", f"0 [] bag 0x00000000 {B}=1", MEDIUM_BOX, f"changed {ID}\n  added {B} decimal 1\nsame 0\n"),
    # Bags that differ by the same rows are one change.
    (f"0 [] bag 0x00000000 {B}=1 {C}=5\n0 [night=2] bag 0x00000000 {B}=1 {C}=6",
     f"0 [] bag 0x00000000 {B}=2 {C}=5\n0 [night=2] bag 0x00000000 {B}=2 {C}=6", {"density": [160], "night": [1, 2]},
     f"changed {ID}\n  {B} decimal 1 -> decimal 2\nsame 0\n"),
    # The lines of a name stand in the order of their bytes.
    ("0 [] 9\n0 [night=2] 10", "0 [] 1\n0 [night=2] 1", {"density": [160], "night": [1, 2]},
     f"changed {ID} decimal 10 -> decimal 1 on night=2\nchanged {ID} decimal 9 -> decimal 1 on night=1\nsame 0\n"),
    # Rows that match no device are counted.
    ("0 [] 1\n0 [locale=sr,script=4c61746e] 2", "0 [] 1", MEDIUM_BOX, "set-aside 1 0\nsame 1\n"),
    ("0 [] 1", "0 [] 2\n0 [locale=sr,script=4c61746e] 2", MEDIUM_BOX,
     f"changed {ID} decimal 1 -> decimal 2\nset-aside 0 1\nsame 0\n"),
]

SAID = [
    # The rows of a table, a device, and what entry 0 says there.
    ("0 [] 5\n0 [night=2] 6", {"night": [1]}, "decimal 5"), ("0 [] 5\n0 [night=2] 6", {"night": [2]}, "decimal 6"),
    ("0 [] @0x7f010001\n1 [] 5\n1 [night=2] 6", {"night": [2]}, "decimal 6"),
    ("0 [] @0x7f010001\n1 [night=2] 6", {"night": [1]}, "absent 0x7f010001"),
    ("0 [night=2] 6", {"night": [1]}, f"absent {ID}"),
    ("0 [] @0x7f010001\n1 [] @0x7f010002\n2 [] @0x7f010003", {}, "absent 0x7f010003"),
    ("0 [] @0x00000000", {}, "@0x00000000"), (f"0 [] ?{A}", {}, f"?{A}"), ("0 [] empty", {}, "empty"),
    (f"{lines_of_chain(20, '@')}20 [] 5", {}, "decimal 5"),
]

LABELS = [
    # The names of a type and an entry of an app, and how these are written.
    ("string/cancel", "string/cancel"), ("string/café", "string/café"), ("style/App.Card", "style/App.Card"), ("string/", 'string/""'),
    ("string/a b", 'string/"a b"'), ("string/a/b", "string/a/b"), ("string/android:x", "string/android:x"), ("a:b/k", '"a:b"/k'),
    ("string/*", 'string/"*"'), ("string/a,b", 'string/"a,b"'), ("s@t/k", '"s@t"/k'), ("s/a@b", 's/"a@b"'), ("*/k", '"*"/k'),
    ('string/a\nremoved string/"b\\', r'string/"a\x0aremoved string/\"b\\"'), ("s/!", "s/!"), ("s/~", "s/~"), (">/-", ">/-"),
    ("s/\x7f", r's/"\x7f"'), ("\r/k", r'"\x0d"/k'), ('s/"', r's/"\""'), ("s/\\", r's/"\\"'),
]
PACKAGE_LABELS = [
    # The number and the name of a package, the names of a resource of it, and how it is written.
    (0x01, "android", "attr/colorAccent", "android:attr/colorAccent"), (0x02, "", "id/a", "0x02:id/a"), (0x02, "a b", "id/a", "0x02:id/a"),
    (0x02, "a:b", "id/a", "0x02:id/a"), (0x02, "a/b", "id/a", "0x02:id/a"), (0x02, "0x7f", "id/a", "0x02:id/a"), (0xFE, "é", "id/a", "é:id/a"),
    (0x02, "a@b", "id/a", "0x02:id/a"), (0x02, "lib", "a:b/k", "lib:a:b/k"), (0x02, "a\n", "a,b/k", '0x02:"a,b"/k'), (0xAB, "", "s/*", '0xab:s/"*"'),
    (0x7F, "org.example", "id/a", "id/a"), (0x02, "a\u2028", "id/a", "0x02:id/a"),
]


def of_changes():
    for old, new, box, out in CHANGES:
        yield compared([old], [new], out, int("changed" in out or "added" in out), box)
    for rows, more, said in SAID:
        names = {int(line.split(" ")[0]) for line in rows.splitlines()}
        others = "".join(f"removed 0x{0x7F010000 + name:08x}\n" for name in sorted(names - {0}))
        out = f"changed {ID} {said} -> decimal 99\n{others}same 0\n"
        yield compared([rows], ["0 [] 99"], out, box=MEDIUM_BOX | more)
    for name, written in LABELS:
        yield compared([], [named_table({name: 1})], f"added {written}\nsame 0\n")
    for package, package_name, name, written in PACKAGE_LABELS:
        yield compared([], [named_table({name: 1}, package, name=package_name)], f"added {written}\nsame 0\n")
    yield from of_contents()
    yield from of_pairs()
    yield from of_strings()
    yield from of_asked_pairs()
    yield from of_limits()


STYLE = f"0 [] bag 0x7f010001 {A}=1\n1 [] bag 0x00000000 {A}=9 {B}=2\n1 [sdk=26] bag 0x00000000 {B}=3 {D}=@0x7f010001"
BAG_CONTENTS = [
    # The rows of a table, a device, and the rows of the bag of entry 0 there.
    (STYLE, {"sdk": [21]}, [f"{A} decimal 1", f"{B} decimal 2"]),
    (STYLE, {"sdk": [26]}, [f"{A} decimal 1", f"{B} decimal 3", f"{D} @0x7f010001"]),
    (f"0 [] bag 0x00000000 0x02000000=7 0x02000001=?{A} 0x02000002=empty", {}, [
        "0x02000000 decimal 7", f"0x02000001 ?{A}", "0x02000002 empty"]),
    ("0 [] bag 0x00000000 0x01000007=1 0x01000004=2", {}, ["0x01000004 decimal 2", "0x01000007 decimal 1"]),
    (f"0 [] @0x7f010001\n1 [] bag 0x7f010002 {A}=1\n2 [] 5", {}, [f"{A} decimal 1"]),
]


def of_contents():
    for rows, device, told in BAG_CONTENTS:
        others = [f"removed 0x7f01000{entry}" for entry in (1, 2) if f"\n{entry} [" in rows]
        removed = [f"  removed {row}" for row in told]
        out = lines([f"changed {ID} bag -> decimal 99", *removed, *others, "same 0"])
        yield compared([rows], ["0 [] 99"], out, box=MEDIUM_BOX | device)
    # An app's style, and that of an overlay for newer devices. Each has its own string.
    app = f"0 [] bag 0x00000000 {A}=string {B}=1\n1 [] bag 0x00000000 {A}=string {C}=string"
    overlay = f"0 [sdk=26] bag 0x7f010001 {A}=string"
    app, overlay = (table_of_lines(rows, pool_of_string(b"\1\1" + one + b"\0")) for rows, one in ((app, b"a"), (overlay, b"o")))
    for sdk, told in ((25, [f'{A} "a"', f"{B} decimal 1"]), (26, [f'{A} "o"', f'{C} "a"'])):
        out = lines([f"changed {ID} bag -> decimal 99", *(f"  removed {row}" for row in told), "removed 0x7f010001", "same 0"])
        yield compared([app, (overlay, SAME)], ["0 [] 99"], out, box=MEDIUM_BOX | {"sdk": [sdk]})
    # Only devices of mobile country 1 have a row of s/k.
    country = changed(letters(0x7F, "k"), (444, "01"))
    for mcc, said in ((1, "decimal 5"), (2, "absent s/k")):
        stacks = [country, "1 [] @0x7f010000"], [country, "1 [] 99"]
        yield compared(*stacks, f"changed 0x7f010001 {said} -> decimal 99\nsame 1\n", box=MEDIUM_BOX | {"mcc": [mcc]})
    for name, written in (("k", "s/k"), ("é", "s/é"), ("\n", r's/"\x0a"'), ("\ud800", ID)):
        table = NamedTable([Resource("s", name, [(ANY, (0x10, 5))])], {}, is_utf16=True).bytes
        yield compared([], [table], f"added {written}\nsame 0\n")
        yield compared([table, "1 [] ?0x7f010000"], [table, "1 [] 99"], f"changed 0x7f010001 ?{written} -> decimal 99\nsame 1\n")
    yield compared([], [changed(TABLE_B, (398, "ff"))], f"added {ID}\nsame 0\n")


def of_pairs():
    yield compared([TABLE_A], [TABLE_B], f"added s/k\nremoved {ID}\nsame 0\n")
    app, moved, other = letters(0x7F, "k"), letters(0x7F, "k", 2), letters(0x7F, "o")
    framework, library = letters(0x01, "k"), letters(0x02, "k")
    lines_of_packages = "removed 0x01:s/k\nadded 0x02:s/k\nremoved 0x7f:s/k\nadded 0x7f:s/o\nsame 0\n"
    yield compared([framework, app], [other, library], lines_of_packages)
    yield compared([framework, app], [moved, framework], "same 2\n", 0)
    # By the packages of both stacks, and by the first name of each number.
    called = [named_table({"s/k": 1}, number, name=name) for number, name in ((0x01, "android"), (0x7F, "app"), (0x7F, "split"), (0x02, "app"))]
    for old, new, said in (
        ([], [0], "added android:s/k"), ([], [1], "added s/k"), ([0], [1], "removed android:s/k\nadded app:s/k"),
        ([1], [0], "added android:s/k\nremoved app:s/k"), ([1], [3], "added 0x02:s/k\nremoved 0x7f:s/k"),
        ([2], [3], "added app:s/k\nremoved split:s/k"), ([2], [1, 3], "added 0x02:s/k"), ([1, 2], [3], "added 0x02:s/k\nremoved 0x7f:s/k"),
    ):
        same = int(1 in new and 2 in old)
        yield compared([called[place] for place in old], [called[place] for place in new], f"{said}\nsame {same}\n")
    yield compared([app, moved], [app, app], "removed 0x7f020000\nwarning shared-names 1 0\nsame 1\n")
    yield compared([app, app], [app, app], "same 1\n", 0)
    yield compared([app], [app, (other, SAME)], "same 1\n", 0)
    base, over_it = "0 [] 1\n1 [] 2", ("0 [density=320] 9", SAME)
    yield compared([base], [base, over_it], f"changed {ID} decimal 1 -> decimal 9 on density=198\nsame 1\n", box=TO_198)
    # Where ids move with their names, and where names change places.
    smaller_k, smaller_m = ({"s/k": 1, "t/m": 2}, {"t/m": 2, "s/k": 1})
    bag = {"u/x": Bag(0, [("s/k", "@t/m"), ("t/m", "?s/k")])}
    before, after = named_table({**smaller_k, **bag}), named_table({**smaller_m, **bag})
    yield compared([before], [after], "same 3\n", 0)
    unmoved = named_table({**smaller_m, **bag}, ids=ids_of(resources_of({**smaller_k, **bag})))
    yield compared([before], [unmoved], "changed u/x\n  s/k @t/m -> ?t/m\n  t/m ?s/k -> @s/k\nsame 2\n")


def of_strings():
    tables = [table_of_lines("0 [] string\n1 [] 1", pool_of_string(b"\1\1" + letter + b"\0")) for letter in (b"a", b"b")]
    yield compared([tables[0]], [tables[1]], f'changed {ID} "a" -> "b"\nsame 1\n')
    pools = ("ab", 1), ("ba", 0), ("ac", 1)
    second, first, other = (table_of_lines(f"0 [] 03:{index}", Pool(texts).bytes) for texts, index in pools)
    yield compared([second], [first], "same 1\n", 0)
    yield compared([second], [other], f'changed {ID} "b" -> "c"\nsame 0\n')


def of_asked_pairs():
    """A framework and an app, of which one resource has no name. Words ask for lines."""
    framework = [named_table({"dimen/margin": number}, 0x01, name="android") for number in (1, 2)]
    old = named_table({"color/ink": 1, "dimen/gap": 1, "dimen/margin": 1}, name="app")
    new = named_table({"color/paper": 1, "dimen/_0": None, "dimen/_1": None, "dimen/width": 1, "dimen/margin": 2}, name="app")
    nameless = [changed(TABLE_A, (336, "03"), (356, "03"), (412, digits)) for digits in ("05", "06")]
    told = [
        "changed android:dimen/margin decimal 1 -> decimal 2", "removed app:color/ink", "added app:color/paper", "removed app:dimen/gap",
        "changed app:dimen/margin decimal 1 -> decimal 2", "added app:dimen/width", "changed 0x7f030000 decimal 5 -> decimal 6",
    ]
    stacks = [framework[0], old, nameless[0]], [framework[1], new, nameless[1]]
    for words, places in (
        ("", range(7)), ("0x7f020000", [3]), ("0x7f020002", [5]), ("0x7f020001", [4]), ("0x7f020003", [4]), ("0x01010000", [0]),
        (ID, [1, 2]), ("0x7f030000", [6]), ("dimen/gap", [3]), ("dimen/*", [0, 3, 4, 5]), ("*", range(7)),
        ("0x01:dimen/margin", [0]), ("0x7f:dimen/margin", [4]), ("0x7f:dimen/*", [3, 4, 5]), ("0x01:dimen/*", [0]),
        ("android:dimen/margin", [0]), ("app:dimen/margin", [4]), ("app:dimen/*", [3, 4, 5]),
        ("0x7f030000 dimen/width color/ink", [1, 5, 6]), ("dimen/gap dimen/gap", [3]),
        ("0x7f020001 dimen/* 0x7f:dimen/margin", [0, 3, 4, 5]), ("0x7f020001 0x7f020003", [4]), ("color/ink *", range(7)),
    ):
        yield compared(*stacks, lines([*(told[place] for place in places), "same 0"]), words=words.split())
    for words, missing in (
        ("0x7f020004", "0x7f020004"), ("0x02010000", "0x02010000"), ("0x7F02000A", "0x7f02000a"), ("dimen/x", "dimen/x"),
        ("color/gap", "color/gap"), ("ink/color", "ink/color"), ("color/in", "color/in"), ("gap/*", "gap/*"),
        ("colo/*", "colo/*"), ("0x01:color/ink", "0x01:color/ink"), ("0x01:color/*", "0x01:color/*"), ("0X7f:color/*", "0X7f:color/*"),
        ("dimen/gap dimen/x string/*", "dimen/x"), ("* string/* dimen/x", "string/*"), ("dimen/x 0x7f020004 dimen/x", "dimen/x"),
    ):
        case = compared(*stacks, "", words=words.split())
        case.due = "", f"no resource {missing}\n", 1
        yield case
    for words in ("dimen/margin", "color/ink dimen/margin string/*", "* dimen/margin"):
        case = compared(*stacks, "", words=words.split())
        case.due = "", "two resources dimen/margin: android:dimen/margin, app:dimen/margin\n", 1
        yield case


def of_limits():
    """A value that needs three nodes and one that needs one. Two leaves are below the test of the first."""
    old, new = ("0 [density=160] 1\n0 [density=320] %d\n1 [] 5" % number for number in (2, 3))
    told = f"changed {ID} decimal 2 -> decimal 3 on density=198\nsame 1\n"
    for most, out in ((1, "node limit\n"), (3, "node limit\n"), (4, told), (5, told)):
        case = compared([old], [new], out, box=TO_198)
        case.words[1:1] = ["--max-nodes", str(most)]
        yield case
    table, broken = files_of([TABLE_B]), changed(TABLE_B, (0, "03"))
    over_it = [TABLE_B, (TABLE_B, "{")]
    for old, new, fault in (
        ([broken], [broken], "old layer 0 table: NotTable"), ([broken], over_it, "old layer 0 table: NotTable"),
        (over_it, [broken], "old layer 1 map: Syntax"), ([TABLE_B], [broken], "new layer 0 table: NotTable"),
        ([TABLE_B], over_it, "new layer 1 map: Syntax"), ([TABLE_B], [TABLE_B], "box: Density"),
    ):
        case = compared(old, new, "", box={})
        case.due = "", f"refused: {fault}\n", 3
        yield case


GROUPS = [of_tables, of_devices, of_bags, of_words, of_names, of_packages, of_ids, of_maps, of_surveys, of_changes]


def fault_of(program, group, case):
    with tempfile.TemporaryDirectory() as folder:
        said = case.answer(program, folder)
    out, err, status = case.due
    if said == (out, err, int(status)):
        return ""
    return f"failed: {group.__name__}: {' '.join(case.words)[:200]}: {said}\nwhere this is due: {case.due}\n"


def check_groups(groups):
    """Checks the cases of some groups, as the words of the command line say."""
    program, jobs = os.path.abspath(sys.argv[1]), int(sys.argv[2]) if len(sys.argv) > 2 else 1
    cases = [(group, case) for group in groups for case in group()]
    with ThreadPoolExecutor(jobs) as pool:
        faults = list(pool.map(lambda case: fault_of(program, *case), cases))
    print("".join(faults), end="")
    print(f"{len(cases)} cases")
    sys.exit(any(faults))


if __name__ == "__main__":
    check_groups(GROUPS)

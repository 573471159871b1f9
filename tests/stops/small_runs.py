"""Small worked cases, on which refusals.py refuses the program memory: what the runs of each command (runs.py) do not show.

Many are those of the files of worked cases (tests/worked_*.py)."""
import os
import subprocess
import sys
from itertools import islice

import runs
from runs import HERE, Run, write_files

sys.path.append(os.path.join(HERE, "tests"))
from plain_bags import Bag
from small_tables import TABLE_A, TABLE_B, changed
import worked_rows
from worked_boxes import of_joined
from worked_calls import CHAIN, LONG
from worked_certificates import (
    CHECKED, FRENCH_AND_GERMAN, GOAL_LISTS, MEDIUM_AND_HIGH, PARTED, STYLED, STYLES, at_most, certificate_of, checked,
    of_notated_styles, rejected, tree, tree_under, value,
)
from worked_made import NODE_LIMIT, ONE_LEAF, counter, made, of_names, of_omitted, written
from worked_reports import of_certificates, of_surveys, surveyed
from worked_rows import (
    A, B, BAGS, FAULTS, FIRST, ID, MEDIUM_BOX, OVERLAID, ROWS, SAME, SECOND, TO_198, Case, bytes_of,
    compared, files_of, lines, named_table, of_maps, of_refused_inputs, of_table, over, refused,
)

QUERY = f"query layers device {ID}"
MOST_BYTES = 10_000
"""So many bytes that are read quickly."""
MOST_THEMES, MOST_CHANGES = 7, 8
"""How many cases of each are tried."""
MANY = 30
"""So many names, ids or rows that they fill more than a node of a tree, and that sorting them takes memory."""
LARGE = 1_500_000
"""So many bytes that they outgrow the first room of an input."""
DEEP = 6
"""So many tests in a row that the list of open paths grows."""
CUT = TABLE_A[:39]


# ---- what is read


def of_texts():
    """A text of each kind, and one for each fault."""
    yield from (case for case in of_refused_inputs() if sum(len(bytes_of(said)) for said in case.files.values()) < MOST_BYTES)
    spanish = "0 [locale=es-419] 1\n0 [locale=es-419,density=480] 2\n0 [locale=es,density=480] 3"
    out = f"{ID} value layer 0 decimal 2\nset-aside 0\n"
    yield over([spanish], QUERY, out, device={"density": 480, "locale": "es-419"})
    yield over(["0 [] 1", ("1 [] 2", [[ID, SECOND]])], QUERY, f"{ID} value layer 1 decimal 2\nset-aside 0\n")
    told = rejected(0, "N8 OtherValue", "device density=160", "end value layer 0 decimal 1")
    yield checked("0 [] 1", {"density": [480, 160, 160]}, certificate_of(tree(value(2))), told)


def shared_bags():
    """A table in which so many entries share a bag of so many rows that opening it counts rows, which takes memory."""
    words = [sys.executable, os.path.join(HERE, "bench", "make_shared_bags.py"), "shared", "60", "10", "/dev/stdout"]
    return subprocess.run(words, check=True, capture_output=True).stdout


def of_tables():
    whole = runs.bytes_of("crates/restool/stdin")
    yield Case("rows table", "rows 0 set-aside 0\n", table=whole + bytes(LARGE - len(whole)))
    yield from islice(worked_rows.of_tables(), len(ROWS))
    yield of_table("0 [] 5", "dump", f'package 0x7f ""\n  {ID} !NoSuch/!NoSuch flags 0x00000000 [] decimal 5\n')
    for table, pieces, fault in FAULTS[:4]:
        yield from refused(changed(table, *pieces), fault)
    yield from refused(CUT, "Chunk Oversize 0")
    shared = shared_bags()
    rows = [f"row 0x{0x7F010000 + entry:08x} [] bag parent 0x00000000 count 10" for entry in range(60)]
    out = "".join(f"{row}\n" + "".join(f"  0x{0x01010000 + place:08x} decimal {place}\n" for place in range(10)) for row in rows)
    yield of_table(shared, "rows", f"{out}rows 60 set-aside 0\n")


def of_reports():
    """Of layers, and of certificates."""
    for rows, told in (("0 [] 1\n1 [night=2] 2\n1 [] 3", [ID, SECOND]), (TABLE_B, [f"{ID} s/k"])):
        yield Case("ids layers", lines(told), **files_of([rows]))
    yield from of_maps()
    astray = f'unmapped {SECOND} "s"/"m"\nastray {ID} "s"/"k" to {SECOND} "s"/"m"\n'
    overlay = named_table({"s/k": Bag(0, [(0x01010001, "@s/m")]), "s/m": 5})
    yield Case("map target overlay", f'[["{ID}","{ID}"]]\n', astray, 1, target=TABLE_B, overlay=overlay)
    yield from of_surveys()
    yield from surveyed(CUT, [], "Chunk Oversize 0")
    yield from of_certificates()
    for certificate, told in map(deep_tree, (True, False)):
        yield Case("show --raw layers certificate", lines(told), certificate=certificate, **files_of([MEDIUM_AND_HIGH]))


def deep_tree(is_whole):
    """A tree so deep that many paths are open at once, and its lines. Where it is not whole it ends behind the first leaf."""
    nodes = [*map(at_most, range(DEEP, 0, -1)), value(1), *[value(2)] * DEEP * is_whole]
    told = [f"goal 0 {ID} nodes {len(nodes)}"]
    told += [f"{depth}\t{'  ' * depth}if density at most {DEEP - depth}" for depth in range(DEEP)]
    told += [f"{DEEP}\t{'  ' * DEEP}value layer 0 decimal 1"]
    for depth in range(DEEP - 1, -1, -1):
        place, meant = (2 * DEEP - depth, "value layer 0 decimal 2") if is_whole else ("", "ends early")
        told.append(f"{place}\t{'  ' * depth}else {meant}")
    return certificate_of(tree(*nodes)), [*told, "goals 1"]


# ---- words


def of_words():
    """Names of one resource, sets of names, files of such words, and goals, over a table that has s/k alone."""
    found = f"{ID} value layer 0 decimal 5\n"
    for word in ("s/k", "s/*", "*"):
        yield over([TABLE_B], f"query layers device {word}", f"{found}set-aside 0\n")
    explained = [f"lookup {ID}", "candidate 0 layer 0 [] first", "end value layer 0 decimal 5"]
    yield over([TABLE_B], "explain layers device s/k", lines(explained))
    for text in ("# sizes\n\n  s/* \ns/k", "\ufeff# sizes\r\ns/*\r\ns/k\r\n"):
        yield over([TABLE_B], "query layers device @list", f"{found}{found}set-aside 0\n", list=text)
    for words in ("query layers device s/x", "explain layers device s/x", "query layers device k/*", "make layers box s/x",
                  f"make layers box {A}@s/x", "make layers box k/*"):
        word = words.split(" ")[-1].split("@")[-1]
        yield over([TABLE_B], words, "", f"no resource {word}\n", 1, box=MEDIUM_BOX)
    for word in ("s/k", "s/*"):
        yield over([TABLE_B], f"make layers box {word}", ONE_LEAF.replace('"word":1', '"word":5'), box=MEDIUM_BOX)
    for goal in (f"{A}@s/k", f"{A}@{ID}"):
        counter = f"counter goal 0\ndevice density=160\nend absent {ID}\n"
        yield over([TABLE_B], f"make layers box {goal}", counter, status=1, box=MEDIUM_BOX)


def of_pairs():
    """Words for the pairs of two stacks: of a name that the new one alone has and an id that the old one alone has; and of many
    ids without names, and names."""
    by_name, by_id = "added s/k", f"removed {ID}"
    for words, told in ((["s/k"], [by_name]), (["s/*"], [by_name]), ([ID], [by_name, by_id]),
                        (["s/*", "*", "s/k"], [by_name, by_id])):
        yield compared([TABLE_A], [TABLE_B], lines([*told, "same 0"]), words=words)
    for table, words, missing in ((TABLE_B, ["s/k", "s/x", "k/*"], "s/x"), (TABLE_B, ["k/*"], "k/*"), (TABLE_B, [SECOND], SECOND),
                                  ("", ["*"], "*")):
        case = compared([table], [table], "", words=words)
        case.due = "", f"no resource {missing}\n", 1
        yield case
    many = "\n".join(f"{entry} [] {entry}" for entry in range(MANY))
    yield compared([many], [many], f"same {MANY}\n", 0, words=[f"0x{0x7F010000 + entry:08x}" for entry in range(MANY)])
    named = named_table({f"s/n{entry:02}": entry for entry in range(MANY)})
    yield compared([named], [named], f"same {MANY}\n", 0, words=["s/*"])


# ---- answers for a device, and for all devices of a box


def of_devices():
    for base, overlay, locale, layer, word in OVERLAID[:2]:
        device = {"density": 160, "locale": locale}
        yield over([base, (overlay, SAME)], QUERY, f"{ID} value layer {layer} decimal {word}\nset-aside 0\n", device=device)
    told = [f"0x0101{entry:04x} layer 0 decimal {entry}" for entry in range(LONG)]
    yield over([CHAIN], f"bag layers device {ID}", lines(told))
    yield from islice(worked_rows.of_bags(), len(BAGS) + MOST_THEMES)


def firsts(cases):
    """Of cases of which the same is told in the first line the first one."""
    by_line = {case[-1][0]: case for case in reversed(cases)}
    return by_line.values()


def of_checked():
    for rows, box, nodes, told in firsts(CHECKED):
        yield checked(rows, box, certificate_of(tree(*nodes)), told)
    for goals, told in firsts(GOAL_LISTS):
        yield checked("0 [] 1\n1 [] 2", MEDIUM_BOX, certificate_of(*goals), told)
    for attr, styles, box, nodes, told in firsts(STYLED):
        certificate = certificate_of(tree_under(attr, styles, *nodes), version=2)
        yield checked(STYLES, box, certificate, told, f"{attr}@{','.join(styles)}")
    yield from of_notated_styles()
    yield from of_names()


def of_made():
    yield made(MEDIUM_AND_HIGH, TO_198, None, [ID], written(tree(*PARTED)))
    yield made(STYLES, TO_198, None, [f"{A}@{FIRST}"], written(tree_under(A, [FIRST], *PARTED), version=2))
    yield made("0 [] 1", MEDIUM_BOX, 1, [ID], ONE_LEAF)
    yield made(MEDIUM_AND_HIGH, TO_198, 2, [ID], NODE_LIMIT)
    yield made("0 [locale=fr] 1", FRENCH_AND_GERMAN, None, [ID], counter("locale=de density=160", f"absent {ID}"))
    yield made(STYLES, MEDIUM_BOX, None, [f"{B}@{FIRST}"], counter("density=160", f"absent {B}"))
    yield from of_omitted()


def of_changes():
    yield from islice(worked_rows.of_changes(), MOST_CHANGES)
    yield from islice(of_joined(), MOST_CHANGES)
    yield from of_changes_by_locale()
    named = [named_table({"s/k": cell}) for cell in (1, "?s/k")]
    yield compared([named[0]], [named[1]], "changed s/k decimal 1 -> ?s/k\nsame 0\n")
    many = "\n".join(f"{entry} [] 1" for entry in range(11))
    case = compared([many], [many.replace("] 1", "] 2")], "node limit\n")
    case.words[1:1] = ["--max-nodes", "10"]
    yield case
    for old, new, fault in ((CUT, CUT, "old layer 0 table"), (TABLE_B, CUT, "new layer 0 table")):
        case = compared([old], [new], "", box={})
        case.due = "", f"refused: {fault}: Chunk Oversize 0\n", 3
        yield case


def of_changes_by_locale():
    """Some locales of one change, the boxes of which are joined; so many that their list grows; and those of two changes."""

    def by_locale(numbers):
        return "\n".join(f"0 [locale={locale}] {number}" for locale, number in numbers.items())

    three = [dict(zip(("fr", "de", "it"), numbers)) for numbers in ((1, 2, 1), (3, 4, 3))]
    five = [dict.fromkeys(("de", "es", "fr", "it", "nl"), number) for number in (1, 3)]
    for (old, new), told in (
        (three, ["decimal 1 -> decimal 3 on locale=fr,it", "decimal 2 -> decimal 4 on locale=de"]),
        (five, ["decimal 1 -> decimal 3"]),
    ):
        box = {"density": [160], "locale": [*old]}
        yield compared([by_locale(old)], [by_locale(new)], lines([*(f"changed {ID} {it}" for it in told), "same 0"]), box=box)


GROUPS = {
    "small texts": of_texts,
    "small tables": of_tables,
    "small reports": of_reports,
    "words of names": of_words,
    "words of pairs": of_pairs,
    "small devices": of_devices,
    "checked certificates": of_checked,
    "made certificates": of_made,
    "small changes": of_changes,
}


def small_runs(folder):
    """All of them as runs, each in a folder of its own in this one."""
    for group, cases in GROUPS.items():
        for place, case in enumerate(cases()):
            own = os.path.join(folder, f"{group} {place}")
            os.mkdir(own)
            write_files(own, {name: bytes_of(said) for name, said in case.files.items()})
            out, err, status = case.due
            yield Run(f"{group} {place}: {' '.join(case.words)}", case.words, status=int(status), out=out, err=err, folder=own)

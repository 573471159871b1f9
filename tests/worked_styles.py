#!/usr/bin/env python3
"""Asks the program about small tables of styles and bags, along their parents and references, for all devices of a box, where the
answers were worked out by hand:

    worked_styles.py PROGRAM [JOBS]

The cases are such as worked_rows.py has, and what is printed of them is the same."""
from small_tables import lines_of_chain
from worked_certificates import accepted, certificate_of, checked, densities, rejected, tree_under, value
from worked_rows import A, B, FIRST, MEDIUM_BOX, NOWHERE, SECOND, TO_198, check_groups, compared, lines


def under(styles, rows, box, told, word=0):
    """What is said of a certificate in which A, under these styles, is this number for all devices."""
    certificate = certificate_of(tree_under(A, styles, value(word)), version=2)
    return checked(rows, box, certificate, told, f"{A}@{','.join(styles)}")


def ended(styles, rows, box, end, device):
    """The same where A ends so for all devices: at a number, or without a value, as it is told of the least device."""
    if isinstance(end, int):
        return under(styles, rows, box, accepted(1), end)
    return under(styles, rows, box, rejected(0, "N7 NoValue", f"device {device}", f"end {end}"))


# ---- how many parents and references are followed


def under_parents(count, last):
    """A style with so many parents, each with the attribute B, and then a last one."""
    bags = (f"{place} [] bag 0x{0x7F010001 + place:08x} {B}=3\n" for place in range(count))
    return f"{''.join(bags)}{count} [] {last}"


def behind_parents(count, last):
    """The same, where all these set A, and the last parent is none of the bags that do."""
    return under_parents(count + 1, last).replace(f"{B}=", f"{A}=")


def behind_references(count, last):
    """The attribute is the first of so many references, behind which stands a last cell."""
    chain = lines_of_chain(count, "@").split("\n", 1)[1]
    return f"0 [] bag 0x00000000 {A}=@{SECOND}\n{chain}{count} [] {last}"


LIMITS = [
    # The rows of a base, and what A is under its first style.
    *((under_parents(count, f"bag 0x00000000 {A}=6"), 6) for count in (1, 63, 64)),
    (under_parents(65, f"bag 0x00000000 {A}=6"), f"too long {FIRST}"),
    (behind_parents(0, "5"), 3),
    (behind_parents(64, "5"), 3),
    (behind_parents(64, "bag 0x00000000"), f"too long {FIRST}"),
    (behind_references(1, "9"), 9),
    (behind_references(20, "9"), 9),
    (behind_references(1, f"@{NOWHERE}"), f"absent {NOWHERE}"),
    (behind_references(21, "9"), "too long 0x7f010015"),
]


def of_limits():
    for rows, end in LIMITS:
        yield ended([FIRST], rows, MEDIUM_BOX, end, "density=160")


# ---- which ids are looked up, and in which order

CELLS = {
    # The entries of a base, of which the last is not there. Entry 0 is a style with two parents, entry 3 one without.
    0: f"bag {SECOND} {A}=1", 1: "bag 0x7f010002", 2: "bag 0x00000000", 3: f"bag 0x00000000 {A}=@0x7f010004", 4: "@0x7f010005",
    5: "6", 9: "bag 0x00000000",
}
STYLES = "".join(f"{entry} [] {cell}\n" for entry, cell in CELLS.items() if entry < 9) + f"1 [density=320] bag {NOWHERE}\n"
FOURTH, TARGET = "0x7f010003", "0x7f010004"

LOOKED_UP = [
    # The styles of a goal, the density of a device, the entries that are looked up in their order, and what A is.
    ([FIRST], 160, [0, 1, 2], 1),
    ([FIRST], 320, [0, 1, 9], 1),
    ([FOURTH, FIRST], 160, [3, 0, 1, 2], 1),
    ([FIRST, FOURTH], 160, [0, 1, 2, 3, 4, 5], 6),
    ([FOURTH, NOWHERE, FIRST], 160, [3, 9], f"absent {NOWHERE}"),
    ([TARGET, FIRST], 160, [4], f"absent {TARGET}"),
]


def with_levels(levels):
    """The base, with rows that say the same again from some API levels on, one for an entry. Where devices of all levels are
    asked, those at the level of the first entry that is looked up are apart from those below it."""
    return STYLES + "\n".join(f"{entry} [sdk={level}] {CELLS[entry]}" for entry, level in levels.items())


def apart(density, level):
    """A device of this level, and one of the level below, which come to A in other ways."""
    first, second = (f"density={density} sdk={sdk}" for sdk in (level, level - 1))
    return rejected(0, "N6 MixedTrace", f"first {first}", f"second {second}")


def of_look_ups():
    for styles, density, entries, end in LOOKED_UP:
        box = {"density": [density], "sdk": {"from": 19, "to": 26}}
        for entry in CELLS:
            rows = with_levels({entry: 21})
            if entry in entries:
                yield under(styles, rows, box, apart(density, 21))
            else:
                yield ended(styles, rows, box, end, f"density={density} sdk=19")
        for before, after in zip(entries, entries[1:]):
            for level, other in ((21, 24), (24, 21)):
                yield under(styles, with_levels({before: level, after: other}), box, apart(density, level))


# ---- whether a resource says the same to all devices of a box

CONTENTS = f"""\
0 [] @{SECOND}
1 [] bag 0x7f010002 {A}=1
2 [] bag 0x00000000
2 [density=320] bag {FOURTH}
3 [] bag 0x00000000
4 [] bag {NOWHERE}
5 [] 6
6 [] @0x7f010006
7 [] @{NOWHERE}
"""
"""Entry 0 leads to a bag whose parent has a row for all devices, and one for dense screens with a parent of its own; entry 3 has
no parent, and entry 4 one that is not there."""

NODES = [
    # A box, and how many nodes the tree of each entry has: one where the entry says the same to all, by the same look-ups.
    (densities(120, 197), [1] * 8),
    (densities(198, 640), [1] * 8),
    (TO_198, [3, 3, 3, 1, 1, 1, 1, 1]),
]


def of_nodes(rows, entry, box, count):
    """A table beside one with an entry more: an entry of both takes so many nodes, and no fewer."""
    for most in {count, count - 1} - {0}:
        out = "node limit\n" if most < count else "same 1\n"
        case = compared([rows], [f"{rows}99 [] 5"], out, most < count, box, [f"0x{0x7F010000 + entry:08x}"])
        case.words[1:1] = ["--max-nodes", str(most)]
        yield case


def parted_at(count):
    """A bag with so many parents, the topmost of which has a row for all devices, and one for dense screens."""
    top = "".join(f"{count} [{qualifier}] bag 0x00000000\n" for qualifier in ("", "density=320"))
    return lines_of_chain(count, "bag ") + top


def of_contents():
    for box, counts in NODES:
        for entry, count in enumerate(counts):
            yield from of_nodes(CONTENTS, entry, box, count)
    # The 65th is a parent too many. It is looked up, and none behind it.
    for parents, count in ((0, 3), (1, 3), (64, 3), (65, 3), (66, 1)):
        yield from of_nodes(parted_at(parents), 0, TO_198, count)
    ends = [f"bag -> decimal 99\n  removed {A} decimal 1"] * 2 + ["bag -> decimal 99"] * 3
    ends += [f"{end} -> decimal 99" for end in ("decimal 6", "too many references 0x7f010006", f"absent {NOWHERE}")]
    changes = [f"changed 0x{0x7F010000 + entry:08x} {end}" for entry, end in enumerate(ends)]
    yield compared([CONTENTS], [lines(f"{entry} [] 99" for entry in range(8))], lines([*changes, "same 0"]), box=TO_198)
    # The parent for dense screens has another row.
    more = CONTENTS.replace("3 [] bag 0x00000000", f"3 [] bag 0x00000000 {B}=2")
    places = [" on density=198"] * 3 + [""]
    changes = [f"changed 0x{0x7F010000 + entry:08x}{place}\n  added {B} decimal 2" for entry, place in enumerate(places)]
    yield compared([CONTENTS], [more], lines([*changes, "same 4"]), box=TO_198)


if __name__ == "__main__":
    check_groups([of_limits, of_look_ups, of_contents])

#!/usr/bin/env python3
"""Asks the program about boxes of devices, where the answers were worked out by hand: which texts are boxes, which devices are in
them, how a test divides them, what all their devices answer, and which of them are told as one:

    worked_boxes.py PROGRAM [JOBS]

The cases are those of worked_rows.py, in groups of their own. The last line is the number of cases."""
from plain_rules import COORDS, device_text
from worked_certificates import PLAIN, accepted, among, at_most, certificate_of, checked, densities, rejected, tree, value
from worked_configurations import GREATEST
from worked_rows import ID, MEDIUM, MEDIUM_BOX, Case, check_groups, compared, lines

# ---- texts

NO_BOXES = [
    ("", "Syntax"), ("[", "Syntax"), ('{"density":[160]', "Syntax"),
    # No object, no coordinate, neither list nor range, no numbers, no texts.
    ("[]", "Shape"), ('{"densty":[160]}', "Shape"), ('{"density":160}', "Shape"), ('{"density":["160"]}', "Shape"),
    ('{"density":[160.0]}', "Shape"), ('{"density":[-0]}', "Shape"), ('{"density":[18446744073709551616]}', "Shape"),
    ('{"density":{"from":120}}', "Shape"), ('{"density":{"from":120,"to":640,"by":2}}', "Shape"),
    ('{"density":{"from":120,"to":"640"}}', "Shape"), ('{"density":[160],"locale":"fr"}', "Shape"),
    ('{"density":[160],"locale":[0]}', "Shape"), ('{"density":[160],"locale":{"from":0,"to":1}}', "Shape"),
    # The shape of the last member comes before the first coordinate.
    ('{"mcc":[],"density":[160],"minor":["x"]}', "Shape"),
    # Coordinate by coordinate.
    ('{"density":[]}', "Empty density"), ('{"density":{"from":640,"to":120}}', "Empty density"), ('{"locale":["fr"]}', "Density"),
    ("{}", "Density"), ('{"density":[0]}', "Density"), ('{"density":[160,32768]}', "Density"),
    ('{"density":{"from":0,"to":160}}', "Density"), ('{"density":{"from":1,"to":32768}}', "Density"),
    ('{"density":[160],"locale":["-FR"]}', "RegionAlone"), ('{"density":[160],"locale":["-FR","fr-Fr"]}', "FieldRange locale"),
    ('{"density":[160],"locale":[]}', "Empty locale"), ('{"density":[160],"night":[4]}', "FieldRange night"),
    ('{"night":[4]}', "FieldRange night"), ('{"touchscreen":[256]}', "Density"),
    ('{"density":[160],"mcc":{"from":65535,"to":65536}}', "FieldRange mcc"),
    ('{"density":[160],"mcc":{"from":65537,"to":65536}}', "Empty mcc"),
    ('{"locale":["-FR"],"layoutDirection":[4]}', "RegionAlone"),
    # Values are counted as they are written.
    ({"density": [160] * 513}, "TooMany density"), ({"density": list(range(1, 514))}, "TooMany density"),
]


def languages(count):
    """No locale, and languages of two letters, so many in all."""
    letters = "abcdefghijklmnopqrstuvwxyz"
    return ["", *(letters[place // 26] + letters[place % 26] for place in range(1, count))]


def with_values(name, values):
    return MEDIUM_BOX | {name: values}


def refused(box, fault):
    return Case(f"make layers box {ID}", "", f"refused: box: {fault}\n", 3, layers=[], box=box)


def changed_on(devices, old, new, box):
    """A change of entry 0 from 1 to 2, on these devices, a line each; no change where there is no line."""
    told = [f"changed {ID} decimal 1 -> decimal 2{' on ' * bool(named)}{named}" for named in devices]
    return compared([old], [new], lines([*told, f"same {int(not told)}"]), int(bool(told)), box, [ID])


def but_on(last):
    """A base that changes on all devices but some."""
    return f"0 [] 1\n0 [{last}] 3", f"0 [] 2\n0 [{last}] 3"


def of_texts():
    for box, fault in NO_BOXES:
        yield refused(box, fault)
    yield changed_on([""], "0 [] 1", "0 [] 2", {"density": [160] * 512})
    for count in (128, 129, 512):
        *others, last = languages(count)
        box = with_values("locale", [*others, last])
        yield changed_on([f"locale={','.join(['none', *others[1:]])}"], *but_on(f"locale={last}"), box)
    yield refused(with_values("locale", languages(513)), "TooMany locale")


# ---- values and devices

LISTED = {"density": [480, 160, 160, 320], "sdk": {"from": 19, "to": 25}, "locale": ["fr", "de", "fr", "", "fil", "it"]}

VALUES = [
    # A qualifier that some devices of the box have, which a change leaves out, and the others.
    ("locale=it", "locale=none,de,fr,fil"), ("sdk=25", "sdk=19..24"),
]

FROM_120 = densities(120, 640) | {"locale": ["de", "fr"], "night": [0, 2]}
NO_MEMBERS = "0 [night=1] 1\n0 [night=3] 1\n0 [minor=1] 1\n0 [locale=fr-CA] 1\n0 [locale=it] 1\n0 [] 1"
"""All rows but the last match devices that are not in that box."""
WRONG = value(9)


def is_at(node, device):
    """What is said of the wrong leaf at a node, where this is the first device."""
    return rejected(node, "N8 OtherValue", f"device {device}", "end value layer 0 decimal 1")


EMPTY = "N5 EmptyHalf"

MEMBERS = [
    # The nodes of a tree, and what is said of it.
    ([WRONG], is_at(0, "locale=de density=120")),
    ([at_most(119), WRONG], rejected(0, EMPTY)),
    ([at_most(120), WRONG], is_at(1, "locale=de density=120")),
    ([at_most(639), value(1), WRONG], is_at(2, "locale=de density=640")),
    ([at_most(640), WRONG], rejected(0, EMPTY)),
    ([among("locale", "de"), value(1), among("night", 0), value(1), WRONG], is_at(4, "locale=fr night=2 density=120")),
    ([among("locale", "de", "fr"), WRONG], rejected(0, EMPTY)),
    ([among("night", 0, 2), WRONG], rejected(0, EMPTY)),
]


def of_devices():
    for qualifier, others in VALUES:
        yield changed_on([others], *but_on(qualifier), LISTED)
    # Each density has a row of its own.
    old, new = (f"0 [density=160] {number}\n0 [density=320] 3\n0 [density=480] {number}" for number in (1, 2))
    yield changed_on(["density=160,480"], old, new, LISTED)
    for nodes, told in MEMBERS:
        yield checked(PLAIN, FROM_120, certificate_of(tree(*nodes)), told)
    yield checked(NO_MEMBERS, FROM_120, certificate_of(tree(value(1))), accepted(1))


# ---- halves

THREE_LOCALES = densities(120, 640) | {"night": [0, 1, 2], "locale": ["de", "fr", "fr-CA"]}
AT_197, NIGHTS, DAY, FRENCH = at_most(197), among("night", 2, 7, 0, 2), at_most(0, "night"), among("locale", "fr")

HALVES = [
    # The nodes of a tree, of which the first divides the box, and what is said of them. The first half of 120 to 197.
    ([AT_197, WRONG], is_at(1, "locale=de density=120")),
    ([AT_197, at_most(196), value(1), WRONG], is_at(3, "locale=de density=197")),
    ([AT_197, AT_197, WRONG], rejected(1, EMPTY)),
    ([AT_197, among("night", 0, 1), value(1), WRONG], is_at(3, "locale=de night=2 density=120")),
    ([AT_197, among("night", 0, 1, 2), WRONG], rejected(1, EMPTY)),
    # The second.
    ([AT_197, value(1), WRONG], is_at(2, "locale=de density=198")),
    ([AT_197, value(1), at_most(639), value(1), WRONG], is_at(4, "locale=de density=640")),
    ([AT_197, value(1), at_most(640), WRONG], rejected(2, EMPTY)),
    ([AT_197, value(1), at_most(0, "mcc"), WRONG], rejected(2, EMPTY)),
    # The nights 0 and 2, and 1.
    ([NIGHTS, WRONG], is_at(1, "locale=de density=120")),
    ([NIGHTS, among("night", 0), value(1), WRONG], is_at(3, "locale=de night=2 density=120")),
    ([NIGHTS, among("night", 0, 2), WRONG], rejected(1, EMPTY)),
    ([NIGHTS, value(1), WRONG], is_at(2, "locale=de night=1 density=120")),
    ([NIGHTS, value(1), among("night", 1), WRONG], rejected(2, EMPTY)),
    # The night 0, and 1 and 2.
    ([DAY, WRONG], is_at(1, "locale=de density=120")),
    ([DAY, among("night", 0), WRONG], rejected(1, EMPTY)),
    ([DAY, value(1), WRONG], is_at(2, "locale=de night=1 density=120")),
    ([DAY, value(1), at_most(1, "night"), value(1), WRONG], is_at(4, "locale=de night=2 density=120")),
    ([DAY, value(1), at_most(2, "night"), WRONG], rejected(2, EMPTY)),
    # French without a region, and the two others.
    ([FRENCH, WRONG], is_at(1, "locale=fr density=120")),
    ([FRENCH, FRENCH, WRONG], rejected(1, EMPTY)),
    ([FRENCH, value(1), WRONG], is_at(2, "locale=de density=120")),
    ([FRENCH, value(1), among("locale", "de"), value(1), WRONG], is_at(4, "locale=fr-CA density=120")),
    ([FRENCH, value(1), among("locale", "de", "fr-CA"), WRONG], rejected(2, EMPTY)),
    # Tests of a wrong kind, and such as all or none pass.
    ([among("density")], rejected(0, "N4 TestKind")),
    ([at_most(2, "night")], rejected(0, EMPTY)),
    ([at_most(0, "mcc")], rejected(0, EMPTY)),
    ([among("night", 3)], rejected(0, EMPTY)),
    ([among("night", 2, 1, 0)], rejected(0, EMPTY)),
    ([among("locale", "it")], rejected(0, EMPTY)),
    ([among("locale")], rejected(0, EMPTY)),
]


def of_halves():
    for nodes, told in HALVES:
        yield checked(PLAIN, THREE_LOCALES, certificate_of(tree(*nodes)), told)
    # A range that ends with the greatest number of its coordinate.
    for name, most in GREATEST.items():
        box, last = with_values(name, {"from": most - 1, "to": most}), device_text(MEDIUM | {name: most})
        yield checked(PLAIN, box, certificate_of(tree(at_most(most - 1, name), value(1), WRONG)), is_at(2, last))
    # A box with two values of each coordinate, divided at each of them.
    box = {name: ["de", "fr"] if name == "locale" else [1, 2] for name in COORDS}
    for divided in COORDS:
        named = {name: f"{name}={box[name][name == divided]}" for name in COORDS}
        test, first = among(divided, box[divided][0]), " ".join(f"{name}={values[0]}" for name, values in box.items())
        yield checked(PLAIN, box, certificate_of(tree(test, WRONG)), is_at(1, first))
        yield checked(PLAIN, box, certificate_of(tree(test, value(1), WRONG)), is_at(2, " ".join(named.values())))


# ---- what all devices answer

LEVELS = with_values("sdk", {"from": 19, "to": 25})
FRENCH_ONES = with_values("locale", ["fr", "fr-CA"])
WIDE = MEDIUM_BOX | {"widthDp": {"from": 5, "to": 65535}, "heightDp": {"from": 3, "to": 4}}

MATCH = [
    # A box, the configuration of a row, and what it matches: True for all devices; the first device where it matches none; or
    # two devices, of which it matches the first alone.
    (LEVELS, "sdk=21", ("density=160 sdk=21", "density=160 sdk=20")),
    (LEVELS, "sdk=19", True),
    (LEVELS, "sdk=26", "density=160 sdk=19"),
    (LEVELS, "", True),
    (LEVELS, "density=65535", True),
    (LEVELS, "mcc=310,sdk=21", "density=160 sdk=19"),
    (with_values("mcc", {"from": 309, "to": 310}), "mcc=310", ("mcc=310 density=160", "mcc=309 density=160")),
    (with_values("keysHidden", {"from": 2, "to": 3}), "keysHidden=1", ("density=160 keysHidden=3", "density=160 keysHidden=2")),
    (with_values("keysHidden", [1, 3]), "keysHidden=1", True),
    (FRENCH_ONES, "locale=fr", True),
    (FRENCH_ONES, "locale=fr-CA", ("locale=fr-CA density=160", "locale=fr density=160")),
    (with_values("locale", ["de", "fr"]), "locale=it", "locale=de density=160"),
    (with_values("locale", ["sr"]), "locale=sr,script=4c61746e", "locale=sr density=160"),
]

BETTER = [
    # A box, two configurations that all its devices match, and whether the first is better.
    # (320 - 197) * 320 is above 197 * 197, and (320 - 198) * 320 is not above 198 * 198.
    (densities(198, 32767), "density=320", "density=160", True),
    (densities(120, 198), "density=160", "density=320", ("density=197", "density=198")),
    # None is a number like others: (640 - 633) * 65535 is above 633 * 633, and (640 - 634) * 65535 is not above 634 * 634.
    (densities(120, 633), "density=320", "density=65535", True),
    (densities(120, 634), "density=320", "density=65535", ("density=633", "density=634")),
    # Any is better.
    (densities(1, 32767), "density=65534", "density=65535", True),
    (densities(1, 32767), "density=65535", "density=65534", False),
    # Without a density it is 160. Both are better than the other from there on, and neither is below.
    (densities(160, 32767), "", "density=160", True),
    (densities(1, 159), "", "density=160", False),
    # What is left of width and height is 400 and 600, and then as much by either.
    (MEDIUM_BOX | {"widthDp": [600], "heightDp": [400]}, "widthDp=600", "heightDp=400", True),
    (MEDIUM_BOX | {"widthDp": [600], "heightDp": [400]}, "widthDp=400", "heightDp=400", False),
    (WIDE, "widthDp=5,heightDp=3", "widthDp=4", True),
    (with_values("keysHidden", [3]), "keysHidden=3", "keysHidden=1", True),
    (with_values("locale", ["fr"]), "locale=fr", "", True),
    (with_values("mcc", [310]), "mcc=310", "", True),
    (with_values("sdk", [21]), "sdk=21", "sdk=21", False),
]


def told_of(answer):
    """What is said of a leaf: True where it is right; a device where it has no value; or two devices that differ there."""
    if answer is True:
        return accepted(1)
    if isinstance(answer, str):
        return rejected(0, "N7 NoValue", f"device {answer}", f"end absent {ID}")
    return rejected(0, "N6 MixedTrace", f"first {answer[0]}", f"second {answer[1]}")


def of_answers():
    for box, record, answer in MATCH:
        yield checked(f"0 [{record}] 1", box, certificate_of(tree(value(1))), told_of(answer))
    for box, record, other, answer in BETTER:
        leaf = value(1 if answer is False else 2)
        yield checked(f"0 [{other}] 1\n0 [{record}] 2", box, certificate_of(tree(leaf)), told_of(answer or True))


# ---- devices that are told as one

TEN_LEVELS = with_values("sdk", {"from": 0, "to": 9})
LANGUAGES = ["es", "de", "fr", "fr-CA", "it"]
MANY_COUNTRIES = with_values("mcc", list(range(512)))
MANY_LOCALES = with_values("locale", [*languages(500), *(f"zz-A{letter}" for letter in "ABCDEFGHIJKL")])
BY_REFERENCE = f"1 [] {{0}}\n1 [night=2] {{0}}\n2 [] {{1}}"
"""Behind two references, of which the first alone asks for the night."""

JOINED = [
    # The rows of a base before a change and after it, a box, and the devices on which entry 0 is 2 where it was 1, a line each.
    # Rows that say the same part them, and no line does.
    (PLAIN, PLAIN, MEDIUM_BOX, []),
    (PLAIN, "0 [] 1\n0 [night=1] 2", with_values("night", [1, 2]), ["night=1"]),
    # Ranges that follow one another.
    ("0 [] 1\n0 [sdk=3] 1", "0 [] 2\n0 [sdk=6] 1", TEN_LEVELS, ["sdk=0..5"]),
    ("0 [] 1\n0 [sdk=8] 1", "0 [] 1\n0 [sdk=7] 2", with_values("sdk", {"from": 0, "to": 65535}), ["sdk=7..65535"]),
    # Lists.
    ("0 [] 1\n0 [night=2] 1", "0 [] 2\n0 [night=1] 1", with_values("night", [0, 1, 2, 3]), ["night=0,2,3"]),
    ("0 [] 1\n0 [mcc=262] 1", "0 [] 2\n0 [mcc=505] 1", with_values("mcc", [0, 262, 310, 505]), ["mcc=0,262,310"]),
    ("0 [] 1\n0 [locale=fr] 1", "0 [] 2\n0 [locale=es] 1", with_values("locale", LANGUAGES), ["locale=de,fr,fr-CA,it"]),
    # The other coordinates are alike.
    (
        "0 [] 1\n0 [sdk=30] 1",
        "0 [] 2\n0 [sdk=31] 1",
        MEDIUM_BOX | {"mnc": [1], "sdk": {"from": 26, "to": 34}, "minor": [2]},
        ["sdk=26..30"],
    ),
    # A gap.
    (PLAIN, "0 [] 2\n0 [sdk=3] 1\n0 [sdk=4] 2\n0 [sdk=6] 1", TEN_LEVELS, ["sdk=0..2", "sdk=4..5"]),
    # Two coordinates differ.
    (
        PLAIN,
        "0 [night=1] 2\n0 [night=1,sdk=3] 1\n0 [night=2] 1\n0 [night=2,sdk=3] 2",
        MEDIUM_BOX | {"night": [1, 2], "sdk": {"from": 0, "to": 5}},
        ["night=1 sdk=0..2", "night=2 sdk=3..5"],
    ),
    (
        PLAIN,
        "0 [] 1\n0 [mcc=1] 2\n0 [minor=1] 2\n0 [mcc=1,minor=1] 1",
        MEDIUM_BOX | {"mcc": [0, 1], "minor": [0, 1]},
        ["mcc=0 minor=1", "mcc=1 minor=0"],
    ),
    # Several.
    (
        "0 [] 1\n0 [sdk=3] 1\n0 [sdk=6] 1",
        "0 [] 2\n0 [sdk=7] 1\n0 [sdk=9] 2",
        TEN_LEVELS,
        ["sdk=0..6", "sdk=9"],
    ),
    (
        "0 [] 1\n0 [locale=fr] 1\n0 [locale=fr-CA] 1\n0 [locale=en] 1",
        "0 [] 2\n0 [locale=es] 1",
        with_values("locale", ["en", *LANGUAGES]),
        ["locale=de,en,fr,fr-CA,it"],
    ),
    # Along two coordinates: first both nights up to level 30, and these with the levels above; and three of four quarters.
    (
        f"0 [] @0x7f010001\n0 [sdk=31] @0x7f010002\n{BY_REFERENCE.format(1, 1)}",
        f"0 [] 1\n0 [sdk=26] 2\n{BY_REFERENCE.format(1, 1)}",
        MEDIUM_BOX | {"night": [1, 2], "sdk": {"from": 21, "to": 34}},
        ["sdk=26..34"],
    ),
    (
        "0 [] 1\n1 [] 1\n2 [] 1",
        "0 [] @0x7f010001\n0 [sdk=31] @0x7f010002\n1 [] 2\n1 [night=2] 2\n2 [] 1\n2 [night=2] 2",
        MEDIUM_BOX | {"night": [1, 2], "sdk": {"from": 26, "to": 34}},
        ["night=2 sdk=31..34", "sdk=26..30"],
    ),
    # As many values as a list may have: 500 and twelve others, each in a row of its own, or all in one.
    ("\n".join([PLAIN, *(f"0 [mcc={number}] 1" for number in range(500, 512))]), "0 [] 2", MANY_COUNTRIES, [""]),
    ("0 [] 1\n0 [locale=zz] 1", "0 [] 2", MANY_LOCALES, [""]),
]


def of_joined():
    for old, new, box, devices in JOINED:
        yield changed_on(devices, old, new, box)


if __name__ == "__main__":
    check_groups([of_texts, of_devices, of_halves, of_answers, of_joined])

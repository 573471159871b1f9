#!/usr/bin/env python3
"""Asks the program about small certificates whose verdicts were worked out by hand, and about texts that are none:

    worked_certificates.py PROGRAM [JOBS]

The cases are such as worked_rows.py has, and what is printed of them is the same."""
from worked_rows import A, B, BAD, FIRST, ID, MEDIUM_BOX, NOWHERE, SAME, SECOND, TO_198, Case, check_groups, files_of, lines, named_table, over

CHECK, MAKE, SHOW = f"check layers box certificate {ID}", f"make layers box {ID}", "show --raw layers certificate"


def value(word, layer=0):
    return {"layer": layer, "kind": 16, "word": word}


def at_most(number, coord="density"):
    return {"coord": coord, "atMost": number}


def among(coord, *listed):
    return {"coord": coord, "in": listed}


def densities(low, high):
    return {"density": {"from": low, "to": high}}


def accepted(nodes):
    return [f"accepted goals 1 nodes {nodes}"]


def rejected(node, rule, *shown, goal=0):
    return [f"rejected goal {goal} node {node} {rule}", *shown]


def tree(*nodes, name=ID):
    return {"id": name, "nodes": nodes}


def tree_under(attr, styles, *nodes):
    return {"attr": attr, "styles": styles, "nodes": nodes}


def certificate_of(*goals, version=1):
    return {"version": version, "goals": goals}


def checked(rows, box, certificate, told, goal=ID):
    """What is said of a certificate, in which one goal is asked."""
    out = lines([*told, f"set-aside {'script' in rows:d}"])
    status = not told[0].startswith("accepted")
    return Case(["check", "layers", "box", "certificate", goal], out, "", status, **files_of([rows]), box=box, certificate=certificate)


# ---- verdicts

PLAIN = "0 [] 1"
MEDIUM_AND_HIGH = "0 [density=160] 1\n0 [density=320] 2"
HIGH_AND_NONE = "0 [density=320] 1\n0 [density=65535] 2"
DEFAULT_AND_MEDIUM = "0 [] 1\n0 [density=160] 2"
SMALL_AND_DEFAULT = "0 [screenSize=1] 1\n0 [] 2"
NIGHT_AND_DAY = {"density": [160], "night": [1, 2]}
FRENCH_AND_GERMAN = {"density": [160], "locale": ["fr", "de"]}
ALIKE_AT_NIGHT = "0 [] 1\n0 [night=2] 1"
NOWHERE_AT_NIGHT = f"0 [] @{NOWHERE}\n0 [night=2] @{NOWHERE}"
BAG, OTHER_BAG = {"bag": ID}, {"bag": SECOND}
PARTED = at_most(197), value(1), value(2)

CHECKED = [
    # The rows of a table, a box, the nodes of a tree for entry 0, and what is said of it.
    # One device.
    (PLAIN, MEDIUM_BOX, [value(1)], accepted(1)),
    (PLAIN, MEDIUM_BOX, [value(1, layer=1)], rejected(0, "N8 OtherValue", "device density=160", "end value layer 0 decimal 1")),
    (PLAIN, MEDIUM_BOX, [BAG], rejected(0, "N8 OtherValue", "device density=160", "end value layer 0 decimal 1")),
    (f"0 [] @{ID}", MEDIUM_BOX, [value(1)], rejected(0, "N7 NoValue", "device density=160", f"end too long {ID}")),
    # At 197 the smaller density is better, since (320 - 197) * 320 is above 197 * 197; at 198 it is not.
    (MEDIUM_AND_HIGH, densities(120, 197), [value(1)], accepted(1)),
    (MEDIUM_AND_HIGH, TO_198, [value(1)], rejected(0, "N6 MixedTrace", "first density=198", "second density=197")),
    (MEDIUM_AND_HIGH, TO_198, PARTED, accepted(3)),
    # 65535 counts as a number: at 633 (640 - 633) * 65535 is above 633 * 633, at 634 (640 - 634) * 65535 is not above
    # 634 * 634.
    (HIGH_AND_NONE, densities(120, 633), [value(1)], accepted(1)),
    (HIGH_AND_NONE, densities(120, 634), [value(1)], rejected(0, "N6 MixedTrace", "first density=634", "second density=633")),
    # Densities of 0 and 160 are both better than the other from 160 on, and neither is below.
    (DEFAULT_AND_MEDIUM, densities(160, 32767), [value(2)], accepted(1)),
    (DEFAULT_AND_MEDIUM, densities(1, 159), [value(1)], accepted(1)),
    (DEFAULT_AND_MEDIUM, densities(1, 32767), [value(2)], rejected(0, "N6 MixedTrace", "first density=160", "second density=159")),
    # Sizes from normal up answer alike.
    (
        SMALL_AND_DEFAULT,
        {"density": [160], "screenSize": {"from": 1, "to": 2}},
        [value(2)],
        rejected(0, "N6 MixedTrace", "first screenSize=2 density=160", "second screenSize=1 density=160"),
    ),
    (SMALL_AND_DEFAULT, {"density": [160], "screenSize": {"from": 2, "to": 4}}, [value(2)], accepted(1)),
    # A level answers as those above it.
    (
        "0 [sdk=21] 1\n0 [] 2",
        {"density": [160], "sdk": {"from": 19, "to": 25}},
        [value(2)],
        rejected(0, "N6 MixedTrace", "first density=160 sdk=21", "second density=160 sdk=20"),
    ),
    # Languages.
    ("0 [locale=fr] 1\n0 [locale=de] 2", FRENCH_AND_GERMAN, [among("locale", "fr"), value(1), value(2)], accepted(3)),
    (
        "0 [locale=fr] 1",
        FRENCH_AND_GERMAN,
        [among("locale", "fr"), value(1), value(1)],
        rejected(2, "N7 NoValue", "device locale=de density=160", f"end absent {ID}"),
    ),
    ("0 [] 1\n0 [locale=sr,script=4c61746e] 2", {"density": [160], "locale": ["sr"]}, [value(1)], accepted(1)),
    # Bags, and what stands behind a reference.
    ("0 [] bag 0x00000000", densities(1, 32767), [BAG], accepted(1)),
    ("0 [] bag 0x00000000", MEDIUM_BOX, [OTHER_BAG], rejected(0, "N8 OtherValue", "device density=160", f"end bag {ID}")),
    (f"0 [] @{SECOND}\n1 [] 1", densities(1, 32767) | {"night": [0, 1, 2]}, [value(1)], accepted(1)),
    # Values and ends that are alike, by different decisions.
    (
        ALIKE_AT_NIGHT,
        NIGHT_AND_DAY,
        [value(1)],
        rejected(0, "N6 MixedTrace", "first night=2 density=160", "second night=1 density=160"),
    ),
    (ALIKE_AT_NIGHT, NIGHT_AND_DAY, [among("night", 2), value(1), value(1)], accepted(3)),
    (ALIKE_AT_NIGHT, NIGHT_AND_DAY, [at_most(1, "night"), value(1), value(1)], accepted(3)),
    (
        NOWHERE_AT_NIGHT,
        NIGHT_AND_DAY,
        [value(1)],
        rejected(0, "N6 MixedTrace", "first night=2 density=160", "second night=1 density=160"),
    ),
    (
        NOWHERE_AT_NIGHT,
        NIGHT_AND_DAY,
        [at_most(1, "night"), value(1), value(1)],
        rejected(1, "N7 NoValue", "device night=1 density=160", f"end absent {NOWHERE}"),
    ),
    # Trees.
    (PLAIN, densities(120, 640), [at_most(197), value(1), value(1)], accepted(3)),
    (
        PLAIN,
        densities(120, 640),
        [at_most(160), at_most(140), value(9), value(1), value(9)],
        rejected(2, "N8 OtherValue", "device density=120", "end value layer 0 decimal 1"),
    ),
    (
        PLAIN,
        densities(120, 640),
        [at_most(160), at_most(140), value(1), value(1), value(9)],
        rejected(4, "N8 OtherValue", "device density=161", "end value layer 0 decimal 1"),
    ),
    (PLAIN, densities(120, 640), [], rejected(0, "N2 EndsEarly")),
    (PLAIN, densities(120, 640), [at_most(160), value(1)], rejected(2, "N2 EndsEarly")),
    (PLAIN, densities(120, 640), [at_most(160), at_most(160), value(1)], rejected(1, "N5 EmptyHalf")),
    (PLAIN, densities(120, 640), [value(1), value(1)], rejected(1, "N3 LeftOver")),
    (PLAIN, densities(120, 640), [at_most(0, "locale"), value(1), value(1)], rejected(0, "N4 TestKind")),
    (PLAIN, densities(120, 640), [at_most(640), value(1), value(1)], rejected(0, "N5 EmptyHalf")),
    (PLAIN, densities(120, 640), [at_most(119), value(1), value(1)], rejected(0, "N5 EmptyHalf")),
    (PLAIN, densities(120, 640), [among("density", 160), value(1), value(1)], rejected(0, "N4 TestKind")),
    (PLAIN, MEDIUM_BOX, [among("night"), value(1), value(1)], rejected(0, "N5 EmptyHalf")),
]

GOAL_LISTS = [
    # The goals of a certificate, and what is said of it where entry 0 is asked.
    ([tree(value(1), name=SECOND)], rejected(0, "N1 GoalList")),
    ([], rejected(0, "N1 GoalList")),
    ([tree(), tree(name=SECOND)], rejected(0, "N1 GoalList", goal=1)),
    ([tree()], rejected(0, "N2 EndsEarly")),
]

MOST_TESTS = 20000
LAST_LEAF = MOST_TESTS + 1


def of_verdicts():
    for rows, box, nodes, told in CHECKED:
        yield checked(rows, box, certificate_of(tree(*nodes)), told)
    for goals, told in GOAL_LISTS:
        yield checked("0 [] 1\n1 [] 2", MEDIUM_BOX, certificate_of(*goals), told)
    # A test for each density, with a leaf behind each; and with all leaves behind all tests, so that all halves are open.
    tests = [at_most(density) for density in range(1, LAST_LEAF)]
    for nodes in (
        [node for test in tests for node in (test, value(1))] + [value(1)],
        [*reversed(tests), *[value(1)] * LAST_LEAF],
    ):
        yield checked(PLAIN, densities(1, LAST_LEAF), certificate_of(tree(*nodes)), accepted(MOST_TESTS + LAST_LEAF))


STYLES = f"0 [] bag 0x00000000 {A}=1\n0 [density=320] bag 0x00000000 {A}=2\n1 [] bag 0x00000000 {A}=7"
"""Two styles. The first has a row for dense screens too."""

STYLED = [
    # An attribute and its styles, a box, the nodes of a tree for it, and what is said of that.
    (A, [FIRST], TO_198, PARTED, accepted(3)),
    (A, [FIRST], densities(120, 197), [value(1)], accepted(1)),
    (A, [FIRST], densities(198, 640), [value(2)], accepted(1)),
    (A, [FIRST], TO_198, [value(1)], rejected(0, "N6 MixedTrace", "first density=198", "second density=197")),
    (A, [FIRST, NOWHERE], TO_198, [value(1)], rejected(0, "N6 MixedTrace", "first density=198", "second density=197")),
    (A, [NOWHERE], TO_198, [value(1)], rejected(0, "N7 NoValue", "device density=120", f"end absent {NOWHERE}")),
    (A, [NOWHERE, FIRST], TO_198, [value(1)], rejected(0, "N7 NoValue", "device density=120", f"end absent {NOWHERE}")),
    (B, [FIRST], MEDIUM_BOX, [value(1)], rejected(0, "N7 NoValue", "device density=160", f"end absent {B}")),
    (A, [FIRST, SECOND], MEDIUM_BOX, [value(7)], accepted(1)),
    (A, [SECOND, FIRST], MEDIUM_BOX, [value(1)], accepted(1)),
]


def of_attributes():
    for attr, styles, box, nodes, told in STYLED:
        certificate = certificate_of(tree_under(attr, styles, *nodes), version=2)
        yield checked(STYLES, box, certificate, told, f"{attr}@{','.join(styles)}")
    # Other goals than the first attribute under the first style and then the second.
    both = [FIRST, SECOND]
    others = [tree_under(A, styles, value(1)) for styles in ([], [FIRST], [SECOND, FIRST], [*both, SECOND])]
    others.append(tree_under(B, both, value(1)))
    for certificate in (*(certificate_of(other, version=2) for other in others), certificate_of(tree(name=A))):
        yield checked(STYLES, MEDIUM_BOX, certificate, rejected(0, "N1 GoalList"), f"{A}@{FIRST},{SECOND}")


# ---- all goals that fail

BOTH = "0 [] 1\n1 [] 2"
WRONG_VALUES = rejected(0, "N8 OtherValue", "device density=160", "end value layer 0 decimal 1")
NIGHT_PAIR = ["first night=2 density=160", "second night=1 density=160"]

ALL = [
    # The rows of a table, a box, the goals of a certificate with their trees, and what is printed of those that are asked for.
    (BOTH, MEDIUM_BOX, [tree(value(1)), tree(value(2), name=SECOND)], [ID, SECOND], ["accepted goals 2 nodes 2"]),
    (BOTH, MEDIUM_BOX, [tree(value(9)), tree(value(2), name=SECOND)], [ID, SECOND], [*WRONG_VALUES, "failed 1 of 2 goals"]),
    (
        BOTH,
        MEDIUM_BOX,
        [tree(value(9)), tree(value(1)), tree(name=SECOND), tree(value(2), value(2), name=SECOND), tree(value(2), name=SECOND)],
        [ID, ID, SECOND, SECOND, SECOND],
        [*WRONG_VALUES, *rejected(0, "N2 EndsEarly", goal=2), *rejected(1, "N3 LeftOver", goal=3), "failed 3 of 5 goals"],
    ),
    (
        f"{ALIKE_AT_NIGHT}\n1 [night=2] 2",
        NIGHT_AND_DAY,
        [tree(among("night", 2), value(1), value(1)), tree(value(1)), tree(among("night", 2), value(2), value(2), name=SECOND)],
        [ID, ID, SECOND],
        [
            *rejected(0, "N6 MixedTrace", *NIGHT_PAIR, goal=1),
            *rejected(2, "N7 NoValue", "device night=1 density=160", f"end absent {SECOND}", goal=2),
            "failed 2 of 3 goals",
        ],
    ),
    # Other goals: none is judged.
    (BOTH, MEDIUM_BOX, [tree(value(9))], [SECOND], rejected(0, "N1 GoalList")),
    (BOTH, MEDIUM_BOX, [tree(value(9))], [ID, SECOND], rejected(0, "N1 GoalList", goal=1)),
    (BOTH, MEDIUM_BOX, [tree(value(9)), tree(name=SECOND)], [ID], rejected(0, "N1 GoalList", goal=1)),
]


def of_all():
    for rows, box, trees, goals, told in ALL:
        out = lines([*told, "set-aside 0"])
        status = not told[0].startswith("accepted")
        files = {**files_of([rows]), "box": box, "certificate": certificate_of(*trees)}
        yield Case(["check", "--all", "layers", "box", "certificate", *goals], out, "", status, **files)
        failing = [words.split(" ")[2] for words in told if words.startswith("rejected")]
        said = lines(f"goal {place} {goals[int(place)]}" for place in failing if int(place) < len(goals))
        yield Case(["check", "--all", "--names", "layers", "box", "certificate", *goals], out, said, status, **files)


# ---- in Android's notation

IN_WORDS = {
    "N1 GoalList": "the certificate is for other goals",
    "N2 EndsEarly": "the list of nodes ends before the tree",
    "N3 LeftOver": "the tree ends before this node",
    "N4 TestKind": "the box cannot be tested like this",
    "N5 EmptyHalf": "all devices there answer alike",
    "N6 MixedTrace": "devices there come to it by different decisions",
    "N7 NoValue": "it has no value there",
    "N8 OtherValue": "it has another value there",
}
ONE = "claimed 1 from layers0"
BY_NIGHT = f"0 [] @{SECOND}\n0 [locale=de] @{SECOND}\n1 [night=2] 3\n1 [] 4"
ON_ONE_PHONE = {"density": [160], "locale": ["de"], "night": [2], "sdk": [26], "uiType": [1]}

NOTATED = [
    # The rows of a table, a box, the nodes of a tree for entry 0, the node and the rule at which it is rejected, and what is shown.
    (PLAIN, MEDIUM_BOX, [value(2)], 0, "N8 OtherValue", ["claimed 2 from layers0", "on any device: 1 from layers0 (default)"]),
    (PLAIN, MEDIUM_BOX, [value(1, layer=1)], 0, "N8 OtherValue", ["claimed 1 from layer 1", "on any device: 1 from layers0 (default)"]),
    (PLAIN, MEDIUM_BOX, [BAG], 0, "N8 OtherValue", [f"claimed bag {ID}", "on any device: 1 from layers0 (default)"]),
    ("0 [] bag 0x00000000", MEDIUM_BOX, [OTHER_BAG], 0, "N8 OtherValue", [f"claimed bag {SECOND}", "on any device: bag from layers0 (default)"]),
    (f"0 [] @{ID}", MEDIUM_BOX, [value(1)], 0, "N7 NoValue", [ONE, f"on any device: too many references {ID}"]),
    (f"0 [] @{NOWHERE}", MEDIUM_BOX, [value(1)], 0, "N7 NoValue", [ONE, f"on any device: absent {NOWHERE}"]),
    # Of a device stands what rows have, of all ids on the way.
    (BY_NIGHT, ON_ONE_PHONE, [value(9)], 0, "N8 OtherValue", ["claimed 9 from layers0", "on de night: 3 from layers0 night"]),
    (
        BY_NIGHT,
        ON_ONE_PHONE | {"night": [1], "locale": [""]},
        [value(9)],
        0,
        "N8 OtherValue",
        ["claimed 9 from layers0", "on no-locale notnight: 4 from layers0 (default)"],
    ),
    # Where two differ is marked.
    (MEDIUM_AND_HIGH, TO_198, [value(1)], 0, "N6 MixedTrace", [ONE, "on *198dpi*: 2 from layers0 xhdpi", "on *197dpi*: 1 from layers0 mdpi"]),
    ("0 [locale=fr] 1\n0 [] 2", FRENCH_AND_GERMAN, [value(1)], 0, "N6 MixedTrace", [ONE, "on *fr*: 1 from layers0 fr", "on *de*: 2 from layers0 (default)"]),
    (
        f"{MEDIUM_AND_HIGH}\n0 [night=2] 9",
        TO_198 | {"night": [1]},
        [value(1)],
        0,
        "N6 MixedTrace",
        [ONE, "on notnight *198dpi*: 2 from layers0 xhdpi", "on notnight *197dpi*: 1 from layers0 mdpi"],
    ),
    (
        SMALL_AND_DEFAULT,
        {"density": [160], "screenSize": {"from": 1, "to": 2}},
        [value(2)],
        0,
        "N6 MixedTrace",
        ["claimed 2 from layers0", "on *normal*: 2 from layers0 (default)", "on *small*: 1 from layers0 small"],
    ),
    # No device is shown.
    (PLAIN, densities(120, 640), [at_most(160), value(1)], 2, "N2 EndsEarly", []),
    (PLAIN, densities(120, 640), [value(1), value(1)], 1, "N3 LeftOver", []),
    (PLAIN, densities(120, 640), [at_most(0, "locale"), value(1), value(1)], 0, "N4 TestKind", []),
    (PLAIN, densities(120, 640), [at_most(640), value(1), value(1)], 0, "N5 EmptyHalf", []),
]

NOTATED_STYLES = [
    # The same of an attribute under styles.
    (A, [FIRST], TO_198, "N6 MixedTrace", ["on *198dpi*: 2 from layers0", "on *197dpi*: 1 from layers0"]),
    (A, [FIRST, NOWHERE], TO_198, "N6 MixedTrace", [f"on *198dpi*: absent {NOWHERE}", f"on *197dpi*: absent {NOWHERE}"]),
    (A, [NOWHERE, FIRST], TO_198, "N7 NoValue", [f"on any device: absent {NOWHERE}"]),
    (B, [FIRST], MEDIUM_BOX, "N7 NoValue", [f"on mdpi: absent {B}"]),
    (A, [FIRST, SECOND], MEDIUM_BOX, "N8 OtherValue", ["on mdpi: 7 from layers0"]),
]


def in_words(goal, node, rule, *shown):
    return [f"rejected {goal} node {node} {rule}: {IN_WORDS[rule]}", *(f"  {line}" for line in shown)]


def notated(layers, box, trees, asked, told, options="--android", said="", version=1):
    files = {**files_of(layers), "box": box, "certificate": certificate_of(*trees, version=version)}
    words = ["check", *options.split(" "), "layers", "box", "certificate", *asked]
    return Case(words, lines([*told, "set-aside 0"]), said, told[0].startswith("rejected"), **files)


def of_notated_styles():
    for attr, styles, box, rule, shown in NOTATED_STYLES:
        told = in_words(f"{attr} under {' '.join(styles)}", 0, rule, ONE, *shown)
        yield notated([STYLES], box, [tree_under(attr, styles, value(1))], [f"{attr}@{','.join(styles)}"], told, version=2)


def of_notation():
    for rows, box, nodes, node, rule, shown in NOTATED:
        yield notated([rows], box, [tree(*nodes)], [ID], in_words(ID, node, rule, *shown))
    yield from of_notated_styles()
    overlaid = ["0 [] 1", ("0 [] 2", SAME)]
    yield notated(overlaid, MEDIUM_BOX, [tree(value(1))], [ID], in_words(ID, 0, "N8 OtherValue", ONE, "on any device: 2 from layers1 (default)"))
    named = named_table({"dimen/handle": 5})
    told = in_words("dimen/handle", 0, "N8 OtherValue", "claimed 9 from layers0", "on any device: 5 from layers0 (default)")
    yield notated([named], MEDIUM_BOX, [tree(value(9))], ["dimen/handle"], told)
    yield notated([PLAIN], MEDIUM_BOX, [tree(value(1))], [ID], ["accepted goals 1 nodes 1"])
    # Other goals: by its name the one that is asked for, if there is one.
    yield notated([BOTH], MEDIUM_BOX, [tree(value(9))], [SECOND], in_words(SECOND, 0, "N1 GoalList"))
    yield notated([BOTH], MEDIUM_BOX, [tree(value(9))], [ID, SECOND, SECOND], in_words(SECOND, 0, "N1 GoalList"), "--all --android")
    yield notated([BOTH], MEDIUM_BOX, [tree(value(9)), tree(name=SECOND)], [ID], in_words("goal 1", 0, "N1 GoalList"))
    # All goals that fail.
    trees = [tree(value(9)), tree(value(1)), tree(name=SECOND), tree(value(3), name=SECOND)]
    told = [
        *in_words(ID, 0, "N8 OtherValue", "claimed 9 from layers0", "on any device: 1 from layers0 (default)"),
        *in_words(SECOND, 0, "N2 EndsEarly"),
        *in_words(SECOND, 0, "N8 OtherValue", "claimed 3 from layers0", "on any device: 2 from layers0 (default)"),
    ]
    asked = [ID, ID, SECOND, SECOND]
    said = lines(f"goal {place} {asked[place]}" for place in (0, 2, 3))
    yield notated([BOTH], MEDIUM_BOX, trees, asked, told[:3])
    yield notated([BOTH], MEDIUM_BOX, trees, asked, [*told, "failed 3 of 4 goals"], "--all --android")
    yield notated([BOTH], MEDIUM_BOX, trees, asked, [*told, "failed 3 of 4 goals"], "--all --android --names", said)


# ---- texts

def refused(text, fault):
    return Case(CHECK, "", f"refused: certificate: {fault}\n", 3, **files_of([]), box=MEDIUM_BOX, certificate=text)


def shown(text, *told):
    """What a text says, over no layers."""
    return Case(SHOW, lines(told), **files_of([]), certificate=text)


FAULTS = [
    ("", "Syntax"),
    ('{"version":1,"goals":[]} x', "Syntax"),
    # No object, whatever else it is.
    ("[]", "Shape 0 0"),
    ("null", "Shape 0 0"),
    # The version comes before other members.
    ("{}", "Version"),
    ('{"goals":[]}', "Version"),
    *((f'{{"version":{version},"goals":[]}}', "Version") for version in ("0", "3", '"1"', "1.0", "true", "null")),
    ('{"version":3,"other":0}', "Version"),
    ('{"version":1,"goals":[],"other":0}', "Shape 0 0"),
    ('{"version":1}', "Shape 0 0"),
    ('{"version":1,"goals":{}}', "Shape 0 0"),
    # Of a member that stands twice the last counts.
    ('{"version":1,"version":3,"goals":[]}', "Version"),
    # Goals and nodes are counted from 0, and looked at in their order.
    ('{"version":1,"goals":[{"id":"0x7f010000","nodes":[{"bag":5}]}]}', "Shape 0 0"),
    ('{"version":1,"goals":[{"id":"0x7f010000","nodes":[]},5]}', "Shape 1 0"),
    ('{"version":1,"goals":[{"id":"0x7f010000","nodes":[{"bag":"0x7f010000"},5]},5]}', "Shape 0 1"),
    (
        '{"version":2,"goals":[{"attr":"0x01010001","styles":[],"nodes":[{"bag":"0x7f010000"},5]},5]}',
        "Shape 0 1",
    ),
]

NO_GOALS = [
    # A version, and what is no goal in it.
    (1, "0"),
    (1, "{}"),
    (1, '{"id":"0x7f010000"}'),
    (1, '{"nodes":[]}'),
    (1, '{"id":"0x7f01000","nodes":[]}'),
    (1, '{"id":"0x7f01","nodes":[]}'),
    (1, '{"id":2130771968,"nodes":[]}'),
    (1, '{"id":"0x7f010000","nodes":{}}'),
    (1, '{"id":"0x7f010000","nodes":[],"styles":[]}'),
    (1, '{"attr":"0x01010001","styles":[],"nodes":[]}'),
    (2, "0"),
    (2, "{}"),
    (2, '{"attr":"0x01010001","nodes":[]}'),
    (2, '{"styles":[],"nodes":[]}'),
    (2, '{"attr":"0x01010001","styles":[]}'),
    (2, '{"attr":"0x0101","styles":[],"nodes":[]}'),
    (2, '{"attr":16842753,"styles":[],"nodes":[]}'),
    (2, '{"attr":"0x01010001","styles":"0x7f010000","nodes":[]}'),
    (2, '{"attr":"0x01010001","styles":["0x7f010000","0x7f01"],"nodes":[]}'),
    (2, '{"attr":"0x01010001","styles":[],"nodes":{}}'),
    (2, '{"attr":"0x01010001","styles":[],"nodes":[],"other":0}'),
    (2, '{"id":"0x7f010000","attr":"0x01010001","styles":[],"nodes":[]}'),
    (2, '{"id":"0x7f010000","styles":[],"nodes":[]}'),
]

NO_NODES = [
    "0",
    "{}",
    '{"bag":5}',
    '{"bag":"0x7f0"}',
    '{"bag":"0x7f010000","layer":0}',
    '{"layer":64,"kind":16,"word":1}',
    '{"layer":0,"kind":256,"word":1}',
    '{"layer":0,"kind":16,"word":4294967296}',
    '{"layer":0,"kind":16,"word":-1}',
    '{"layer":0,"kind":16,"word":1.0}',
    '{"layer":0,"kind":16}',
    '{"layer":0,"kind":16,"word":1,"other":0}',
    '{"coord":"density"}',
    '{"coord":"Density","atMost":1}',
    '{"coord":3,"atMost":1}',
    '{"coord":"density","atMost":4294967296}',
    '{"coord":"density","atMost":1,"in":[]}',
    '{"coord":"density","in":160}',
    '{"coord":"density","in":["160"]}',
    '{"coord":"density","in":[4294967296]}',
    '{"coord":"locale","in":[0]}',
    '{"coord":"locale","in":["-FR"]}',
    '{"coord":"locale","in":["fr","fr-fr"]}',
]

NODES = [
    # A node, and what it says.
    ('{"layer":63,"kind":255,"word":4294967295}', "value layer 63 kind 0xff 0xffffffff (no such layer)"),
    ('{"bag":"0xFFFFFFFF"}', "bag 0xffffffff"),
    ('{"coord":"locale","atMost":4294967295}', "if locale at most 4294967295"),
    ('{"coord":"night","in":[]}', "if night one of nothing"),
    ('{"coord":"night","in":[2,1,2]}', "if night one of 2 1 2"),
    ('{"coord":"locale","in":[]}', "if locale one of nothing"),
    ('{"coord":"locale","in":["","fr","fil-PH","es-419","fr"]}', "if locale one of none fr fil-PH es-419 fr"),
]

EACH_KIND = [
    at_most(320), among("night", 2, 1, 2), value(4294967295, layer=63), among("locale", "", "fr", "fil-PH", "es-419"),
    {"bag": "0x7f01000a"},
]


def of_texts():
    for text, fault in FAULTS:
        yield refused(text, fault)
    yield shown('{"version":3,"version":1,"goals":[]}', "goals 0")
    for version, goal in NO_GOALS:
        yield refused(f'{{"version":{version},"goals":[{{"id":"0x7f010000","nodes":[]}},{goal}]}}', "Shape 1 0")
    for node in NO_NODES:
        text = f'{{"version":1,"goals":[{{"id":"0x7f010000","nodes":[{{"bag":"0x7f010000"}},{node}]}}]}}'
        yield refused(text, "Shape 0 1")
    for node, told in NODES:
        ends = ["\t  ends early", "\telse ends early"] if "coord" in node else []
        text = f'{{"version":1,"goals":[{{"id":"0x7f010000","nodes":[{node}]}}]}}'
        yield shown(text, f"goal 0 {ID} nodes 1", f"0\t{told}", *ends, "goals 1")
    yield from of_goals()
    for version in (1, 2):
        yield shown(
            certificate_of(tree(*EACH_KIND), tree(name="0x00000000"), version=version),
            f"goal 0 {ID} nodes 5", "0\tif density at most 320", "1\t  if night one of 2 1 2",
            "2\t    value layer 63 decimal -1 (no such layer)", "3\t  else if locale one of none fr fil-PH es-419",
            "4\t    bag 0x7f01000a", "\t  else ends early", "\telse ends early", "goal 1 0x00000000 nodes 0", "\tends early",
            "goals 2",
        )


def of_goals():
    """Goals of attributes, which are read from version 2 on."""
    goals = [tree_under(A, ["0x7f010002", SECOND], BAG), tree(), tree_under(A, [])]
    yield shown(
        certificate_of(*goals, version=2), f"goal 0 {A} under 0x7f010002 {SECOND} nodes 1", f"0\tbag {ID}",
        f"goal 1 {ID} nodes 0", "\tends early", f"goal 2 {A} under nodes 0", "\tends early", "goals 3",
    )
    for version, styles, fault in ((1, 1, "Shape 0 0"), (2, 1, ""), (2, 64, ""), (2, 65, "Shape 0 0"), (3, 1, "Version")):
        text = certificate_of(tree_under(A, [ID] * styles), version=version)
        told = [f"goal 0 {A} under{f' {ID}' * styles} nodes 0", "\tends early", "goals 1"]
        yield refused(text, fault) if fault else shown(text, *told)


def of_limits():
    """A certificate of two goals: the first has some nodes, the second the number 0 and others behind it. And the values of a
    test."""
    bag, most = '{"bag":"0x7f010000"}', ",7" * 511
    for first, others, fault in (
        (bag, ",0" * 999_998, "Shape 1 0"),
        (bag, ",0" * 999_999, "TooManyNodes"),
        ("0," * 1_000_000 + "0", "", "TooManyNodes"),
        ("0", ",0" * 999_999, "Shape 0 0"),
        (f'{{"coord":"mcc","in":[7{most}]}}', "", "Shape 1 0"),
        (f'{{"coord":"mcc","in":[7,7{most}]}}', "", "Shape 0 0"),
    ):
        goals = f'{{"id":"0x7f010000","nodes":[{first}]}},{{"id":"0x7f010001","nodes":[0{others}]}}'
        yield refused(f'{{"version":1,"goals":[{goals}]}}', fault)


# ---- all texts that a command reads

BLANKS = " " * 70_000
NESTED = "[" * 1000 + "]" * 1000
QUERY = f"query layers device {ID}"


def of_all_texts():
    """Texts of more than 65,536 bytes; lists in lists, which are too deep; and which text is refused first."""
    device, box, own = '{"density":160}', '{"density":[160]}', f'[["{ID}","{SECOND}"]]'
    text = f'{{"version":1,"goals":[{{"id":"{ID}","nodes":[{{"layer":0,"kind":16,"word":1}}]}}]}}'
    of_overlay = f"{ID} value layer 1 decimal 2\nset-aside 0\n"
    yield over([PLAIN, ("1 [] 2", BLANKS + own)], QUERY, of_overlay, device=BLANKS + device)
    two = files_of([PLAIN, ("1 [] 2", own)])
    two["layers"] = f'{BLANKS}[{{"table":"layers0"}},{{"table":"layers1","map":"layers1map"}}]'
    yield Case(QUERY, of_overlay, **two, device=device)
    yield Case(QUERY, "", "refused: layers: Syntax\n", 3, layers=f"{BLANKS}[]]")
    one_leaf = lines([*accepted(1), "set-aside 0"])
    yield Case(CHECK, one_leaf, **files_of([PLAIN]), box=BLANKS + box, certificate=BLANKS + text)
    yield Case(QUERY, "", "refused: layers: Syntax\n", 3, layers=NESTED)
    yield over([PLAIN, (PLAIN, NESTED)], QUERY, "", "refused: layer 1 map: Syntax\n", 3)
    yield over([PLAIN], QUERY, "", "refused: device: Syntax\n", 3, device=NESTED)
    yield over([PLAIN], CHECK, "", "refused: box: Syntax\n", 3, box=NESTED, certificate=text)
    yield over([PLAIN], CHECK, "", "refused: certificate: Syntax\n", 3, box=box, certificate=NESTED)
    for words in (CHECK, MAKE):
        yield over([], words, "", "refused: box: Syntax\n", 3, box="", certificate="")
        for layers, fault in (([PLAIN, BAD], "layer 1 table: NotTable"), ([BAD] * 65, "layers: TooManyLayers")):
            yield over(layers, words, "", f"refused: {fault}\n", 3, box="", certificate="")


GROUPS = [of_verdicts, of_attributes, of_all, of_notation, of_texts, of_limits, of_all_texts]


if __name__ == "__main__":
    check_groups(GROUPS)

"""A plain reading of rejections in Android's notation, from what `check` prints of them without it. For check_certificates.py. The
table of layer L is the file `tableL`, and none has names or strings."""
from case_files import device_of
from plain_bags import Attribute
from plain_certificates import id_text
from plain_devices import word_of
from plain_notation import config_of, xml_text
from plain_rules import COORDS, takes_over

STRING = 3
WORDS = {
    "GoalList": "the certificate is for other goals",
    "EndsEarly": "the list of nodes ends before the tree",
    "LeftOver": "the tree ends before this node",
    "TestKind": "the box cannot be tested like this",
    "EmptyHalf": "all devices there answer alike",
    "MixedTrace": "devices there come to it by different decisions",
    "NoValue": "it has no value there",
    "OtherValue": "it has another value there",
}
ENDS = {"absent": "absent", "too long": "too many references"}


def goal_name(asked, place):
    if place >= len(asked):
        return f"goal {place}"
    goal = asked[place]
    return " ".join([id_text(goal.attr), "under", *map(id_text, goal.styles)]) if isinstance(goal, Attribute) else id_text(goal)


def value_from(case, layer, kind, word):
    text = f"!NoSuch {word}" if kind == STRING else xml_text(kind, word)
    return f"{text} from " + (f"table{layer}" if layer < len(case.tables) else f"layer {layer}")


def claimed(case, leaf):
    return f"bag {leaf['bag']}" if "bag" in leaf else value_from(case, leaf["layer"], leaf["kind"], leaf["word"])


def way_of(layers, goal, device):
    return layers.way_of_attribute(*goal, device) if isinstance(goal, Attribute) else layers.way(goal, device)


def end_words(case, goal, device):
    """Where a goal ends; of an id with the row that is selected last."""
    look_ups, end = way_of(case.layers, goal, device)
    if end[0] in ENDS:
        return f"{ENDS[end[0]]} {id_text(end[1])}"
    text = "bag" if end[0] == "bag" else value_from(case, *end[1:])
    if isinstance(goal, Attribute):
        return text
    last = [candidate for candidate, decided in look_ups[-1][1] if takes_over(decided)][-1]
    return text + (f" from table{last.layer}" if end[0] == "bag" else "") + f" {config_of(last.record.text())}"


def device_lines(case, goal, devices):
    """Of each device what some row on the way of the goal has; where two differ, between stars."""
    ids = {name for device in devices for name, _ in way_of(case.layers, goal, device)[0]}
    has = {name for own in ids for candidate in case.layers.candidates(own) for name in candidate.record.named}
    for device, other in zip(devices, reversed(devices)):
        words = []
        for name in COORDS:
            differs = device[name] != other[name]
            words += [f"*{word_of(name, device[name])}*" if differs else word_of(name, device[name])] * (differs or name in has)
        yield f"  on {' '.join(words) or 'any device'}: {end_words(case, goal, device)}"


def in_words(case, lines):
    """What is printed with `--android` in place of these lines."""
    told, shown = [], []
    for line in lines:
        first, _, words = line.partition(" ")
        if first == "rejected":
            _, place, _, node, number, rule = words.split(" ")
            told.append(f"rejected {goal_name(case.asked, int(place))} node {node} {number} {rule}: {WORDS[rule]}")
        elif first in ("first", "second", "device"):
            shown.append(device_of(words))
        elif first != "end":
            told.append(line)
        if first in ("second", "device"):
            told.append(f"  claimed {claimed(case, case.goals[int(place)][1][int(node)])}")
            told += device_lines(case, case.asked[int(place)], shown)
            shown = []
    return told

"""A plain reading of boxes and certificates: every device of a box is asked. For the scripts beside it.

A box is a dictionary of what its JSON says: a pair of numbers for a range, a list for a choice. A node of a
certificate is what its JSON says of it."""
import itertools

from plain_bags import Attribute
from plain_rules import COORDS, device_text, end_text, parts

NOT_GIVEN = {"locale": [""]}

RULES = {
    1: "GoalList",
    2: "EndsEarly",
    3: "LeftOver",
    4: "TestKind",
    5: "EmptyHalf",
    6: "MixedTrace",
    7: "NoValue",
    8: "OtherValue",
}


def packed(part, base):
    """The two bytes of a language or region, by which locales are ordered."""
    if len(part) != 3:
        return part.encode().ljust(2, b"\0")
    a, b, c = (ord(symbol) - ord(base) for symbol in part)
    return bytes([0x80 | c << 2 | b >> 3, (b & 7) << 5 | a])


def order_of(value):
    """What numbers and locales of a set are ordered by."""
    if isinstance(value, int):
        return value
    language, region = parts(value)
    return packed(language, "a") + packed(region, "0")


class Box:
    def __init__(self, said):
        self.said = said
        self.sets = {name: self.set_of(said.get(name, NOT_GIVEN.get(name, [0]))) for name in COORDS}

    @staticmethod
    def set_of(said):
        if isinstance(said, tuple):
            return list(range(said[0], said[1] + 1))
        return sorted(set(said), key=order_of)

    def json(self):
        return {
            name: {"from": said[0], "to": said[1]} if isinstance(said, tuple) else said
            for name, said in self.said.items()
        }

    def is_range(self, name):
        return isinstance(self.said.get(name), tuple)

    def in_order(self, name, values):
        """These values of a coordinate, each once, in their order."""
        return [value for value in self.sets[name] if value in values]

    def read(self, node):
        """A node whose list has the values as they stand in a box."""
        return {**node, "in": self.set_of(node["in"])} if "in" in node else node

    def members(self):
        return [dict(zip(COORDS, values)) for values in itertools.product(*self.sets.values())]


def answer(test, device):
    value = device[test["coord"]]
    return value <= test["atMost"] if "atMost" in test else value in test["in"]


def corner(box, members):
    """The least value of each coordinate."""
    return {name: box.in_order(name, {device[name] for device in members})[0] for name in COORDS}


def leaf_of(end):
    """The leaf that says this end."""
    if end[0] == "bag":
        return {"bag": f"0x{end[1]:08x}"}
    return {"layer": end[1], "kind": end[2], "word": end[3]}


def says(leaf, end):
    """Whether a leaf says this end, a value or a bag."""
    if "bag" in leaf:
        return end == ("bag", int(leaf["bag"], 16))
    return end == ("value", leaf["layer"], leaf["kind"], leaf["word"])


class Fault:
    """A node that fails, its rule, and the devices that stand at it."""

    def __init__(self, node, rule, members=()):
        self.node = node
        self.rule = rule
        self.members = members


def fault_of_test(box, node, members):
    name = node["coord"]
    if ("atMost" in node and name == "locale") or ("in" in node and box.is_range(name)):
        return 4
    if len({answer(node, device) for device in members}) == 1:
        return 5
    return None


def fault_of_leaf(node, traces):
    """`traces` are those of all devices at the leaf."""
    if len(set(traces)) > 1:
        return 6
    end = traces[0][1]
    if end[0] in ("absent", "too long"):
        return 7
    return None if says(node, end) else 8


def fault_of_nodes(box, nodes, trace_of):
    """The first node that fails, with the lowest rule that fails there. The devices of the open halves wait in a
    list, the next one last."""
    waiting = [box.members()]
    for place, node in enumerate(map(box.read, nodes)):
        if not waiting:
            return Fault(place, 3)
        members = waiting.pop()
        is_test = "coord" in node
        if is_test:
            rule = fault_of_test(box, node, members)
        else:
            rule = fault_of_leaf(node, [trace_of(device) for device in members])
        if rule is not None:
            return Fault(place, rule, members)
        for wanted in (False, True) if is_test else ():
            waiting.append([device for device in members if answer(node, device) == wanted])
    return Fault(len(nodes), 2) if waiting else None


def goal_that_differs(asked, goals):
    """The first place where two lists of goals differ, the shorter length where one begins the other."""
    for place in range(max(len(asked), len(goals))):
        if asked[place : place + 1] != goals[place : place + 1]:
            return place
    return None


def verdict(layers, box, asked, goals):
    """Where a certificate, a list of goals with their nodes, is rejected: the goal and the fault. None where it is
    accepted."""
    return next(verdicts(layers, box, asked, goals), None)


def verdicts(layers, box, asked, goals):
    """The same of each goal that is rejected, one after the other. Where the goals are others, none is judged."""
    place = goal_that_differs(asked, [goal for goal, _ in goals])
    if place is not None:
        yield place, Fault(0, 1)
        return
    for place, (goal, nodes) in enumerate(goals):
        fault = fault_of_nodes(box, nodes, traces_of(layers, goal))
        if fault is not None:
            yield place, fault


def traces_of(layers, goal):
    """The trace of a goal at a device, which is found once."""
    traces = {}

    def trace_of(device):
        key = tuple(device.values())
        if key not in traces:
            traces[key] = layers.trace(goal, device)
        return traces[key]

    return trace_of


def id_text(name):
    return f"0x{name:08x}"


def goal_word(goal):
    """A goal as a word of a command."""
    if isinstance(goal, Attribute):
        return f"{id_text(goal.attr)}@{','.join(map(id_text, goal.styles))}"
    return id_text(goal)


def goal_json(goal):
    if isinstance(goal, Attribute):
        return {"attr": id_text(goal.attr), "styles": [id_text(style) for style in goal.styles]}
    return {"id": id_text(goal)}


def certificate_json(goals):
    version = 2 if any(isinstance(goal, Attribute) for goal, _ in goals) else 1
    return {"version": version, "goals": [{**goal_json(goal), "nodes": nodes} for goal, nodes in goals]}


def verdict_lines(layers, box, asked, goals, rejected):
    """What `restool check` prints. Of the two devices that rule 6 shows only the words before them, since there may
    be several such pairs."""
    aside = f"set-aside {layers.set_aside()}"
    if rejected is None:
        return [f"accepted goals {len(goals)} nodes {sum(len(nodes) for _, nodes in goals)}", aside]
    return [*rejection_lines(layers, box, asked, rejected), aside]


def all_lines(layers, box, asked, goals, rejections):
    """The same of `restool check --all`."""
    if not rejections or rejections[0][1].rule == 1:
        return verdict_lines(layers, box, asked, goals, next(iter(rejections), None))
    told = [line for rejected in rejections for line in rejection_lines(layers, box, asked, rejected)]
    return [*told, f"failed {len(rejections)} of {len(goals)} goals", f"set-aside {layers.set_aside()}"]


def rejection_lines(layers, box, asked, rejected):
    """A rejection by itself."""
    goal, fault = rejected
    lines = [f"rejected goal {goal} node {fault.node} N{fault.rule} {RULES[fault.rule]}"]
    if fault.rule == 6:
        lines += ["first ", "second "]
    elif fault.rule in (7, 8):
        shown = corner(box, fault.members)
        end = layers.trace(asked[goal], fault.members[0])[1]
        lines += [f"device {device_text(shown)}", f"end {end_text(end)}"]
    return lines

"""A plain reading of needed trees: which tests of a tree are needed, and how many nodes the least tree has. For the scripts
beside it.

A node is what its JSON says of it, and members are the devices that stand at it."""
from plain_certificates import answer
from plain_rules import COORDS

TREES_TRIED = 40


class Traces:
    """The traces of a goal. Each device is asked once."""

    def __init__(self, layers, goal):
        self.layers = layers
        self.goal = goal
        self.found = {}

    def of(self, device):
        key = tuple(device.values())
        if key not in self.found:
            self.found[key] = self.layers.trace(self.goal, device)
        return self.found[key]


def places(members, nodes):
    """Each node of a whole tree with the members that stand at it."""
    waiting = [members]
    for node in nodes:
        at_node = waiting.pop()
        yield node, at_node
        for wanted in (False, True) if "coord" in node else ():
            waiting.append([device for device in at_node if answer(node, device) == wanted])


def values_of(members, name):
    """The values of a coordinate."""
    return {device[name] for device in members}


def lines_along(members, name):
    """The members in groups that differ in one coordinate alone."""
    lines = {}
    for device in members:
        lines.setdefault(tuple(value for other, value in device.items() if other != name), []).append(device)
    return list(lines.values())


def varying(members):
    return [name for name in COORDS if len(values_of(members, name)) > 1]


def beside(test, members):
    """The members that a test may part: of a number, those with the two values next to it on both sides."""
    if "in" in test:
        return members
    values = sorted(values_of(members, test["coord"]))
    below = [value for value in values if value <= test["atMost"]]
    near = below[-1:] + values[len(below) :][:1]
    return [device for device in members if device[test["coord"]] in near]


def sides_of(test, members, traces):
    """The traces of the members that answer yes, and of those that answer no."""
    sides = {True: set(), False: set()}
    for device in members:
        sides[answer(test, device)].add(traces.of(device))
    return sides[True], sides[False]


def parts_two(test, line, traces):
    """Whether a test parts two members of a line that have different traces."""
    yes, no = sides_of(test, line, traces)
    return bool(yes and no) and len(yes | no) > 1


def fault_of_need(box, test, members, traces):
    """Why a test is not needed, None where it is."""
    name = test["coord"]
    near = beside(test, members)
    if not any(parts_two(test, line, traces) for line in lines_along(near, name)):
        return "it parts no two devices"
    if not box.is_range(name) and varying(members) == [name]:
        yes, no = sides_of(test, members, traces)
        if yes & no:
            return "a trace stands on both of its sides"
    return None


def runs(box, members, traces):
    """How many leaves the least tree has, where at most one coordinate varies."""
    names = varying(members)
    if not names:
        return 1
    if not box.is_range(names[0]):
        return len({traces.of(device) for device in members})
    along = sorted(members, key=lambda device: device[names[0]])
    return 1 + sum(traces.of(first) != traces.of(second) for first, second in zip(along, along[1:]))


def neighbours_apart(box, line, name, traces):
    """The first of each two neighbours along a line that have different traces."""
    along = sorted(line, key=lambda device: box.sets[name].index(device[name]))
    return [first for first, second in zip(along, along[1:]) if traces.of(first) != traces.of(second)]


def parting_test(box, name, line, first, traces):
    """A test that parts a device from its neighbour on a line; of a choice, all that have its trace from the others."""
    if box.is_range(name):
        return {"coord": name, "atMost": first[name]}
    return {"coord": name, "in": [device[name] for device in line if traces.of(device) == traces.of(first)]}


def any_needed_test(box, members, traces, chance):
    """A test that is needed, None where all members have one trace."""
    lines = [(name, line) for name in varying(members) for line in lines_along(members, name)]
    chance.shuffle(lines)
    for name, line in lines:
        apart = neighbours_apart(box, line, name, traces)
        if apart:
            return parting_test(box, name, line, chance.choice(apart), traces)
    return None


def needed_size(box, members, traces, chance):
    """The number of nodes of some tree whose tests are all needed."""
    size, waiting = 0, [members]
    while waiting:
        at_node = waiting.pop()
        size += 1
        test = any_needed_test(box, at_node, traces, chance)
        for wanted in (False, True) if test else ():
            waiting.append([device for device in at_node if answer(test, device) == wanted])
    return size


def have_larger_trees(box, members, all_traces, limit, chance):
    """Whether there are trees, one for each of these traces, that have more nodes in all than the limit and whose tests are all
    needed. Where several coordinates vary, some are tried."""
    if len(varying(members)) <= 1:
        return sum(2 * runs(box, members, traces) - 1 for traces in all_traces) > limit
    largest = [0] * len(all_traces)
    for _ in range(TREES_TRIED):
        for place, traces in enumerate(all_traces):
            largest[place] = max(largest[place], needed_size(box, members, traces, chance))
        if sum(largest) > limit:
            return True
    return False

"""A plain reading of what `show` prints of layers and a certificate. For check_show.py.

A layer has `is_base`; `packages`; `names`, those of the type and the entry of the first row of each id, None where one is no
text; and `strings`, of which `get` gives how the string of an index is printed. A node of a certificate is what its JSON says of
it."""
from typing import NamedTuple, Optional

from plain_bags import Attribute
from plain_certificates import id_text
from plain_devices import test_text as test_notation
from plain_names import label_text, named
from plain_notation import xml_text
from plain_rules import end_text

MOST_DEPTH = 32
MOST_OF_A_LABEL = 2000
REFERENCE, ATTRIBUTE, STRING = 1, 2, 3


class Line(NamedTuple):
    """A line of a tree: the number of its node, None where the list ends early; the test before it and the answer that
    leads to it, None at the first; how many answers yes lead to it; and whether some path does."""

    number: Optional[int]
    test: Optional[int] = None
    answer: Optional[str] = None
    depth: int = 0
    is_reached: bool = True


def tree_lines(nodes):
    """A node, and behind a test the tree behind its answer yes, and then that behind its answer no."""
    lines, numbers = [], iter(range(len(nodes)))

    def read(test, answer, depth):
        number = next(numbers, None)
        lines.append(Line(number, test, answer, depth))
        if number is not None and "coord" in nodes[number]:
            read(number, "yes", depth + 1)
            read(number, "no", depth)

    read(None, None, 0)
    return lines + [Line(number, is_reached=False) for number in numbers]


def test_text(test):
    if "atMost" in test:
        return f"{test['coord']} at most {test['atMost']}"
    listed = ["none" if value == "" else str(value) for value in test["in"]] or ["nothing"]
    return " ".join([test["coord"], "one of", *listed])


def front_text(line):
    """What stands before a node: blanks for its answers yes, and what it is behind."""
    if line.depth < MOST_DEPTH:
        return "  " * line.depth + ("else " if line.answer == "no" else "")
    return "  " * MOST_DEPTH + f"{'then' if line.answer == 'yes' else 'else'} of {line.test}: "


def cut(text):
    """What is shown of a label: whole characters, and two dots where some are cut off."""
    shown = text.encode()[:MOST_OF_A_LABEL].decode(errors="ignore")
    return shown if shown == text else f"{shown}.."


def quoted(text):
    text = cut(text)
    for symbol, written in (("\\", "\\\\"), ('"', '\\"'), ("&", "&amp;")):
        text = text.replace(symbol, written)
    return f'"{text}"'


def dot_name(line):
    if line.number is not None:
        return f"n{line.number}"
    return "n0" if line.test is None else f"n{line.test}{line.answer}"


class Shown:
    """What is shown over layers, in Android's notation or raw."""

    def __init__(self, layers, is_raw):
        self.layers, self.is_raw = layers, is_raw
        self.bases = [layer for layer in layers if layer.is_base]
        self.packages = [package for layer in self.bases for package in layer.packages]

    def names_of(self, name):
        """The names of the first row that an id has in a base."""
        return next((layer.names[name] for layer in self.bases if name in layer.names), (None, None))

    def named(self, name):
        """An id, and the word for its names."""
        return named(self.packages, name, self.names_of(name))

    def value(self, kind, word, string):
        """A value as XML has it: a string by its text, where there is one, and an id by its names."""
        if kind == STRING and string is not None:
            return string
        names = self.names_of(word) if kind in (REFERENCE, ATTRIBUTE) else (None, None)
        return xml_text(kind, word) if None in names else "@?"[kind - 1] + label_text(self.packages, (word >> 24, *names))

    def leaf(self, leaf):
        if "bag" in leaf:
            return f"bag {self.named(int(leaf['bag'], 16))}"
        kind, word, place = leaf["kind"], leaf["word"], leaf["layer"]
        strings = self.layers[place].strings if place < len(self.layers) else None
        string = strings.get(word)[1] if kind == STRING and strings else None
        if self.is_raw:
            text = end_text(("value", place, kind, word)) + (f" {string}" if string else "")
        else:
            text = f"value layer {place} {self.value(kind, word, string)}"
        return text if strings else f"{text} (no such layer)"

    def test(self, test):
        return test_text(test) if self.is_raw else test_notation(test)

    def label(self, node):
        return self.test(node) if "coord" in node else self.leaf(node)

    def goal(self, goal):
        if isinstance(goal, Attribute):
            return " ".join([self.named(goal.attr), "under", *map(self.named, goal.styles)])
        return self.named(goal)

    def line(self, nodes, line):
        if line.number is None:
            return f"\t{front_text(line)}ends early"
        node = nodes[line.number]
        front = front_text(line) if line.is_reached else "not reached: "
        return f"{line.number}\t{front}{'if ' if 'coord' in node else ''}{self.label(node)}"

    def certificate(self, goals):
        """The lines of `show`."""
        for number, (goal, nodes) in enumerate(goals):
            yield f"goal {number} {self.goal(goal)} nodes {len(nodes)}"
            yield from (self.line(nodes, line) for line in tree_lines(nodes))
        yield f"goals {len(goals)}"

    # ---- pictures

    def dot_label(self, nodes, line):
        if line.number is None:
            return "ends early"
        return ("" if line.is_reached else "not reached: ") + self.label(nodes[line.number])

    def picture(self, number, goal, nodes):
        """The lines of `show --dot`."""
        yield from ("digraph {", f"  label={quoted(f'goal {number} {self.goal(goal)}')};", "  node [shape=box];")
        for line in tree_lines(nodes):
            yield f"  {dot_name(line)} [label={quoted(self.dot_label(nodes, line))}];"
            if line.test is not None:
                yield f"  n{line.test} -> {dot_name(line)} [label={line.answer}];"
        yield "}"

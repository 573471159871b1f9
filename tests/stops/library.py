"""The functions of the library as their sources have them, and those of the program: which take memory, and which call
which. For calls.py.

A call is read from its words alone: `Table::open(..)` and `Self::open(..)` tell the type, `open_table(..)` a function that
the file names or that stands in the same crate, and `.push(..)` is a method of that name of a type that the file names,
or of the only type that has one. Of two types of one name it is that of the same crate."""
import re
from collections import defaultdict, namedtuple
from pathlib import Path

HERE = Path(__file__).resolve().parent.parent.parent
OF_THE_PROGRAM = ("restool",)
"""Crates of which refusals.py runs the whole: their functions need no rows."""
OF_TESTS = re.compile(r"^test_")
"""Crates that nothing which is built for users stands on."""
HEAD = re.compile(
    r"^impl\b(?:<[^>]*>)?[^{]*?(?P<type>\w+)(?:<[^{}]*>)? \{$"
    r"|^(?P<indent> *)(?P<pub>pub |pub\(crate\) )?fn (?P<name>\w+)(?P<head>.*?)(?=^ *(?:requires|ensures|where)\b|\{)",
    re.M | re.S,
)
"""The head of an impl, or of a function without its contract."""
TAKES = re.compile(r"alloc: Global|OutOfMemory|AllocError|NoMemory|StackFault|BagFault|Stop<")
"""What says in a function's head that it takes memory."""
COMMENT = re.compile(r"//[^\n]*")
CALL = re.compile(r"(?P<dot>\.)?(?:\b(?P<path>\w+)::(?:<[^<>]*>::)?)?\b(?P<name>[a-z_]\w*)(?:::<[^<>]*>)?\(")
VALUE = re.compile(r"[(,] *(?:(?P<path>\w+)::)?(?P<name>[a-z_]\w*)\)")
"""A function that is handed to another."""

Function = namedtuple("Function", "crate owner name file is_public takes_memory body")


def full_name(function):
    """As a row names it: a method with its type."""
    return f"{function.owner}::{function.name}" if function.owner else function.name


def functions_of(crate, path):
    """The functions of a file. What one calls stands between its head and the next."""
    text = COMMENT.sub("", path.read_text())
    owner, heads = "", list(HEAD.finditer(text))
    ends = [head.start() for head in heads[1:]] + [len(text)]
    for head, end in zip(heads, ends):
        if head["type"]:
            owner = head["type"]
            continue
        is_method = bool(head["indent"])
        takes = bool(TAKES.search(head["head"]))
        yield Function(crate, owner if is_method else "", head["name"], path, head["pub"] == "pub ", takes, text[head.end() : end])


def crates_below():
    """Of each crate of the library and of the program, itself and all that it stands on."""
    below = {}
    for line in (HERE / "crates.txt").read_text().splitlines():
        name, _, uses = line.partition("#")[0].partition(":")
        name = name.strip()
        if name and not OF_TESTS.search(name):
            below[name] = {name}.union(*(below.get(use, ()) for use in uses.split()))
    return below


class Library:
    """All functions of the library and of the program, and which call which."""

    def __init__(self):
        self.below = crates_below()
        self.functions = [
            function
            for crate in self.below
            for path in sorted((HERE / "crates" / crate / "src").rglob("*.rt"))
            for function in functions_of(crate, path)
        ]
        self.by_name = defaultdict(list)
        for function in self.functions:
            self.by_name[function.name].append(function)

    def public(self):
        """The public functions of the library by their names."""
        found = defaultdict(list)
        for function in self.functions:
            if function.is_public and function.crate not in OF_THE_PROGRAM:
                found[full_name(function)].append(function)
        return found

    def of_program(self):
        """The functions of the program."""
        return [function for function in self.functions if function.crate in OF_THE_PROGRAM]

    def called_by(self, caller):
        """The functions whose calls stand in a function."""
        text = caller.file.read_text()
        found = [*CALL.finditer(caller.body), *VALUE.finditer(caller.body)]
        for call in found:
            path, is_method = call["path"] or "", bool(call.groupdict().get("dot"))
            owner = caller.owner if path == "Self" else path if path[:1].isupper() else ""
            near = [it for it in self.by_name[call["name"]] if it.crate in self.below[caller.crate]]
            yield from named(near, caller, text, owner, is_method)

    def reached(self, calls):
        """All functions that these call, and those that these call in turn, and themselves."""
        reached, left = set(), [*calls]
        while left:
            function = left.pop()
            if function not in reached:
                reached.add(function)
                left += self.called_by(function)
        return reached


def named(near, caller, text, owner, is_method):
    """Those of the functions of one name that a call means."""
    if owner:
        return nearest(caller, [it for it in near if it.owner == owner])
    if not is_method:
        return [it for it in near if not it.owner and (it.crate == caller.crate or re.search(rf"\b{it.name}\b", text))]
    methods = [it for it in near if it.owner]
    if len({it.owner for it in methods}) > 1:
        methods = [it for it in methods if it.owner == caller.owner or re.search(rf"\b{it.owner}\b", text)]
    return nearest(caller, methods)


def nearest(caller, methods):
    """Methods without those of a lower crate's type, where the caller's crate has a type of that name."""
    own = {it.owner for it in methods if it.crate == caller.crate}
    return [it for it in methods if it.crate == caller.crate or it.owner not in own]

"""Reads the code, crates/*/src/*.rt: the types that definitions name, and calls with their contracts."""
import os
import re
from collections import namedtuple

from spec_files import ROOT, Shown, text_of

# Where a name is defined: a file of definitions ("Layer"), one of code ("stack.rt"), or None, of the library.
Home = namedtuple("Home", "crate file name")

USE = re.compile(r"^(?:pub )?use ((?:\w+::)*\w+)::(?:\{([^}]*)\}|(\w+));", re.M)
DECLARED = r"(?:pub(?:\(crate\))? )?(?:struct|enum) {name}\b"
VARIANT = re.compile(r"^    (\w+)(?=[,({ ]|$)", re.M)
TYPE_NAME = re.compile(r"\b[A-Z]\w*")
# What stands in a type that definitions do not see.
UNSEEN = ("#[", "ghost ")


def items_of(listed):
    """The names of a list in braces, with what they are called here."""
    found = []
    for item in listed.split(","):
        name, _, alias = item.strip().partition(" as ")
        if name:
            found.append((name, alias or name))
    return found


class CodeFiles:
    """The modules of all crates."""

    def __init__(self, crates):
        self.crates = crates
        self.texts = {}

    def text(self, crate, module):
        """The text of a module; empty where there is none."""
        if (crate, module) not in self.texts:
            file = f"{ROOT}/crates/{crate}/src/{module}.rt"
            self.texts[crate, module] = text_of(file) if os.path.exists(file) else ""
        return self.texts[crate, module]

    def declared_at(self, home):
        """The line at which a type is declared; None where the module does not declare it."""
        head = re.compile(DECLARED.format(name=home.name))
        lines = self.text(home.crate, home.file[:-3]).splitlines()
        return next((at for at, line in enumerate(lines) if head.match(line)), None)

    def shown(self, home):
        """A type, with the words above it."""
        lines = self.text(home.crate, home.file[:-3]).splitlines()
        start = self.declared_at(home)
        end = next(at for at in range(start, len(lines)) if lines[at].startswith("}") or lines[at].endswith(";"))
        return Shown(words_above(lines, start), [it for it in lines[start : end + 1] if not it.lstrip().startswith(UNSEEN)])

    def call(self, home):
        """A function with its contract, as it stands before its body."""
        lines = self.text(home.crate, home.file[:-3]).splitlines()
        start = next(at for at, line in enumerate(lines) if line.startswith(f"pub fn {home.name}("))
        return Shown(words_above(lines, start), lines[start : lines.index("{", start)])

    def variants(self, home):
        """The names of an enum's variants."""
        return VARIANT.findall("\n".join(self.shown(home).code))

    def parts(self, home):
        """The types that a type is made of."""
        code = "\n".join(line for line in self.shown(home).code if not line.lstrip().startswith("//"))
        found = [self.home(home.crate, home.file[:-3], name) for name in TYPE_NAME.findall(code)]
        return [it for it in dict.fromkeys(found) if it and it != home]

    def home(self, crate, module, name):
        """Where a type is declared that a module names; None where no crate here declares it."""
        while crate in self.crates:
            at = Home(crate, f"{module}.rt", name)
            if self.declared_at(at) is not None:
                return at
            brought = [it for it in USE.findall(self.text(crate, module)) if (name, name) in items_of(it[1] or it[2])]
            if not brought:
                return None
            crate, module = self.module(crate, brought[0][0].split("::"))
        return None

    def module(self, crate, path):
        """The module that a path leads to, which a module of a crate names."""
        if path[0] == "crate":
            return crate, path[1]
        if self.text(crate, path[0]):
            return crate, path[0]
        return path[0], "lib"


def words_above(lines, at):
    """The comment of what a line begins."""
    start = at
    while lines[start - 1].startswith(("///", "#[")):
        start -= 1
    return [line[3:].strip() for line in lines[start:at] if line.startswith("///")]

"""Reads the files of definitions, crates/*/specs/*.antt: what they define, and what their names mean."""
import os
import re
from collections import namedtuple

ROOT = os.path.dirname(os.path.dirname(os.path.realpath(__file__)))
USE = re.compile(r"^\s*(?:ghost )?(?:unfoldable )?(pub )?use Rattle\.(\w+)\.specs\.(\w+)(?:\.\{([^}]*)\}| as (\w+))?;?\s*$", re.M)
# A crate below, as those that stand on it hand it on: Rattle.overlay_map.specs.res_value.ResId is res_value's.
HANDED_ON = re.compile(r"Rattle\.\w+\.specs\.(?:(?!declared\b|contracts\b)([a-z]\w*)\.)+(?=[A-Z]|declared\b|contracts\b)")
DEFINITION = re.compile(r"^(?:(?:abbrev|unfoldable|pub|record|data) )*(?!mod\b|use\b|pub\b|infix)(\S+)(?= :| \(| \{)")
CONSTRUCTOR = re.compile(r"^ +(\w+) :")
MODULE = re.compile(r"^pub mod (\w+)")
WORD = re.compile(r"[^\W\d][\w'-]*(?:\.[^\W\d][\w'-]*)?")
SECTION = re.compile(r"^-- ---- (.*)")
# `do` binds a result as `◌>>=◌` says.
BINDS = re.compile(r"\bdo$", re.M)

# What is shown of a definition or a type: the words above it, and its lines.
Shown = namedtuple("Shown", "words code")


def text_of(file):
    with open(file, encoding="utf-8") as it:
        return it.read()


def crate_names():
    """The crates, in the order of crates.txt."""
    lines = text_of(f"{ROOT}/crates.txt").splitlines()
    return [line.split(":")[0].split()[0] for line in lines if ":" in line and not line.startswith("#")]


def modules(folder):
    """The files of definitions of a crate, in the order of its Lib.antt."""
    lib = f"{folder}/Lib.antt"
    if not os.path.exists(lib):
        return []
    found = [match[1] for match in map(MODULE.match, text_of(lib).splitlines()) if match]
    return [name for name in found if os.path.exists(f"{folder}/{name}.antt")]


def parts_of(name):
    """The words of a name; an operator's are those between its places."""
    return [part for part in name.split("◌") if part]


def head_of(line):
    """The name that a line begins to define, and whether it is public; None where it defines none."""
    found = DEFINITION.match(line)
    is_public = " pub " in f" {line}"
    if found and (is_public or line.startswith(("abbrev ", "unfoldable ", "record ", "data "))):
        return found[1], is_public
    return None


def blocks_of(text):
    """Each definition of a file: its name, whether it is public, and its lines without comments."""
    blocks = []
    for line in text.splitlines():
        head = head_of(line)
        if head:
            blocks.append((head, []))
        if blocks and not line.lstrip().startswith("--"):
            blocks[-1][1].append(line)
    return blocks


def with_own_crates(text):
    """A text in whose lines each path begins with the crate that defines what it leads to."""
    return HANDED_ON.sub(r"Rattle.\1.specs.", text)


def uses_in(text):
    """Each line that names a file of definitions: is it passed on, crate, file, names, alias."""
    found = []
    for given_on, crate, name, names, alias in USE.findall(with_own_crates(text)):
        listed = [it.strip() for it in names.split(",") if it.strip()]
        found.append((bool(given_on), crate, name, listed, alias))
    return found


class Specs:
    """A file of definitions: what it says, its names, and which names stand in which definition."""

    def __init__(self, crate, name, text):
        self.crate, self.name, self.text = crate, name, text
        self.names = []  # those that are public, in the order of the file
        self.owners = {}  # the definition of each name, of constructors too
        self.bodies = {}
        for block in blocks_of(text):
            name = block[0][0]
            if block[0][1]:
                self.names.append(name)
            self.owners[name] = name
            self.bodies[name] = "\n".join(block[1])
            if "data " in block[1][0]:
                self.owners.update({found[1]: name for found in map(CONSTRUCTOR.match, block[1]) if found})
        self.uses = uses_in(text)
        self.given_on = [use for use in self.uses if use[0]]


class Passages:
    """A file of definitions as a text: what it begins with, and each definition with the comment above it."""

    def __init__(self, text):
        self.words = []  # what the file begins with
        self.shown = {}  # each definition, in the order of the file
        self.sections = {}  # the heading of the section that it stands in
        self.is_public = {}
        comment, section, name = [], None, None
        for line in text.splitlines():
            head = head_of(line)
            if head:
                name, self.is_public[head[0]] = head
                self.shown[name], self.sections[name] = Shown(comment, [line]), section
                comment = []
            elif SECTION.match(line):
                section, name = SECTION.match(line)[1], None
            elif line.startswith("--"):
                comment.append(line[2:].strip())
                name = None
            elif not line.strip():
                comment, name = comment and [*comment, ""], None
            elif name:
                self.shown[name].code.append(line)
            elif not self.shown and not self.words:
                self.words, comment = comment, []

    def groups(self, names):
        """These definitions, as they stand together: a private one that has no comment before the one that needs it, and
        public ones that have none beside one another."""
        groups, before = [], []
        for name in names:
            has_words = bool(self.shown[name].words)
            if not has_words and not self.is_public[name]:
                before.append(name)
            elif has_words or before or not self.goes_on(groups, name):
                groups.append([*before, name])
                before = []
            else:
                groups[-1].append(name)
        return [*groups, before] if before else groups

    def goes_on(self, groups, name):
        """Whether the last group has no comment, and stands in the same section."""
        last = groups[-1] if groups else []
        return any(last) and not any(self.shown[it].words or self.sections[it] != self.sections[name] for it in last)


class SpecFiles:
    """All files of definitions."""

    def __init__(self):
        self.crates = crate_names()
        self.specs = {}
        for crate in self.crates:
            folder = f"{ROOT}/crates/{crate}/specs"
            for name in modules(folder):
                self.specs[crate, name] = Specs(crate, name, text_of(f"{folder}/{name}.antt"))
        self.moved = {}  # modules that a Lib.antt passes on
        for crate in self.crates:
            lib = f"{ROOT}/crates/{crate}/specs/Lib.antt"
            given_on = [use for use in uses_in(text_of(lib)) if use[0]] if os.path.exists(lib) else []
            self.moved.update({(crate, alias or name): (below, name) for _, below, name, names, alias in given_on if not names})

    def home(self, crate, file, name):
        """Where a name that a file has, or passes on, is defined; None where it is none of ours."""
        for _ in range(20):
            crate, file = self.moved.get((crate, file), (crate, file))
            specs = self.specs.get((crate, file))
            if specs is None:
                return None
            if name in specs.owners:
                return crate, file, specs.owners[name]
            for _, below, below_file, names, _ in specs.given_on:
                if name in names:
                    crate, file = below, below_file
                    break
            else:
                return None
        return None

    def known(self, uses):
        """What the names mean that these lines bring."""
        known = {}
        for _, crate, file, names, alias in uses:
            for name in names:
                home = self.home(crate, file, name)
                if home:
                    known[name] = home
            if alias:
                at = self.moved.get((crate, file), (crate, file))
                for name in self.specs[at].owners if at in self.specs else ():
                    known[f"{alias}.{name}"] = self.home(crate, file, name)
        return known

    def known_in(self, specs):
        """What the names mean that a file of definitions has or brings."""
        known = self.known(specs.uses)
        known.update({name: (specs.crate, specs.name, owner) for name, owner in specs.owners.items()})
        return known

    @staticmethod
    def named_in(text, known):
        """The definitions that a text names, in the order of `known`."""
        words = set()
        for word in WORD.findall(text):
            words.add(word)
            words.add(word.split(".")[0])
        marks = set(text.split())
        if BINDS.search(text):
            marks.add(">>=")
        found = []
        for name, home in known.items():
            parts = parts_of(name)
            if home not in found and (name in words if "◌" not in name else all(part in marks for part in parts)):
                found.append(home)
        return found

#!/usr/bin/env python3
"""Writes the pages that are made of the definitions: docs/DEFINITIONS.md, the list of those on which public promises rest,
and docs/HEADLINE.md, all that one promise rests on (promises.py).

usage: tools/definitions.py              writes the pages
       tools/definitions.py --check      ends with status 1 where a page is not up to date
       tools/definitions.py --of NAME    prints such a page of a definition, as of cert_checker/Headline.Headline

Of a file DEFINITIONS.md names the definitions that contracts of public functions name, and these functions.
"""
import os
import re
import sys

from promise_pages import Promises, page_of, page_of_name
from promises import PAGES
from spec_files import ROOT, SpecFiles, parts_of, text_of, uses_in

# A line names at most so many functions.
MOST_SHOWN = 2
HEAD = """# Definitions

Contracts of public functions cite these definitions. `tools/definitions.py` makes this page from `specs/` and `src/`; do not edit it. Crates and files stand in the order to read them, and each file begins with what it says. [ARCHITECTURE.md](ARCHITECTURE.md#how-to-read-a-contract) says how they are named.

Behind a file stand those of its definitions that are cited, and up to two functions that cite one, or types whose own contracts do. A file with nothing behind it has what others are made of. Files that only private contracts need are left out: no public promise rests on them.
"""

OWNER = re.compile(r"^(pub )?(impl|trait)\b(?:<.*?>(?= ))? (?:[\w:<>, ']+ for )?(\w+)")
FUNCTION = re.compile(r"^\s*(pub )?(?:pub\(crate\) )?(?:const )?fn (\w+)")
CLAUSE = re.compile(r"^\s*(?:ensures\b[^{]*|ghost \w+ = )\{")


def files_below(folder, ending):
    """All files below a folder, in the order of their names."""
    found = []
    for at, folders, names in os.walk(folder):
        folders.sort()
        found += [f"{at}/{name}" for name in sorted(names) if name.endswith(ending)]
    return found


class Reader(SpecFiles):
    """All definitions, and what the contracts of functions say of them."""

    def __init__(self):
        super().__init__()
        self.made_of = {}  # definition: the definitions that are made of it
        for file in self.specs.values():
            known = self.known_in(file)
            for name, body in file.bodies.items():
                above = (file.crate, file.name, name)
                self.note(self.made_of, [below for below in self.named_in(body, known) if below != above], above)
        self.public, self.private = {}, {}  # definition: the functions whose contracts name it
        for crate in self.crates:
            self.read_code(crate)

    def read_code(self, crate):
        folder = f"{ROOT}/crates/{crate}/src"
        handed_on = None
        if os.path.exists(f"{folder}/lib.rt"):
            handed_on = set(re.findall(r"\w+", " ".join(re.findall(r"^pub use ([^;]*);", text_of(f"{folder}/lib.rt"), re.M))))
        for file in files_below(folder, ".rt"):
            text = text_of(file)
            known = self.known(uses_in(text))
            for owner, function, is_public, clause in clauses_in(text):
                outer = owner or function
                is_public = is_public and (handed_on is None or outer in handed_on)
                name = f"{owner}::{function}" if owner and function else outer
                self.note(self.public if is_public else self.private, self.named_in(clause, known), (crate, name))

    @staticmethod
    def note(carried, homes, carrier):
        """Notes that a function carries these definitions."""
        for home in homes:
            carriers = carried.setdefault(home, [])
            if carrier not in carriers:
                carriers.append(carrier)

    def cited(self, specs):
        """The definitions of a file that public contracts name, and the functions that do."""
        homes = [(specs.crate, specs.name, name) for name in specs.names]
        names = [name for *_, name in homes if (specs.crate, specs.name, name) in self.public]
        return names, [it for home in homes for it in self.public.get(home, [])]

    def is_private(self, specs):
        """Whether private contracts name a file, and no public one does, nor one of what is made of it."""
        levels = self.levels_above([(specs.crate, specs.name, name) for name in specs.names])
        above = [home for level in levels for home in level]
        return any(it in self.private for it in above) and not any(it in self.public for it in above)

    def levels_above(self, own):
        """These definitions, those that are made of them, and so on; each once."""
        levels, seen = [], set()
        level = own
        while level or not levels:
            levels.append(level)
            seen.update(level)
            above = [it for home in level for it in self.made_of.get(home, [])]
            level = [it for it in dict.fromkeys(above) if it not in seen]
        return levels


def functions(found, crate, order):
    """Functions as words, those of the crate first and then those of the nearest crates above."""
    ranked = sorted(found, key=lambda it: (it[0] != crate, order.index(it[0])))
    named = list(dict.fromkeys(f"`{name}`" for _, name in ranked))
    return ", ".join(named[:MOST_SHOWN])


def clauses_in(text):
    """Each clause that promises something: the type that it is of, the function, whether both can be public,
    and the clause."""
    found = []
    owner, function, is_trait, is_open = None, None, False, False
    lines = text.splitlines()
    for at, line in enumerate(lines):
        block = OWNER.match(line)
        if block:
            owner, function = block[3], None
            is_trait = block[2] == "trait" or bool(re.search(r"\bfor\b", line))
        elif line.startswith("}"):
            owner, function = None, None
        head = FUNCTION.match(line)
        if head:
            function = head[2]
            is_open = bool(head[1]) or (is_trait and owner is not None)
        if CLAUSE.match(line):
            # What `ghost` says stands in a type's own block, before its functions.
            of_type = line.lstrip().startswith("ghost")
            if of_type and owner is None:
                continue
            found.append((owner, None if of_type else function, of_type or is_open, clause_at(lines, at)))
    return found


def clause_at(lines, at):
    """The text between the braces that are opened in a line."""
    depth, clause = 0, []
    for line in lines[at:]:
        clause.append(line)
        depth += line.count("{") - line.count("}")
        if depth <= 0:
            break
    return "\n".join(clause)


def line(reader, specs):
    """What the page says of a file."""
    link = f"- [{specs.name}](../crates/{specs.crate}/specs/{specs.name}.antt)"
    names, found = reader.cited(specs)
    if not names:
        return link
    cited = ", ".join(f"`{' '.join(parts_of(name))}`" for name in names)
    return f"{link} {cited}: {functions(found, specs.crate, reader.crates)}"


def list_page(reader):
    """The list of all definitions."""
    lines = [HEAD]
    for crate in reader.crates:
        files = [it for it in reader.specs.values() if it.crate == crate and it.names and not reader.is_private(it)]
        if files:
            lines += [f"## {crate}", "", *(line(reader, it) for it in files), ""]
    return "\n".join(lines).rstrip("\n") + "\n"


def made_pages():
    """The text of each page, by its file, and what is wrong with them."""
    reader = Reader()
    promises = Promises(reader)
    made, faults = {"DEFINITIONS.md": list_page(reader)}, []
    for page in PAGES:
        made[page.file], found = page_of(promises, page)
        faults += [f"docs/{page.file}: {fault}" for fault in found]
    return made, faults


def write(made):
    for file, text in made.items():
        with open(f"{ROOT}/docs/{file}", "w", encoding="utf-8") as it:
            it.write(text)


def out_of_date(made):
    """The pages that are other ones now, or missing."""
    paths = {f"docs/{file}": text for file, text in made.items()}
    is_same = {path: os.path.exists(f"{ROOT}/{path}") and text_of(f"{ROOT}/{path}") == text for path, text in paths.items()}
    return [f"{path} is not up to date: run tools/definitions.py" for path, same in is_same.items() if not same]


def print_of(name):
    """Prints the page of a definition; else says why not, with status 2."""
    promises = Promises(SpecFiles())
    homes = promises.homes(name)
    if len(homes) != 1:
        named = " ".join(f"{it.crate}/{it.file}.{it.name}" for it in homes)
        print(f"{name}: {f'one of {named}?' if homes else 'no such definition'}", file=sys.stderr)
        return 2
    sys.stdout.write(page_of_name(promises, homes[0]))
    return 0


def main():
    words = sys.argv[1:]
    if len(words) == 2 and words[0] == "--of":
        return print_of(words[1])
    if words not in ([], ["--check"]):
        print(__doc__, file=sys.stderr)
        return 2
    made, faults = made_pages()
    if words:
        faults += out_of_date(made)
    else:
        write(made)
    for fault in faults:
        print(fault, file=sys.stderr)
    return 1 if faults else 0


if __name__ == "__main__":
    sys.exit(main())

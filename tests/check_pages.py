#!/usr/bin/env python3
"""Checks the links of all pages (*.md), and the pages that code and scripts name: the file is there, and where a
heading is named (#..), the page has it. Of the table in docs/ARCHITECTURE.md that says where a rule is,
each file that a row names is in a crate that the row names. Prints what is broken; the status is 1 then."""
import os
import re
import sys

ROOT = os.path.dirname(os.path.dirname(os.path.realpath(__file__)))
LINK = re.compile(r"\]\(([^()\s]+)\)")
NAMED_PAGE = re.compile(r"(?:\$here/)?([\w./-]*\w\.md(?:#[\w-]+)?)")
CODE = (".rt", ".antt", ".sh", ".py", ".edit", ".json", ".txt")


def lines_of(file):
    with open(file, encoding="utf-8", errors="replace") as it:
        return it.read().splitlines()


def files():
    """All files of the repository but those that a build makes."""
    for folder, folders, names in os.walk(ROOT):
        folders[:] = sorted(it for it in folders if it not in (".git", "out"))
        yield from (f"{folder}/{name}" for name in sorted(names))


def without_blocks(lines):
    """The lines of a page that are no code block."""
    is_block = False
    for line in lines:
        if line.startswith("```"):
            is_block = not is_block
        elif not is_block:
            yield line


def anchors(page):
    """The anchors of a page's headings, as GitHub makes them."""
    found = set()
    for line in without_blocks(lines_of(page)):
        if re.match(r"#+ ", line):
            title = line.lstrip("#").strip().lower()
            found.add(re.sub(r"[^\w\- ]", "", title).replace(" ", "-"))
    return found


def fault(link, folders):
    """Why a link does not lead anywhere from any of these folders, or None."""
    path, _, anchor = link.partition("#")
    targets = [os.path.normpath(f"{folder}/{path}") for folder in folders]
    target = next((it for it in targets if os.path.exists(it)), None)
    if target is None:
        return "no such file"
    if anchor and anchor not in anchors(target):
        return "no such heading"
    return None


def links_of(page):
    """The links of a page that lead to files, and why one leads nowhere."""
    own = os.path.basename(page)
    for link in LINK.findall("\n".join(without_blocks(lines_of(page)))):
        if "://" not in link:
            yield link, fault(own + link if link.startswith("#") else link, [os.path.dirname(page)])


def pages_named_in(file):
    """The pages that code or a script names, and why one is not there."""
    for link in NAMED_PAGE.findall("\n".join(lines_of(file))):
        yield link, fault(link, [ROOT, f"{ROOT}/docs", os.path.dirname(file)])


def broken():
    for file in files():
        if file.endswith(".md"):
            yield from ((file, *it) for it in links_of(file))
        elif file.endswith(CODE):
            yield from ((file, *it) for it in pages_named_in(file))


def rows_of_places(page):
    """The rows of the table that says where a rule is."""
    is_told = False
    for line in lines_of(page):
        if line.startswith("## "):
            is_told = line == "## Where each rule is"
        if is_told and line.startswith("|"):
            yield line


def lost_files():
    """The files in rows of ARCHITECTURE.md that are in none of the crates that the row names."""
    page = f"{ROOT}/docs/ARCHITECTURE.md"
    crates = os.listdir(f"{ROOT}/crates")
    for row in rows_of_places(page):
        named = [it for it in crates if re.search(rf"\b{it}\b", row)]
        for file in re.findall(r"[\w/]+\.(?:rt|antt)\b", row):
            is_whole = file.split("/")[0] in named
            places = [file] if is_whole else [f"{it}/{part}/{file}" for it in named for part in ("src", "specs")]
            if not any(os.path.exists(f"{ROOT}/crates/{it}") for it in places):
                yield page, file, "in no crate that the row names"


def main():
    found = [(file, link, why) for file, link, why in [*broken(), *lost_files()] if why]
    for file, link, why in found:
        print(f"{os.path.relpath(file, ROOT)}: {link}: {why}")
    return 1 if found else 0


if __name__ == "__main__":
    sys.exit(main())

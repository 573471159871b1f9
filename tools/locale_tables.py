#!/usr/bin/env python3
"""Writes the tables of the crate locales from the lists in its folder data/.

usage: tools/locale_tables.py            writes them
       tools/locale_tables.py --check    ends with status 1 where one is not up to date

Each list is written twice: into specs/ as its texts, line by line, and into src/tables/ as numbers, in their order. That both
say the same is proved, so nothing rests on this program.
"""
import pathlib
import sys

CRATE = pathlib.Path(__file__).resolve().parent.parent / "crates" / "locales"
NOTE = "Written by tools/locale_tables.py. Do not edit."


def lines_of(name):
    """The words of each line of a list; what follows a # is said of the list."""
    lines = (CRATE / "data" / name).read_text(encoding="ascii").splitlines()
    return [line.split() for line in lines if not line.startswith("#")]


def part_number(first, text):
    """The two bytes of a language or a region; three letters or digits, counted from the first, are packed."""
    if not text:
        return 0
    if len(text) == 2:
        return int.from_bytes(text.encode(), "big")
    a, b, c = (ord(symbol) - ord(first) for symbol in text)
    return 0x8000 | c << 10 | b << 5 | a


def locale_number(text):
    language, _, region = text.partition("-")
    return part_number("a", language) << 16 | part_number("0", region)


def script_number(text):
    return int.from_bytes(text.encode(), "big")


def definition(module, about, kind, name, lines):
    """A list of texts, which a function of Lines.antt turns into numbers."""
    maker = {"ScriptLine": "script_line", "ParentLine": "parent_line"}[kind]
    calls = [" ".join([maker] + [f'"{word}"' for word in words]) for words in lines]
    return f"specs/{module}.antt", (
        f"-- {about}\n-- {NOTE}\n"
        f"use Rattle.std.specs.Prelude.{{List, [], ◌∷◌}}\n"
        f"use Rattle.locales.specs.declared.lines.{kind}.{{{kind}}}\n"
        f"use Rattle.locales.specs.Lines.{{{maker}}}\n\n"
        f"unfoldable pub {name} : List {kind}\n{name} =\n    " + "\n    ∷ ".join(calls) + "\n    ∷ []\n"
    )


def table(module, about, kind, rows):
    """The same lines as numbers, each with its text behind it."""
    shown = [
        f"    {kind} {{ {', '.join(f'{field}: 0x{number:08X}' for field, number in row.items())} }}, // {' '.join(words)}\n"
        for row, words in rows
    ]
    return f"src/tables/{module}.rt", (
        f"//! {about}\n// {NOTE}\n\nuse crate::lines::{kind};\n\n"
        f"#[rattlefmt::skip]\npub(crate) static {module.upper()}: [{kind}; {len(rows)}] = [\n" + "".join(shown) + "];\n"
    )


def scripts_of(lines):
    return [({"locale": locale_number(words[0]), "script": script_number(words[1])}, words) for words in lines]


def parents_of(lines):
    return [
        ({"script": script_number(words[0]), "locale": locale_number(words[1]), "parent": locale_number(words[2])}, words)
        for words in lines
    ]


def under_script(row):
    return row[0]["script"], row[0]["locale"]


def tables():
    """The files with what belongs into them."""
    likely, parents, representatives = map(lines_of, ("likely-scripts.txt", "parents.txt", "representatives.txt"))
    yield definition("LikelyScripts", "A locale, and its likely script.", "ScriptLine", "likely_scripts", likely)
    yield definition("Parents", "A script, a locale, and its parent under the script.", "ParentLine", "parents", parents)
    yield definition("Representatives", "A locale, and a script in which it stands for its language.", "ScriptLine",
                     "representatives", representatives)
    yield table("likely_scripts", "Locales and their likely scripts, in the order of the locales.", "ScriptLine",
                sorted(scripts_of(likely), key=lambda row: row[0]["locale"]))
    yield table("parents", "Locales and their parents, in the order of scripts, and below each of locales.", "ParentLine",
                sorted(parents_of(parents), key=under_script))
    yield table("representatives", "Locales that stand for their language, in the order of scripts, and below each of locales.",
                "ScriptLine", sorted(scripts_of(representatives), key=under_script))


def main():
    stale = 0
    for name, text in tables():
        path = CRATE / name
        if path.exists() and path.read_text(encoding="utf-8") == text:
            continue
        stale += 1
        if sys.argv[1:] == ["--check"]:
            print(f"{name} is not what tools/locale_tables.py writes")
        else:
            path.write_text(text, encoding="utf-8")
    return 1 if stale and sys.argv[1:] == ["--check"] else 0


if __name__ == "__main__":
    sys.exit(main())

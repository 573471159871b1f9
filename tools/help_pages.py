"""What a program says of its own command line: its commands, their arguments and options, read from its help.

A line that cannot be read as clap writes it is an error, so nothing that is made of these pages is behind the program.
"""
import re
import subprocess
from typing import NamedTuple

HEADING = re.compile(r"(?P<title>[A-Z][a-z ]*):")
COMMAND = re.compile(r"  (?P<name>[a-z]+) +(?P<text>\S.*)")
ARGUMENT = re.compile(r"  (?P<open>[<\[])(?P<name>[A-Z]+)[>\]](?P<many>\.\.\.)? +(?P<text>\S.*)")
OPTION = re.compile(r"  (?:    |(?P<short>-[A-Za-z]), )(?P<long>--[a-z-]+)(?: <(?P<value>[A-Z]+)>)? +(?P<text>\S.*)")


class HelpPageError(Exception):
    """A line of a help page that cannot be read."""


class Argument(NamedTuple):
    name: str
    needed: bool
    many: bool
    text: str

    def word(self):
        """As a usage line has it: `<LAYERS>`, `[NAME]...`."""
        return ("<{}>" if self.needed else "[{}]").format(self.name) + ("..." if self.many else "")


class Option(NamedTuple):
    short: str
    long: str
    value: str
    text: str


class Page(NamedTuple):
    """A help page: the name of its command, what it does, and its usage line; below the headings it may have none."""

    name: str
    summary: str
    usage: str
    arguments: list
    options: list
    commands: list
    # the lines behind all of these
    rest: str


def read_line(pattern, line):
    found = pattern.fullmatch(line)
    if not found:
        raise HelpPageError(f"a help page has a line of another form: {line}")
    return found.groupdict()


def read_argument(line):
    it = read_line(ARGUMENT, line)
    return Argument(it["name"], it["open"] == "<", bool(it["many"]), it["text"])


def read_option(line):
    it = read_line(OPTION, line)
    return Option(it["short"], it["long"], it["value"], it["text"])


READERS = {"Commands": lambda line: read_line(COMMAND, line)["name"], "Arguments": read_argument, "Options": read_option}


def read_page(name, text):
    """The page of a text, with the names of its commands in place of their pages."""
    parts = text.rstrip("\n").split("\n\n")
    found = {title: [] for title in READERS}
    summary, usage, *others = parts
    while others:
        title, _, lines = others[0].partition(":\n")
        if title not in READERS:
            break
        found[title] = [READERS[title](line) for line in lines.split("\n")]
        del others[0]
    if not usage.startswith("Usage: "):
        raise HelpPageError(f"the help page of {name} has no usage")
    return Page(name, summary, usage.removeprefix("Usage: "), found["Arguments"], found["Options"], found["Commands"], "\n\n".join(others))


def help_of(program, *words):
    return subprocess.run([program, *words, "--help"], stdout=subprocess.PIPE, text=True, check=True).stdout


def read_pages(program):
    """The program's own page, with the pages of its commands."""
    page = read_page("restool", help_of(program))
    names = [it for it in page.commands if it != "help"]
    return page._replace(commands=[read_page(it, help_of(program, it)) for it in names])

#!/usr/bin/env python3
"""Prints the manual page of a program, made from its help: man_page.py PROGRAM"""
import subprocess
import sys

from help_pages import read_pages


def roff(text):
    """A text as roff reads it back."""
    for plain, written in (("\\", "\\e"), ("-", "\\-"), ("'", "\\(aq"), ("`", "\\(ga"), ("^", "\\(ha"), ("~", "\\(ti")):
        text = text.replace(plain, written)
    return "\\&" + text if text.startswith(".") else text


def item(head, text):
    return [".TP", head, roff(text)]


def option_head(option):
    names = ", ".join(f"\\fB{roff(it)}\\fR" for it in (option.short, option.long) if it)
    return names + (f" \\fI{option.value}\\fR" if option.value else "")


def option_items(options):
    return [line for it in options for line in item(option_head(it), it.text)]


def command_lines(page):
    arguments = [line for it in page.arguments for line in item(f"\\fI{it.name}\\fR", it.text)]
    own = [it for it in page.options if it.long != "--help"]
    return [f".SS {page.name}", roff(f"{page.summary}."), ".PP", f"\\fB{roff(page.usage)}\\fR", *arguments, *option_items(own)]


def rest_lines(rest):
    """What stands behind the options: paragraphs, and behind a heading lines as they are."""
    for part in filter(None, rest.split("\n\n")):
        head, _, lines = part.partition(":\n")
        if lines:
            yield from (f".SH {head.upper()}", ".nf", *map(roff, lines.split("\n")), ".fi")
        else:
            yield from (".PP", roff(part))


def main(program):
    version = subprocess.run([program, "--version"], stdout=subprocess.PIPE, text=True, check=True).stdout.strip()
    page = read_pages(program)
    lines = [
        f'.TH RESTOOL 1 "" "{version}"',
        ".SH NAME", roff(f"{page.name} - {page.summary[0].lower()}{page.summary[1:]}"),
        ".SH SYNOPSIS", ".B restool", ".I COMMAND", "[\\fIOPTION\\fR]... [\\fIARGUMENT\\fR]...",
        ".SH COMMANDS", *(line for it in page.commands for line in command_lines(it)),
        ".SH OPTIONS", *option_items(page.options), *rest_lines(page.rest),
    ]
    print("\n".join(lines))


if __name__ == "__main__":
    if len(sys.argv) != 2:
        sys.exit(__doc__)
    main(sys.argv[1])

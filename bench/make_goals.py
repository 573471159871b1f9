#!/usr/bin/env python3
"""Finds the goals for which a certificate can be made:

    make_goals.py PROGRAM LAYERS BOX [OPTION..] <WORDS >GOALS

The program is asked with these options. A goal that has no value on some device of the box is dropped, since `restool make` ends at the first of them. The ids
that are absent on the device with the least value of each qualifier are found by one `restool query`. Of the others, and
of attributes under styles, certificates are made in groups, and each that `restool make` names is dropped. What was
dropped is counted on standard error."""
import json
import subprocess
import sys

GOALS_AT_ONCE = 400
MOST_NODES = "1000000"


class Program:
    def __init__(self, path, options):
        self.path = path
        self.options = options

    def run(self, command, *words):
        done = subprocess.run([self.path, command, *self.options, *words], capture_output=True, text=True)
        if done.returncode > 1:
            sys.exit(f"status {done.returncode}: {command} {' '.join(words[:3])}: {done.stderr}")
        return done.stdout


def write_corner(box):
    """Writes the device with the least numbers of a box, and the first of its locales."""
    with open(box) as text:
        sets = json.load(text)
    least = {name: said["from"] if isinstance(said, dict) else min(said) for name, said in sets.items()}
    with open("corner", "w") as out:
        json.dump(least, out)


def with_value(program, layers, names):
    """The goals without the ids that end at no value and no bag on the device `corner`."""
    ids = [name for name in names if "@" not in name]
    lines = program.run("query", layers, "corner", *ids).splitlines() if ids else []
    absent = {name for name, line in zip(ids, lines) if line.split(" ")[1] not in ("value", "bag")}
    return [name for name in names if name not in absent]


def made(program, layers, box, names):
    """Those of the goals for which a certificate is made."""
    while names:
        told = program.run("make", "--max-nodes", MOST_NODES, layers, box, *names)
        if not told.startswith("counter goal "):
            if told.startswith("node limit"):
                sys.exit(f"more than {MOST_NODES} nodes for {len(names)} goals from {names[0]} on")
            return names
        place = int(told.splitlines()[0].split(" ")[2])
        names = names[:place] + names[place + 1 :]
    return names


def main():
    path, layers, box, *options = sys.argv[1:]
    program = Program(path, options)
    names = sys.stdin.read().split()
    write_corner(box)
    left = with_value(program, layers, names)
    goals = []
    for start in range(0, len(left), GOALS_AT_ONCE):
        goals += made(program, layers, box, left[start : start + GOALS_AT_ONCE])
    print("\n".join(goals))
    print(f"dropped: {len(names) - len(left)} by a query, {len(left) - len(goals)} by what was made", file=sys.stderr)


main()

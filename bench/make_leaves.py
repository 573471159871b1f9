#!/usr/bin/env python3
"""Writes a certificate with a single leaf for each id that needs no more, over a box of all densities:

    make_leaves.py PROGRAM LAYERS PHONE BOX CERT <IDS >ACCEPTED

The box has the qualifiers of the phone, and the densities 1 to 32767. Ids whose ends differ at some densities are
dropped first, and then those at which `restool check` rejects the certificate of the others. The ids that are left are
printed; what was dropped is counted on standard error."""
import json
import subprocess
import sys
from collections import Counter

DENSITIES = (1, 120, 160, 213, 240, 320, 480, 640, 2000, 32767)
GOALS_AT_ONCE = 500
UNITS = {"px": 0, "dp": 1, "sp": 2, "pt": 3, "in": 4, "mm": 5, "%": 0, "%p": 1}
RADIXES = {"0": 0, "7": 16, "15": 32, "23": 48}
KINDS = {"float": 4, "dynamic": 7, "hex": 17, "argb8": 28, "rgb8": 29, "argb4": 30, "rgb4": 31}
WHOLE = {"true": (18, 0xFFFFFFFF), "false": (18, 0), "null": (0, 0), "empty": (0, 1)}


def stored(text):
    """The kind and the word of a value that is printed so."""
    name, *rest = text.split(" ")
    if name in WHOLE and not rest:
        return WHOLE[name]
    if name[0] in "@?":
        return "@?".index(name[0]) + 1, int(name[1:], 16)
    if name in ("dimension", "fraction"):
        number, _, radix = rest[0].partition("/2^")
        unit = int(rest[2]) if rest[1] == "unit" else UNITS[rest[1]]
        return (5 if name == "dimension" else 6), ((int(number) << 8) + RADIXES[radix] + unit) & 0xFFFFFFFF
    if name in KINDS:
        return KINDS[name], int(rest[0].lstrip("#"), 16)
    if name == "kind":
        return int(rest[0], 16), int(rest[1], 16)
    number = int(rest[0], 0)
    return {"string": 3, "decimal": 16, "null": 0}[name], number & 0xFFFFFFFF


def leaf_of(end):
    """The leaf of an end that is a value or a bag, None where it is neither."""
    words = end.split(" ", 3)
    if words[0] == "bag":
        return {"bag": words[1]}
    if words[0] != "value":
        return None
    kind, word = stored(words[3])
    return {"layer": int(words[2]), "kind": kind, "word": word}


class Restool:
    def __init__(self, program, layers, phone, box, certificate):
        self.program = program
        self.layers = layers
        self.box = box
        self.certificate = certificate
        with open(phone) as text:
            self.phone = json.load(text)
        sets = {name: [value] for name, value in self.phone.items()}
        with open(box, "w") as out:
            json.dump({**sets, "density": {"from": 1, "to": 32767}}, out)

    def run(self, *words):
        done = subprocess.run([self.program, *words], capture_output=True, text=True)
        if done.returncode > 1:
            sys.exit(f"status {done.returncode}: {' '.join(words[:4])}: {done.stderr}")
        return done.stdout.splitlines()

    def ends(self, names, density):
        """Where each id ends, without the text after a string."""
        with open("device", "w") as out:
            json.dump({**self.phone, "density": density}, out)
        told = (line.split(" ", 1) for line in self.run("query", self.layers, "device", *names)[: len(names)])
        return {name: end.split(' "')[0] for name, end in told}

    def write(self, leaves, names):
        goals = [{"id": name, "nodes": [leaves[name]]} for name in names]
        with open(self.certificate, "w") as out:
            json.dump({"version": 1, "goals": goals}, out, separators=(",", ":"))

    def accepted(self, leaves, names):
        """Those of the ids whose leaf is true, and what the others are rejected for."""
        found, rules = [], Counter()
        while names:
            self.write(leaves, names)
            words = self.run("check", self.layers, self.box, self.certificate, *names)[0].split(" ")
            if words[0] == "accepted":
                return found + names, rules
            rules[" ".join(words[5:])] += 1
            place = int(words[2])
            found, names = found + names[:place], names[place + 1 :]
        return found, rules


def main():
    restool = Restool(*sys.argv[1:6])
    names = sys.stdin.read().split()
    ends = [restool.ends(names, density) for density in DENSITIES]
    alike = [name for name in names if len({of[name] for of in ends}) == 1]
    leaves = {name: leaf_of(ends[0][name]) for name in alike}
    names_left = [name for name in alike if leaves[name] is not None]
    accepted, rules = [], Counter({"ends differ, or are no value": len(names) - len(names_left)})
    for start in range(0, len(names_left), GOALS_AT_ONCE):
        found, told = restool.accepted(leaves, names_left[start : start + GOALS_AT_ONCE])
        accepted += found
        rules += told
    restool.write(leaves, accepted)
    print("\n".join(accepted))
    print(f"dropped: {dict(rules)}", file=sys.stderr)


main()

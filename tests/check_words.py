#!/usr/bin/env python3
"""Holds what words say that are lists of layers, or devices, against plain readings of the rules:

    check_words.py PROGRAM CASES [JOBS [FIRST]]

A word of layers has to print what the list in a file prints that it stands for, with the maps that plain_map.py makes, and to say
what these leave out; its tables lie by themselves or in apks, and some are missing. What `device` prints of a made line, and what of that as a line again,
is what plain_config.py says. The tables are those of named_tables.py. The cases are numbered from FIRST on, which is 0 if it is
not given. The last line counts what was compared."""
import json
import os
import random
import subprocess
import sys
import tempfile
import zipfile
from collections import Counter
from concurrent.futures import ProcessPoolExecutor

from named_tables import Table
from plain_config import Refused, device_of, line_of, made_line, unsaid
from plain_map import lines_of, made_map, map_text

MOST_LAYERS = 5
QUERIED = ("query", "device", "*")


def write(folder, path, said):
    with open(os.path.join(folder, path), "wb") as out:
        out.write(said)


def run(program, folder, *words):
    done = subprocess.run([program, *words], cwd=folder, capture_output=True)
    return done.stdout, done.stderr, done.returncode


# ---- lists of layers


class Listed:
    """A layer of a word: its table, where that lies, and the place of its base, if it is an overlay."""

    def __init__(self, chance, place, base):
        self.table, self.base = Table(chance), base
        self.path = f"layer{place}" + chance.choice((".arsc", ".apk", ".APK", ".bin"))
        self.is_missing = chance.random() < 0.02

    def write(self, folder):
        if self.is_missing:
            return
        if not self.path.lower().endswith(".apk"):
            return write(folder, self.path, self.table.bytes)
        with zipfile.ZipFile(os.path.join(folder, self.path), "w") as apk:
            apk.writestr("classes.dex", b"code")
            apk.writestr("resources.arsc", self.table.bytes)


def listed_layers(chance):
    """Some layers, the first of them a base."""
    layers, base = [], None
    for place in range(chance.randint(1, MOST_LAYERS)):
        is_overlay = place > 0 and chance.random() < 0.5
        layers.append(Listed(chance, place, base if is_overlay else None))
        base = base if is_overlay else place
    if layers[-1].path.endswith(".bin"):
        layers[-1].path = layers[-1].path[:-3] + "arsc"
    return layers


def word_of(layers):
    separators = ["", *("," if layer.base is None else "+" for layer in layers[1:])]
    return "".join(separator + layer.path for separator, layer in zip(separators, layers))


def list_of(layers, folder):
    """The same layers as a list in a file, with the maps of its overlays in files beside it."""
    listed = []
    for place, layer in enumerate(layers):
        listed.append({"table": layer.path})
        if layer.base is not None:
            listed[-1]["map"] = f"map{place}"
            write(folder, f"map{place}", map_text(made_map(layers[layer.base].table.rows, layer.table.rows)).encode())
    return json.dumps(listed).encode()


def left_of(layers, side=""):
    """What is said of the maps that are made, where there is an answer."""
    said = ""
    for place, layer in enumerate(layers):
        if layer.base is not None:
            own_of = made_map(layers[layer.base].table.rows, layer.table.rows)
            said += "".join(f"{side}layer {place} {line}\n" for line in lines_of(layer.table.rows, own_of))
    return said.encode()


def with_left(answer, left):
    """The same answer with lines beside it. What is a stop says why, and nothing else."""
    out, err, status = answer
    return answer if err else (out, left, status)


def check_layers(program, chance, folder):
    layers = listed_layers(chance)
    for layer in layers:
        layer.write(folder)
    word = word_of(layers)
    write(folder, "list", list_of(layers, folder))
    write(folder, "device", b'{"density":160,"locale":"fr-CA","night":2}')
    write(folder, "box", b'{"density":[160],"locale":["fr-CA"],"night":[2]}')
    for command, *words in (["ids"], QUERIED):
        said, due = (run(program, folder, command, layers_word, *words) for layers_word in (word, "list"))
        if said != with_left(due, left_of(layers)):
            yield f"{word} {command}: {said}, wanted {due} with {left_of(layers)}"
    for side, old, new in (("old ", word, "list"), ("new ", "list", word)):
        said, due = (run(program, folder, "diff", *both, "box") for both in ((old, new), ("list", "list")))
        if said != with_left(due, left_of(layers, side)):
            yield f"diff {old} {new}: {said}, wanted {due} with {left_of(layers, side)}"


# ---- devices


def due_of(line, android):
    """What `device` prints of a line, and of that as a line again, where there is one; or how it ends else."""
    try:
        device = device_of(line, android)
    except Refused as refused:
        return (b"", f"refused: device: {refused}\n".encode(), 3), None
    json_text = json.dumps(device, separators=(",", ":"), ensure_ascii=False) + "\n"
    back = line_of(device, android)
    printed = (b"", f"no word {unsaid(device, android)}\n".encode(), 1) if back is None else (f"config: {back}\n".encode(), b"", 0)
    return (json_text.encode(), b"", 0), printed


def check_device(program, number, folder):
    line, android = made_line(number), number % 2 == 1
    options = ["--locales", "android"] if android else []
    word = f"config: {line}"
    first, back = due_of(line.lstrip(" \t"), android)
    said = run(program, folder, "device", *options, word)
    if said != first:
        yield f"{word}: {said}, wanted {first}"
    if back is not None:
        write(folder, "said", first[0])
        for device in (word, "said"):
            said = run(program, folder, "device", "--config", *options, device)
            if said != back:
                yield f"{device} of {word}: {said}, wanted {back}"


# ---- all


def check_case(program, number):
    chance = random.Random(number)
    with tempfile.TemporaryDirectory() as folder:
        if number % 2 == 0:
            return "lists", [*check_layers(program, chance, folder)]
        return "devices", [*check_device(program, number // 2, folder)]


def main():
    program, cases = os.path.abspath(sys.argv[1]), int(sys.argv[2])
    jobs, first = (int(word) for word in (sys.argv[3:] + ["1", "0"][len(sys.argv) - 3 :])[:2])
    with ProcessPoolExecutor(jobs) as pool:
        said = list(pool.map(check_case, [program] * cases, range(first, first + cases), chunksize=8))
    for kind, faults in said:
        for fault in faults[:1]:
            print(f"{kind}: {fault}")
    print(", ".join(f"{kind} {times}" for kind, times in sorted(Counter(kind for kind, _ in said).items())))
    sys.exit(any(faults for _, faults in said))


main()

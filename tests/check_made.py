#!/usr/bin/env python3
"""Holds `restool make` against a plain reading of the rules, which asks every device of a box:

    check_made.py [--locales android] PROGRAM CASES [JOBS [FIRST]]

for so many random layers, boxes of at most some thousand devices, of which in some at most one qualifier varies, and
lists of goals, in every second one with attributes under styles. A certificate has to be one that `restool check` accepts, each of its tests has to be needed, and
`restool query` and `restool attr` have to end for devices of the box at the values of their leaves. Where at most one qualifier varies, no
tree with fewer nodes may be there. With a limit of as many nodes the same has to be made, and with fewer none. A device
without a value has to be in the box, and they have to say of it what is shown. With a limit that makes that
`node limit` there have to be trees of needed tests that pass it.

The cases are numbered from FIRST on, which is 0 if it is not given. The last line counts what was made."""
import json
import os
import random
import sys
import tempfile
from collections import Counter
from concurrent.futures import ProcessPoolExecutor
from functools import partial

from case_files import Files, device_of
from case_words import read_words
from plain_certificates import certificate_json, goal_word, says
from plain_rules import end_text
from plain_trees import Traces, fault_of_need, have_larger_trees, places, runs, varying
from random_cases import Case
from random_locales import LocaleCase

NODE_LIMIT = ("node limit\n", 1)
DEVICES_ASKED = 3


def make(files, case, *limit):
    return files.printed("make", *limit, "layers", "box", *map(goal_word, case.asked))


# ---- a certificate


def faults_of_text(text, goals, asked):
    """The faults of a certificate's text."""
    said = certificate_json(list(zip(asked, (goal["nodes"] for goal in goals))))
    wanted = json.dumps(said, sort_keys=True, separators=(",", ":")) + "\n"
    return [] if text == wanted else [f"not written as {wanted}"]


def faults_of_check(files, case, text, size):
    """The faults of what `restool check` says of a certificate."""
    with open(os.path.join(files.folder, "certificate"), "w") as certificate:
        certificate.write(text)
    told = files.run("check", "layers", "box", "certificate", *map(goal_word, case.asked))
    wanted = [f"accepted goals {len(case.asked)} nodes {size}", f"set-aside {case.layers.set_aside()}"]
    return [] if told == (wanted, 0) else [f"checked: {told}"]


def faults_of_tree(case, asked, nodes):
    """The faults of the tests of a tree, and of its size where at most one coordinate varies."""
    traces = Traces(case.layers, asked)
    faults = []
    for place, (node, members) in enumerate(places(case.members, nodes)):
        fault = fault_of_need(case.box, node, members, traces) if "coord" in node else None
        if "in" in node and node["in"] != case.box.in_order(node["coord"], node["in"]):
            fault = "the values of a list do not rise"
        faults += [f"{goal_word(asked)} node {place}: {fault}"] if fault else []
    if len(varying(case.members)) <= 1:
        least = 2 * runs(case.box, case.members, traces) - 1
        faults += [] if len(nodes) == least else [f"{goal_word(asked)}: {len(nodes)} nodes, where {least} would do"]
    return faults


def faults_of_device(files, case, goals, device):
    """The faults of what is said of a device, against the leaves that it comes to."""
    faults = []
    for asked, goal in zip(case.asked, goals):
        leaf = next(node for node, here in places([device], goal["nodes"]) if here and "coord" not in node)
        end, told = case.layers.trace(asked, device)[1], files.end(asked, device)
        if not says(leaf, end) or not f"{told} ".startswith(f"{end_text(end)} "):
            faults.append(f"{goal_word(asked)}: {told}, where the leaf says {leaf}, and the rules {end_text(end)}")
    return faults


def faults_of_certificate(files, case, text):
    goals = json.loads(text)["goals"]
    size = sum(len(goal["nodes"]) for goal in goals)
    faults = faults_of_text(text, goals, case.asked) + faults_of_check(files, case, text, size)
    if faults:
        return faults
    for asked, goal in zip(case.asked, goals):
        faults += faults_of_tree(case, asked, goal["nodes"])
    for device in case.chance.choices(case.members, k=DEVICES_ASKED):
        faults += faults_of_device(files, case, goals, device)
    if make(files, case, "--max-nodes", str(size)) != (text, 0):
        faults.append(f"not made with a limit of {size} nodes")
    for fewer in {size - 1, case.chance.randrange(size)} - {0}:
        told = make(files, case, "--max-nodes", str(fewer))
        faults += [] if told == NODE_LIMIT else [f"with a limit of {fewer} nodes of {size}: {told}"]
    return faults


# ---- a device without a value


def faults_of_shown(files, case, asked, lines):
    """The faults of the two lines that show a device without a value for a goal."""
    device = device_of(lines[0].removeprefix("device "))
    end = lines[1].removeprefix("end ")
    faults = [] if device in case.members else ["a device that is not in the box"]
    faults += [] if end.startswith(("absent ", "too long ")) else ["an end that is a value or a bag"]
    told = files.end(asked, device)
    return faults + ([] if told == end else [f"asked: {told}"])


def may_pass(case, limit):
    """Whether there are needed trees that have more nodes."""
    traces = [Traces(case.layers, goal) for goal in case.asked]
    return have_larger_trees(case.box, case.members, traces, limit, case.chance)


def faults_of_counter(files, case, text):
    counter, *lines = text.splitlines()
    faults = faults_of_shown(files, case, case.asked[int(counter.removeprefix("counter goal "))], lines)
    limit = case.chance.randint(1, 12)
    told = make(files, case, "--max-nodes", str(limit))
    if told == NODE_LIMIT and not may_pass(case, limit):
        faults.append(f"a limit of {limit} nodes, which no needed trees pass")
    return faults + ([] if told in (NODE_LIMIT, (text, 1)) else [f"with a limit of {limit} nodes: {told}"])


# ---- cases


def numbered(case_of, number):
    """The case of a number. In two of five at most one qualifier varies."""
    case = case_of(random.Random(number), has_styles=number % 2 == 1)
    if number % 5 < 2:
        case.narrow()
    return case


def check_case(program, case_of, number):
    case = numbered(case_of, number)
    with tempfile.TemporaryDirectory() as folder:
        files = Files(program, folder, case)
        text, status = make(files, case)
        if status == 0:
            faults, told = faults_of_certificate(files, case, text), "certificates"
        elif text.startswith("counter"):
            faults, told = faults_of_counter(files, case, text), "devices without a value"
        else:
            faults, told = [f"made: {text}, status {status}"], "others"
    return [f"case {number}: {fault}" for fault in faults], told


def check_cases(check_case):
    """Checks the cases that the words of the command line ask for, and counts what was made."""
    as_phone, program, numbers, jobs = read_words()
    check = partial(check_case, program, LocaleCase if as_phone else Case)
    told = Counter()
    wrong = 0
    with ProcessPoolExecutor(jobs) as pool:
        for faults, made in pool.map(check, numbers, chunksize=8):
            told[made] += 1
            wrong += bool(faults)
            for fault in faults:
                print(fault)
    print(f"{len(numbers)} boxes: {', '.join(f'{name} {told[name]}' for name in sorted(told))}")
    sys.exit(wrong > 0)


if __name__ == "__main__":
    check_cases(check_case)

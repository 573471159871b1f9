#!/usr/bin/env python3
"""Holds `restool check` against a plain reading of the rules, which asks every device of a box:

    check_certificates.py [--locales android] PROGRAM CASES [JOBS [FIRST]]

for so many random layers, boxes of at most some thousand devices, and certificates, of which some are true and most
have a fault. Every second one has styles, and goals of attributes. Goal, node, rule, and what is shown have to be the same,
with --all of each goal that is rejected, and with --android in its notation. Of two devices that are shown for a mixed leaf
it is asked whether they stand at it, whether they differ in one coordinate alone, by one where it is a range, and whether
at the first question that devices at the leaf answer differently the first answers yes and the second no; and what
`restool explain` or `restool attr` says of them, and of some other device of the box, has to be what the rules say. The
cases are numbered from FIRST on, which is 0 if it is not given. The last line counts the certificates by their verdicts."""
import random
import sys
import tempfile
from collections import Counter
from concurrent.futures import ProcessPoolExecutor
from functools import partial

from case_files import Files, device_of
from case_words import read_words
from plain_bags import Attribute
from plain_certificates import all_lines, certificate_json, goal_word, verdicts, verdict_lines
from plain_rejections import in_words
from plain_rules import COORDS, end_text
from random_cases import CertifiedCase
from random_locales import CertifiedLocaleCase


def check_explanation(files, case, goal, device):
    """The faults of what `restool explain` says of an id at a device, or `restool attr` of an attribute."""
    if isinstance(goal, Attribute):
        printed, wanted = files.end(goal, device), end_text(case.layers.trace(goal, device)[1])
        return [] if f"{printed} ".startswith(f"{wanted} ") else [f"ends: {printed}", f"wanted: {wanted}"]
    printed, wanted = files.explain(goal, device), case.layers.explanation(goal, device)
    return [] if printed == wanted else [f"explained: {printed}", f"wanted: {wanted}"]


def first_question(steps):
    """The first question that lists of steps answer differently: the place of the step, and which steps are a yes."""
    for place, step in enumerate(zip(*steps)):
        if len(set(step)) > 1:
            return place, ("took over",) if "no match" not in step else ("took over", "kept out")
    return None


def faults_of_pair(case, goal, members, first, second):
    """The faults of two devices that are shown for a mixed leaf."""
    differing = [coord for coord in COORDS if first[coord] != second[coord]]
    faults = [] if first in members and second in members else ["a device that is not at the leaf"]
    if len(differing) != 1:
        return faults + [f"they differ in {differing}"]
    if case.box.is_range(differing[0]) and abs(first[differing[0]] - second[differing[0]]) != 1:
        faults.append(f"they are no neighbours in {differing[0]}")
    place, yes = first_question([case.layers.trace(goal, device)[0] for device in members])
    answers = [case.layers.trace(goal, device)[0][place] in yes for device in (first, second)]
    if answers != [True, False]:
        faults.append(f"at candidate {place} of the way they answer {answers}")
    return faults


def all_faults(files, case, rejections):
    """The faults of what is printed of all goals that are rejected. Of two devices there are only the words before them."""
    lines, status = files.run("check", "--all", "layers", "box", "certificate", *map(goal_word, case.asked))
    wanted = all_lines(case.layers, case.box, case.asked, case.goals, rejections)
    seen = [line.split(" ")[0] + " " if line.startswith(("first ", "second ")) else line for line in lines]
    faults = [] if status == int(len(rejections) > 0) else [f"status {status} of all"]
    if seen != wanted:
        return faults + [f"printed of all: {lines}", f"wanted: {wanted}"]
    noted, wanted = files.run("check", "--all", "--android", "layers", "box", "certificate", *map(goal_word, case.asked)), (in_words(case, lines), status)
    return faults + ([] if noted == wanted else [f"printed in Android's notation: {noted}", f"wanted: {wanted}"])


def faults_of_verdict(files, case):
    """The faults of a verdict, and what it is."""
    rejections = list(verdicts(case.layers, case.box, case.asked, case.goals))
    rejected = next(iter(rejections), None)
    faults_of_all = all_faults(files, case, rejections)
    wanted = verdict_lines(case.layers, case.box, case.asked, case.goals, rejected)
    lines, status = files.run("check", "layers", "box", "certificate", *map(goal_word, case.asked))
    counted = Counter([f"N{rejected[1].rule}" if rejected else "accepted"])
    faults = faults_of_all + ([] if status == int(rejected is not None) else [f"status {status}"])
    is_mixed = rejected is not None and rejected[1].rule == 6
    seen = [line.split(" ")[0] + " " if is_mixed and place in (1, 2) else line for place, line in enumerate(lines)]
    if seen != wanted:
        return faults + [f"printed: {lines}", f"wanted: {wanted}"], counted
    if not is_mixed:
        return faults, counted
    goal = case.asked[rejected[0]]
    shown = [device_of(line.split(" ", 1)[1]) for line in lines[1:3]]
    for device in shown:
        faults += check_explanation(files, case, goal, device)
    return faults + faults_of_pair(case, goal, rejected[1].members, *shown), counted


def check_case(program, case_of, number):
    chance = random.Random(number)
    case = case_of(chance, has_styles=number % 2 == 1)
    with tempfile.TemporaryDirectory() as folder:
        files = Files(program, folder, case)
        files.write("certificate", certificate_json(case.goals))
        faults, counted = faults_of_verdict(files, case)
        faults += check_explanation(files, case, chance.choice(case.asked), chance.choice(case.members))
    return [f"case {number}: {fault}" for fault in faults], counted


def main():
    as_phone, program, numbers, jobs = read_words()
    check = partial(check_case, program, CertifiedLocaleCase if as_phone else CertifiedCase)
    counted = Counter()
    wrong = 0
    with ProcessPoolExecutor(jobs) as pool:
        for faults, verdicts in pool.map(check, numbers, chunksize=8):
            counted += verdicts
            wrong += bool(faults)
            for fault in faults:
                print(fault)
    print(f"{len(numbers)} certificates: {', '.join(f'{name} {counted[name]}' for name in sorted(counted))}")
    sys.exit(wrong > 0)


main()

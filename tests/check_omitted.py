#!/usr/bin/env python3
"""Holds `restool make --omit` against a plain reading of the rules, which asks every device of a box:

    check_omitted.py [--locales android] PROGRAM CASES [JOBS [FIRST]]

for the random cases of check_made.py, some with goals that have no value. The goals that are left out have to be those
that have none at some device; each is told once, in their order, with its place, its word and such a device. The
certificate has to be for the others: all is asked of it that check_made.py asks. Where none is left, nothing may be
printed. With a limit of as many nodes, or another, the same has to be made, or there have to be trees of needed tests
that pass it: those of goals that are kept, and behind them at most that of one goal that is left out.

The cases are numbered from FIRST on, which is 0 if it is not given. The last line counts what was made."""
import copy
import json
import tempfile

from case_files import Files
from check_made import NODE_LIMIT, check_cases, faults_of_certificate, faults_of_shown, may_pass, numbered
from plain_certificates import goal_word
from plain_trees import Traces

LINES_OF_A_GOAL = 3


def make(files, case, *limit):
    return files.streams("make", "--omit", *limit, "layers", "box", *map(goal_word, case.asked))


def size_of(text):
    """How many nodes a certificate has; none has no text."""
    return sum(len(goal["nodes"]) for goal in json.loads(text)["goals"]) if text else 0


def with_goals(case, places):
    """The same case, where the goals at these places alone are asked for."""
    some = copy.copy(case)
    some.asked = [case.asked[place] for place in places]
    return some


def is_without_value(case, goal):
    """Whether a goal has no value at some device."""
    traces = Traces(case.layers, goal)
    return any(traces.of(device)[1][0] in ("absent", "too long") for device in case.members)


def faults_of_told(files, case, places, said):
    """The faults of the lines on the standard error, where the goals at these places are due."""
    lines = said.splitlines()
    told = [lines[first : first + LINES_OF_A_GOAL] for first in range(0, len(lines), LINES_OF_A_GOAL)]
    begun = [" ".join(of_goal[0].split(" ")[:4]) for of_goal in told]
    wanted = [f"omitted goal {place} {goal_word(case.asked[place])}" for place in places]
    if begun != wanted or any(len(of_goal) != LINES_OF_A_GOAL for of_goal in told):
        return [f"told: {lines}, wanted {wanted}"]
    return [
        fault
        for place, of_goal in zip(places, told)
        for fault in faults_of_shown(files, case, case.asked[place], of_goal[1:])
    ]


def may_be_passed(case, places, limit):
    """Whether needed trees pass a limit where the goals at these places are left out: of the goals that are kept, or of those
    before a goal that is left out and of this goal, whose tree can grow so large before it comes to a device without a value."""
    kept = [place for place in range(len(case.asked)) if place not in places]
    tried = [kept, *([before for before in kept if before < place] + [place] for place in places)]
    return any(may_pass(with_goals(case, some), limit) for some in tried)


def faults_of_limit(files, case, places, made):
    """The faults of what is made with a limit."""
    size = size_of(made[0])
    limit = case.chance.choice((size or 1, case.chance.randint(1, 12)))
    told = make(files, case, "--max-nodes", str(limit))
    if told == (NODE_LIMIT[0], "", NODE_LIMIT[1]):
        is_due = may_be_passed(case, places, limit)
        return [] if is_due else [f"a limit of {limit} nodes, which no needed trees pass"]
    return [] if told == made and size <= limit else [f"with a limit of {limit} nodes: {told}"]


def check_case(program, case_of, number):
    case = numbered(case_of, number)
    with tempfile.TemporaryDirectory() as folder:
        files = Files(program, folder, case)
        text, said, status = made = make(files, case)
        places = [place for place, goal in enumerate(case.asked) if is_without_value(case, goal)]
        kept = with_goals(case, [place for place in range(len(case.asked)) if place not in places])
        faults = faults_of_told(files, case, places, said)
        if kept.asked and status == 0:
            faults += faults_of_certificate(files, kept, text)
        elif kept.asked or (text, status) != ("", 1):
            faults.append(f"made: {text}, status {status}")
        faults += faults_of_limit(files, case, places, made)
    told = "all kept" if not places else "some kept" if kept.asked else "none kept"
    return [f"case {number}: {fault}" for fault in faults], told


check_cases(check_case)

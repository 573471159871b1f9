#!/usr/bin/env python3
"""How large made trees are, beside the least that are accepted: small_trees.py PROGRAM CASES [JOBS]

Takes so many random layers and boxes, those of tests/check_made.py, and the first id of each. Leaves out ids without a
value on some device, boxes of which fewer than two qualifiers matter, and those with too many parts to try all trees.
Prints how often the nodes of the least tree `restool make` makes, in the mean and at worst, by the number of
qualifiers that matter."""
import functools
import itertools
import json
import os
import random
import sys
import tempfile
from concurrent.futures import ProcessPoolExecutor

sys.path.insert(0, os.path.join(os.path.dirname(os.path.abspath(__file__)), "..", "tests"))
from case_files import Files
from plain_certificates import goal_word
from plain_rules import COORDS
from plain_trees import Traces
from random_cases import Case

MOST_PARTS = 60000


class Grid:
    """The values of each qualifier that matter, one for all that never make a difference, and the trace of each
    combination."""

    def __init__(self, box, traces):
        self.ranges = [box.is_range(name) for name in COORDS]
        self.sets = [tuple(values) for values in box.sets.values()]
        self.trace = {key: traces.of(dict(zip(COORDS, key))) for key in itertools.product(*self.sets)}
        for place in range(len(self.sets)):
            self.sets[place] = self.different(place)

    def different(self, place):
        """Of a range the first of each run of values that make no difference, of a choice one of each kind."""
        kept, seen = [], []
        for value in self.sets[place]:
            others = [(value,) if k == place else values for k, values in enumerate(self.sets)]
            column = [self.trace[key] for key in itertools.product(*others)]
            if column not in (seen[-1:] if self.ranges[place] else seen):
                kept.append(value)
                seen.append(column)
        return tuple(kept)

    def mattering(self):
        return sum(len(values) > 1 for values in self.sets)

    def parts(self):
        """How many boxes there are in it."""
        product = 1
        for values, is_range in zip(self.sets, self.ranges):
            product *= len(values) * (len(values) + 1) // 2 if is_range else 2 ** len(values) - 1
        return product

    def halves(self, values, is_range):
        """All ways to divide the values of a qualifier, each once."""
        if is_range:
            return [(values[:at], values[at:]) for at in range(1, len(values))]
        first, others = values[0], values[1:]
        picks = itertools.product((True, False), repeat=len(others))
        divided = (
            ((first,) + tuple(itertools.compress(others, pick)), tuple(v for v, kept in zip(others, pick) if not kept))
            for pick in picks
        )
        return [(yes, no) for yes, no in divided if no]

    def least(self):
        """The nodes of the least tree."""

        @functools.lru_cache(None)
        def size(sets):
            if len({self.trace[key] for key in itertools.product(*sets)}) == 1:
                return 1
            return 1 + min(
                size(sets[:place] + (yes,) + sets[place + 1 :]) + size(sets[:place] + (no,) + sets[place + 1 :])
                for place, values in enumerate(sets)
                for yes, no in self.halves(values, self.ranges[place])
            )

        return size(tuple(self.sets))


def compare(program, number):
    """How many qualifiers matter, and how often the least nodes are made; None where the case is left out."""
    case = Case(random.Random(number))
    asked = case.asked[0]
    grid = Grid(case.box, Traces(case.layers, asked))
    if grid.mattering() < 2 or grid.parts() > MOST_PARTS:
        return None
    with tempfile.TemporaryDirectory() as folder:
        text, status = Files(program, folder, case).printed("make", "layers", "box", goal_word(asked))
    if status != 0:
        return None
    return grid.mattering(), len(json.loads(text)["goals"][0]["nodes"]) / grid.least()


def main():
    program, cases = os.path.abspath(sys.argv[1]), int(sys.argv[2])
    jobs = int(sys.argv[3]) if len(sys.argv) > 3 else 1
    with ProcessPoolExecutor(jobs) as pool:
        found = [f for f in pool.map(compare, [program] * cases, range(cases), chunksize=8) if f]
    for count in [None] + sorted({mattering for mattering, _ in found}):
        times = [ratio for mattering, ratio in found if count in (None, mattering)]
        name = "all" if count is None else f"{count} qualifiers"
        print(f"{name}: {len(times)} boxes, {sum(times) / len(times):.4f} in the mean, {max(times):.2f} at worst")


main()

#!/usr/bin/env python3
"""Holds `restool explain` against `restool rows` and `restool query`:

    check_explanations.py PROGRAM LAYERS DEVICE [JOBS]

for each id of the layers. It is run from the folder that their paths are relative to. The candidates of
each look-up have to be the rows of its id in all layers, in their order; one that matches comes first, and no
other is called first; what the last of those that took over holds has to be what the chain goes on with, or
ends at; and the end has to be that of `query`. The last line is the number of ids, and of look-ups."""
import re
import sys
from concurrent.futures import ThreadPoolExecutor

from printed import CANDIDATE, TAKES_OVER, Restool

REFERENCES = 20
DECISION = re.compile(r"set aside|no match \w+|first|took over P\d+|took over equal|kept out P\d+|kept out")
NOT_THERE = ("set aside", "no match")


def look_ups_of(lines):
    """The id of each look-up, and the lines of its candidates."""
    look_ups = []
    for line in lines:
        if line.startswith("lookup "):
            look_ups.append((line[7:], []))
        else:
            look_ups[-1][1].append(line)
    return look_ups


def check_candidates(printed, rows):
    """The faults of the lines of a look-up, and the candidate that took over last."""
    faults = []
    if len(rows) != len(printed):
        faults.append(f"{len(printed)} candidates, not {len(rows)}")
    best = None
    for place, (line, (layer, row)) in enumerate(zip(printed, rows)):
        parts = CANDIDATE.fullmatch(line)
        if not parts or (int(parts[1]), int(parts[2]), parts[3]) != (place, layer, row.record):
            faults.append(f"{line}, wanted {place} of layer {layer} {row.record}")
            continue
        decision = parts[4]
        is_first = best is None and not decision.startswith(NOT_THERE)
        if not DECISION.fullmatch(decision) or (decision == "first") != is_first:
            faults.append(line)
        if decision.startswith(TAKES_OVER):
            best = (layer, row)
    return faults, best


def check(restool, ends, name):
    """The faults of an explanation, and how many look-ups it has."""
    lines, status = restool.ask("explain", name)
    faults = []
    look_ups = look_ups_of(lines[:-1])
    wanted = name
    end = None
    for n, (looked_up, printed) in enumerate(look_ups):
        if looked_up != wanted or end is not None:
            faults.append(f"look-up {n} is of {looked_up}, not of {wanted}")
        more, best = check_candidates(printed, restool.candidates(looked_up))
        faults += [f"{looked_up}: {fault}" for fault in more]
        if best is None:
            end = f"absent {looked_up}"
        elif best[1].value == "bag":
            end = f"bag {looked_up}"
        elif not best[1].value.startswith("@") or best[1].value == "@0x00000000":
            end = f"value layer {best[0]} {best[1].value}"
        elif n == REFERENCES:
            end = f"too long {best[1].value[1:]}"
        else:
            wanted = best[1].value[1:]
    if lines[-1:] != [f"end {end}"] or ends[name] != end:
        faults.append(f"ends as {lines[-1:]}, query says {ends[name]}, the candidates {end}")
    if status != int(end is not None and end.startswith(("absent", "too long"))):
        faults.append(f"status {status}")
    return [f"{name}: {fault}" for fault in faults], len(look_ups)


def main():
    restool = Restool(*sys.argv[1:4])
    names = restool.ids()
    ends = restool.ends(names)
    with ThreadPoolExecutor(int(sys.argv[4]) if len(sys.argv) > 4 else 1) as pool:
        results = list(pool.map(lambda name: check(restool, ends, name), names))
    for faults, _ in results:
        for fault in faults:
            print(fault)
    print(f"{len(names)} ids, {sum(look_ups for _, look_ups in results)} look-ups")
    sys.exit(any(faults for faults, _ in results))


main()

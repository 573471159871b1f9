#!/usr/bin/env python3
"""Refuses memory to calls of the library, each on worked rows (worked_calls.py):

    calls.py LIBRARY

LIBRARY is refuse.c, built to be preloaded. The program of calls is the crate test_calls, as it is built there. Each row
runs once for each growth of memory in which this one is refused, and once more in which all from there on are; what the
call is given is made before. Calls that take no memory run with every growth refused. A row is named after the one public
call that it makes, but those of the texts of faults. Each public call that takes memory is made by such a row, or by the program, of which refusals.py
refuses memory in each command, itself or in turn: as the sources tell; or it only hands on to one that is so made. The
last line is 'N passed, M failed'."""
import os
import subprocess
import sys
import tempfile
from concurrent.futures import ThreadPoolExecutor
from pathlib import Path

from library import Library, full_name
from worked_calls import TEXTS, WITHOUT_MEMORY, rows

HERE = Path(__file__).resolve().parent.parent.parent
PROGRAM = HERE / "crates" / "test_calls" / "out" / "test_calls"
WANTS = ("OutOfMemory", "out of memory", "AllocError")
"""What a call says where memory runs out."""
NEVER_MADE = 1 << 40
MOST_SHOWN = 400
MOST_SECONDS = 60


def faults_of_names(library):
    """What rows are named after that is no public call, or is several; and the calls that take memory and are made neither
    by a row nor by the program."""
    public = library.public()
    named = {row.name: public[row.name] for row in [*rows(), *WITHOUT_MEMORY]}
    yield from (f"{len(calls)} public calls are named {name}" for name, calls in named.items() if len(calls) != 1)
    of_rows = [call for row in rows() for call in named[row.name]]
    made = library.reached([*of_rows, *library.of_program()])
    for call in (it for calls in public.values() for it in calls):
        if call.takes_memory and call not in made and not hands_on(library, call, made):
            yield f"no row for {full_name(call)} of {call.crate}"


def hands_on(library, call, made):
    """Whether a call takes memory by one other call alone, which is made."""
    taking = [it for it in library.called_by(call) if it.takes_memory]
    return len(taking) == 1 and taking[0] in made


class Calls:
    """Runs rows with the library before their program."""

    def __init__(self, library):
        self.library = library

    def run(self, row, first=NEVER_MADE, last=NEVER_MADE):
        """What a call says where the growths from the first to the last are refused, and how many were asked for."""
        with tempfile.NamedTemporaryFile() as count:
            said = {"REFUSED": "grow", "FROM": str(first), "TO": str(last), "COUNT": count.name, "MARKED": "call"}
            ran = subprocess.run(
                [PROGRAM, *row.words],
                env={"LD_PRELOAD": self.library, **said},
                stdin=subprocess.DEVNULL,
                capture_output=True,
                timeout=MOST_SECONDS,
            )
            lines = ran.stdout.decode().splitlines()
            if ran.returncode != 0:
                lines += [f"status {ran.returncode}", *ran.stderr.decode().splitlines()]
            return lines, int(count.read() or b"0")


def answers_of_want(row):
    """What a call may say where it is refused memory. One that changes what it is given says what that is then, and is
    made again."""
    again = [*row.unchanged, *row.answer] if row.unchanged else []
    return [[want, *again] for want in WANTS]


def faults(calls, row):
    """What a call says in place of its answer, or of want of memory."""
    said, growths = calls.run(row)
    if said != row.answer:
        yield f"with ample memory: {said}"
    wants = answers_of_want(row)
    without, _ = calls.run(row, 1)
    if without not in wants:
        yield f"without memory: {without}"
    for place in range(1, growths + 1):
        for last in (place, NEVER_MADE):
            said, _ = calls.run(row, place, last)
            if said != row.answer and said not in wants:
                yield f"growths {place} to {last} of {growths}: {said}"


def faults_without_memory(calls, row):
    """What calls say that take no memory, in place of their answers, or that they ask for some."""
    said, growths = calls.run(row, 1)
    if said != row.answer or growths != 0:
        yield f"without memory, {growths} growths: {said}"


def tests():
    """What is tried: a row, and what finds its faults."""
    yield from ((row, faults) for row in rows())
    yield from ((row, faults_without_memory) for row in [*WITHOUT_MEMORY, *TEXTS])


def main(words):
    tried = [*tests()]
    calls = Calls(os.path.abspath(words[0]))
    wrong_names = [*faults_of_names(Library())]
    for fault in wrong_names:
        print(f"failed: {fault}")
    failed = len(wrong_names)
    with ThreadPoolExecutor(os.cpu_count()) as pool:
        for (row, _), found in zip(tried, pool.map(lambda test: list(test[1](calls, test[0])), tried)):
            failed += bool(found)
            if found:
                print(f"failed: {row.name}: {len(found)} faults, the first: {found[0][:MOST_SHOWN]}")
    print(f"{len(tried) + len(wrong_names) - failed} passed, {failed} failed")
    sys.exit(failed > 0)


if __name__ == "__main__":
    main(sys.argv[1:])

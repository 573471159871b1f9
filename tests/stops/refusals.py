#!/usr/bin/env python3
"""Refuses the program memory, files, and bytes on their way:

    refusals.py PROGRAM LIBRARY [JOBS]

LIBRARY is refuse.c, built to be preloaded. Each command runs once for each growth of memory, each file, each read
and each write, in which this one is refused, and once more in which all from there on are. On small worked cases only
memory is refused, from where the first file is opened. The last line is 'N passed, M failed'."""
import os
import subprocess
import sys
import tempfile
from concurrent.futures import ThreadPoolExecutor

from runs import STANDARD_INPUT, Ended, long_answer, runs
from small_runs import small_runs

NEVER_MADE = 1 << 40
"""A call that no run comes to."""
MOST_READS = 268_435_457
MOST_SHOWN = 400
MOST_SECONDS = 120
MEMORY = Ended(4, b"", b"out of memory\n")


class Refuser:
    """Runs the program with the library before it. With a mark, as refuse.c has it, only calls behind that count."""

    def __init__(self, program, library, mark=None):
        self.program, self.library = program, library
        self.marked = {"MARKED": mark} if mark else {}

    def run(self, run, kind, first=NEVER_MADE, last=NEVER_MADE):
        """How a run ends where the calls of a kind from the first to the last are refused, and how many were made."""
        with tempfile.NamedTemporaryFile() as count, open(run.given, "rb") as given:
            said = {"REFUSED": kind, "FROM": str(first), "TO": str(last), "COUNT": count.name, **self.marked}
            started = subprocess.Popen(
                [self.program, *run.words],
                cwd=run.folder,
                env={"LD_PRELOAD": self.library, **said},
                stdin=given,
                stdout=subprocess.PIPE,
                stderr=subprocess.PIPE,
            )
            return ended_within(MOST_SECONDS, started), int(count.read() or b"0")

    def each_with_calls(self, run, kind):
        """How a run ends where one call of a kind is refused, and where all from there on are: for each call. With the
        place of the refused call, and how many calls were made."""
        calls = self.run(run, kind)[1]
        for place in range(1, calls + 1):
            yield f"{kind} {place} of {calls}", place, *self.run(run, kind, place, place)
            yield f"{kind} {place} and on", place, *self.run(run, kind, place)

    def each(self, run, kind):
        """The same, without the calls."""
        return ((name, ended) for name, _, ended, _ in self.each_with_calls(run, kind))


def ended_within(seconds, started):
    """How a program ends, without a status where it takes longer."""
    try:
        out, err = started.communicate(timeout=seconds)
        return Ended(started.returncode, out, err)
    except subprocess.TimeoutExpired:
        started.kill()
        return Ended(None, *started.communicate())


def file_fault(path):
    return Ended(5, b"", f"file: {path}\n".encode())


def without_repeats(items):
    return [item for place, item in enumerate(items) if place == 0 or item != items[place - 1]]


def faults_of_memory(refuser, run):
    """Either the answer of ample memory, or that memory ran out and nothing else."""
    ends = list(refuser.each(run, "grow"))
    yield from (f"{name}: {ended}" for name, ended in ends if ended not in (run.ended, MEMORY))
    if not ends or ends[0][1] != MEMORY:
        yield f"the first growth is no want of memory: {ends[:1]}"


def faults_of_memory_behind_words(refuser, run):
    """The same from where the first file is opened: how words are read, the runs of each command show."""
    yield from faults_of_memory(Refuser(refuser.program, refuser.library, "open"), run)


def faults_of_files(refuser, run):
    """The files in their order, each named where it cannot be opened, but for want of memory."""
    paths = [path for path in run.files if path != STANDARD_INPUT]
    ends = list(refuser.each(run, "open"))
    wanted = [file_fault(path) for path in paths for _ in range(2)]
    yield from (f"{name}: {ended}" for (name, ended), want in zip(ends, wanted) if ended != want)
    if len(ends) != len(wanted):
        yield f"{len(ends) // 2} files are opened, not {len(paths)}"
    yield from (f"{name}: {ended}" for name, ended in refuser.each(run, "full-open") if ended != MEMORY)


def faults_of_reads(refuser, run):
    """The files in their order, each named where it cannot be read to its end, or would have to be waited for."""
    wanted = without_repeats([file_fault(path) for path in run.files if run.has(path)])
    for kind in ("read", "block-read"):
        order = without_repeats([ended for _, ended in refuser.each(run, kind)])
        if order != wanted:
            yield f"{kind}: {order}"


def faults_of_writes(refuser, run):
    """A failed write of the answer is status 5, and nothing is said of it; one of a message changes no status. No write
    follows it."""
    status = 5 if run.is_answer else run.ended.status
    for name, place, ended, writes in refuser.each_with_calls(run, "write"):
        is_begun = run.ended.out.startswith(ended.out) and run.ended.err.startswith(ended.err)
        is_whole = (ended.out, ended.err) == (run.ended.out, run.ended.err)
        if ended.status != status or is_whole or not is_begun:
            yield f"{name}: {ended}"
        if writes != place:
            yield f"{name}: {writes} writes"


def faults_of_hindrances(refuser, run):
    """The answer is the same where calls are interrupted, and where they move one byte each."""
    for kind in ("interrupt-read", "interrupt-write"):
        calls = refuser.run(run, kind)[1]
        for place in range(1, calls + 1):
            ended, _ = refuser.run(run, kind, place, place)
            if ended != run.ended:
                yield f"{kind} {place}: {ended}"
    for kind in ("short-read", "short-write"):
        ended, _ = refuser.run(run, kind, 1)
        if ended != run.ended:
            yield f"{kind}: {ended}"


def faults_of_endless_reads(refuser, run):
    """A file whose reads never come to an end."""
    ended, reads = refuser.run(run, "interrupt-read", 1)
    if (ended, reads) != (file_fault(run.files[0]), MOST_READS):
        yield f"after {reads} reads: {ended}"


def faults_of_run(refuser, run):
    ended, _ = refuser.run(run, "nothing")
    if ended != run.ended:
        yield f"{ended}, wanted {run.ended}"


SWEEPS = {
    "memory": faults_of_memory,
    "files": faults_of_files,
    "reads": faults_of_reads,
    "writes": faults_of_writes,
    "hindered": faults_of_hindrances,
}


def tests(folder):
    """What is tried: a name, what finds the faults, and a run."""
    all_runs = list(runs(folder))
    yield "endless reads", faults_of_endless_reads, all_runs[0]
    for run in all_runs:
        yield run.name, faults_of_run, run
        for name, faults_of in SWEEPS.items():
            yield f"{run.name}: {name}", faults_of, run
    yield "long answer: writes", faults_of_writes, long_answer()
    for run in small_runs(folder):
        yield run.name, faults_of_run, run
        yield f"{run.name}: memory", faults_of_memory_behind_words, run


def main():
    refuser = Refuser(os.path.abspath(sys.argv[1]), os.path.abspath(sys.argv[2]))
    jobs = int(sys.argv[3]) if len(sys.argv) > 3 else os.cpu_count()
    failed = 0
    with tempfile.TemporaryDirectory() as folder, ThreadPoolExecutor(jobs) as pool:
        tried = list(tests(folder))
        for (name, _, _), faults in zip(tried, pool.map(lambda test: list(test[1](refuser, test[2])), tried)):
            failed += bool(faults)
            if faults:
                print(f"failed: {name}: {len(faults)} faults, the first: {faults[0][:MOST_SHOWN]}")
    print(f"{len(tried) - failed} passed, {failed} failed")
    sys.exit(failed > 0)


main()

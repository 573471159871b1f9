#!/usr/bin/env python3
"""Proves crates and all that they stand on side by side, and then proves and builds those that are programs.

usage: tools/prove.py [--jobs N | --as-ci] [CRATE..]        CRATE is restool if it is left out

With --jobs each proof has at most so many jobs: one job takes the least processor time. A crate is
proved once those below it are, first those with the most work behind them, each with the jobs that
processors and memory allow. A run of rt locks its crate and all crates below it, so each run here
works on a copy of what it reads, as that was when all began, and what it made is then moved to the
crate's out/, whole or not at all. Where a proof fails, what it proved is kept for the next one. Nobody
edits such a copy, so rt computes each stamp in it once (rt_once.py). What rt finds up to date is not
proved again.

With --as-ci each crate is proved as `rt ci` does it, to measure that (rt_once.py): only in a copy of
the repository that is made for it, since no other check can begin with what that leaves.

Beside a program, out/NAME, stands what proved it, in out/proved-with: the line of `rt version`, and
the sum of the sources that it was built from (source_sum.sh), if nobody changed them meanwhile.
"""
import fcntl
import glob
import os
import re
import shutil
import signal
import subprocess
import sys
import time
from concurrent.futures import FIRST_COMPLETED, ThreadPoolExecutor, wait
from typing import NamedTuple

ROOT = os.path.dirname(os.path.dirname(os.path.realpath(__file__)))
LIST = f"{ROOT}/crates.txt"
RT = ("rt",)
# rt, where nobody edits the sources.
RT_ONCE = (sys.executable, f"{ROOT}/tools/rt_once.py")
LOGS = f"{ROOT}/out/proofs"
# How the name of the folder begins, in out/ of the crate that is asked for, in which the copies lie.
ROOMS = "proofs-"
SOURCES = ("src", "specs", "proofs")
# The folder in the room of rooms for the sources as they were when the run began.
SOURCES_THEN = ".sources"
# What a proof leaves in out/: work that a later proof begins with, and the library.
WORK = "incremental"
MADE = (WORK, "rlib")
# The file in out/ of a program that says which toolchain proved it, and from which sources.
PROVED_WITH = "proved-with"
# The memory that a check takes: at least so much, so much for a line of the crate and for one below,
# and for each further job such a part of it again.
LEAST_BYTES = 1_500_000_000
BYTES_OF_A_LINE = 1_000_000
BYTES_OF_A_LINE_BELOW = 100_000
PART_OF_A_JOB = 0.6
# More jobs than this gain little.
MOST_JOBS = 4
# The option for proofs as `rt ci` makes them, also the word for rt_once.py.
AS_CI = "as-ci"
# How many last lines of a log are shown where a proof fails.
SHOWN = 12
# The limits of a control group on memory and what is held of it, in its two versions.
MEMORY_LIMITS = (
    ("/sys/fs/cgroup/memory.max", "/sys/fs/cgroup/memory.current"),
    ("/sys/fs/cgroup/memory/memory.limit_in_bytes", "/sys/fs/cgroup/memory/memory.usage_in_bytes"),
)
PROCESSOR_LIMIT = "/sys/fs/cgroup/cpu.max"


class NotProved(Exception):
    """What to say where a crate is not proved."""


def say(text):
    print(f"restool: {text}", file=sys.stderr, flush=True)


def number_in(file, pattern=r"(\d+)"):
    """The number that stands in a file of the system, or None."""
    try:
        with open(file, encoding="utf-8") as it:
            return int(re.search(pattern, it.read())[1])
    except (OSError, TypeError):
        return None


def processors():
    """How many processors there are to use."""
    found = len(os.sched_getaffinity(0))
    quota, period = number_in(PROCESSOR_LIMIT, r"^(\d+)"), number_in(PROCESSOR_LIMIT, r" (\d+)")
    return max(1, min(found, quota // period)) if quota and period else found


def free_memory():
    """How many bytes of memory are free."""
    found = [1024 * number_in("/proc/meminfo", r"MemAvailable:\s+(\d+)")]
    for limit, held in MEMORY_LIMITS:
        limit, held = number_in(limit), number_in(held)
        if limit and held:
            found.append(limit - held)
    return min(found)


def ended(ran):
    """Waits for a process: its status, and the processor seconds, of user and system, that it and its children took."""
    _, status, used = os.wait4(ran.pid, 0)
    ran.returncode = os.waitstatus_to_exitcode(status)
    return ran.returncode, used.ru_utime + used.ru_stime


class Crate:
    """A line of crates.txt, with the crates of this repository that it stands on, lowest first."""

    def __init__(self, line, known):
        self.line = line
        head, _, uses = line.partition(":")
        self.name = head.split()[0]
        self.folder = f"{ROOT}/crates/{self.name}"
        self.uses = [known[it] for it in uses.split() if it in known]
        self.below = []
        for use in self.uses:
            self.below += [it for it in [*use.below, use] if it not in self.below]
        files = [*self.sources()]
        self.newest = max(map(os.path.getmtime, [LIST, *files]))
        self.lines = sum(map(lines_in, (it for it in files if it.endswith(".rt"))))

    def is_program(self):
        return os.path.isfile(f"{self.folder}/src/main.rt")

    def words(self):
        """What the program is run with once it is built: the words that it is tested with, if there are some."""
        try:
            with open(f"{self.folder}/args", encoding="utf-8") as it:
                return it.read().splitlines()
        except OSError:
            return ["--version"]

    def sources(self):
        for part in SOURCES:
            for folder, _, names in os.walk(f"{self.folder}/{part}"):
                yield from (f"{folder}/{it}" for it in names)

    def memory(self, jobs):
        """How many bytes of memory a check with so many jobs takes, at most."""
        lines_below = sum(it.lines for it in self.below)
        of_one = LEAST_BYTES + BYTES_OF_A_LINE * self.lines + BYTES_OF_A_LINE_BELOW * lines_below
        return of_one * (1 + PART_OF_A_JOB * (jobs - 1))

    def jobs_within(self, memory):
        """How many jobs a check may have in so many bytes of memory; none, if one needs more."""
        return max((it for it in range(1, MOST_JOBS + 1) if self.memory(it) <= memory), default=0)

    def may_be_old(self):
        """Whether its library is missing, or a source is newer. Of such crates rt says which it proves again."""
        stamp = f"{self.folder}/out/rlib/stamp"
        if not os.path.isfile(stamp):
            return True
        made = os.path.getmtime(stamp)
        return any(it.newest > made for it in [*self.below, self])


def lines_in(file):
    with open(file, "rb") as it:
        return it.read().count(b"\n")


def read_crates():
    """The crates of the repository by name. crates.txt has each after those that it stands on."""
    known = {}
    with open(LIST, encoding="utf-8") as it:
        lines = [line.partition("#")[0].strip() for line in it]
    for line in filter(None, lines):
        crate = Crate(line, known)
        known[crate.name] = crate
    return known


def with_those_below(crates):
    """These crates and all that they stand on, lowest first."""
    found = []
    for crate in crates:
        found += [it for it in [*crate.below, crate] if it not in found]
    return found


def work_behind(crates):
    """For each crate the lines of the longest chain of crates, each standing on the one before, that begins with it."""
    found = {}
    for crate in reversed(crates):
        above = [found[it] for it in crates if crate in it.uses]
        found[crate] = crate.lines + max(above, default=0)
    return found


def source_sum(crate):
    """The line with the sum of all sources of a crate; nothing where it cannot be made."""
    command = ["sh", f"{ROOT}/tools/source_sum.sh", crate.name]
    return subprocess.run(command, stdout=subprocess.PIPE, stderr=subprocess.DEVNULL, text=True).stdout


def tell_sources(program, begun, sum_then):
    """Adds the sum of a program's sources to what proved it, if it is as when the proofs began."""
    out = f"{program.folder}/out"
    # older than what was edited meanwhile
    os.utime(f"{out}/{program.name}", (begun, begun))
    if source_sum(program) != sum_then:
        say(f"sources of {program.name} were changed meanwhile: it may be of either")
        return
    with open(f"{out}/{PROVED_WITH}", "a", encoding="utf-8") as file:
        file.write(sum_then)


def copy_tree(source, target, copy):
    """Copies a folder, if it is there, file by file."""
    if os.path.isdir(source):
        shutil.copytree(source, target, copy_function=copy)


def link_tree(source, target):
    """The same by hard links, where the system has them."""

    def link(file, to):
        try:
            os.link(file, to)
        except OSError:
            shutil.copy2(file, to)

    copy_tree(source, target, link)


class Room:
    """A copy of a crate and of the libraries below it, in which rt proves the crate."""

    def __init__(self, rooms, crate, begun):
        self.crate, self.top = crate, f"{rooms}/{crate.name}"
        self.folder = f"{self.top}/crates/{crate.name}"
        self.begun = begun
        for it in [*crate.below, crate]:
            link_tree(f"{rooms}/{SOURCES_THEN}/{it.name}", f"{self.top}/crates/{it.name}")
            link_tree(f"{it.folder}/out/rlib", f"{self.top}/crates/{it.name}/out/rlib")
        link_tree(f"{crate.folder}/out/{WORK}", f"{self.folder}/out/{WORK}")
        with open(f"{self.top}/crates.txt", "w", encoding="utf-8") as file:
            file.writelines(f"{it.line}\n" for it in [*crate.below, crate])
        shutil.copy2(f"{ROOT}/HANDLES", self.top)

    def give_back(self):
        """Moves what was made to the crate: the library last, and by a rename, so that no half of it is ever there."""
        # older than what was edited meanwhile
        os.utime(f"{self.folder}/out/rlib/stamp", (self.begun, self.begun))
        for part in MADE:
            self.move(part)
        shutil.rmtree(self.top)

    def keep_work(self):
        """Moves to the crate what was proved before a proof failed, so that the next one begins with it."""
        self.move(WORK)

    def move(self, part):
        made, to = f"{self.folder}/out/{part}", f"{self.crate.folder}/out/{part}"
        os.makedirs(f"{self.crate.folder}/out", exist_ok=True)
        if os.path.isdir(to):
            os.rename(to, f"{self.top}/{part}")
        if os.path.isdir(made):
            os.rename(made, to)


class Prover:
    """Proves crates and those below them, each with at most so many jobs, or as `rt ci` does."""

    def __init__(self, crates, most_jobs, as_ci):
        self.needed, self.most_jobs, self.as_ci = with_those_below(crates), min(most_jobs, processors()), as_ci
        self.room_of_rooms = f"{crates[-1].folder}/out"
        self.rooms = f"{self.room_of_rooms}/{ROOMS}{os.getpid()}"
        self.left, self.count, self.started = [], 0, 0
        self.runs, self.is_ending = {}, False
        self.begun = time.time()
        self.seconds = 0.0

    def prove(self):
        programs = [it for it in self.needed if it.is_program()]
        sums = {it: source_sum(it) for it in programs}
        libraries = [it for it in self.needed if it not in programs and it.may_be_old()]
        self.count = len(libraries) + len(programs)
        held = self.lock()
        for it in glob.glob(f"{self.room_of_rooms}/{ROOMS}*"):
            shutil.rmtree(it, ignore_errors=True)  # of a run that was killed
        try:
            self.keep_sources()
            self.prove_libraries(libraries)
        finally:
            shutil.rmtree(self.rooms, ignore_errors=True)
            for it in held:
                os.close(it)
        self.is_ending = False
        for it in programs:
            self.tell(it)
            self.prove_program(it)
            if not self.as_ci:
                tell_sources(it, self.begun, sums[it])

    def keep_sources(self):
        """Copies all sources, so that every crate is proved over the same."""
        for crate in self.needed:
            for part in SOURCES:
                # no links: some editors write into the file that is there
                copy_tree(f"{crate.folder}/{part}", f"{self.rooms}/{SOURCES_THEN}/{crate.name}/{part}", shutil.copy2)

    def lock(self):
        """Keeps runs of rt out of the crates, as rt itself does, until what this returns is closed."""
        held = []
        for crate in sorted(self.needed, key=lambda it: it.folder):
            held.append(os.open(crate.folder, os.O_RDONLY))
            try:
                fcntl.flock(held[-1], fcntl.LOCK_EX | fcntl.LOCK_NB)
            except BlockingIOError:
                say(f"waiting for another run of rt in {crate.folder}")
                fcntl.flock(held[-1], fcntl.LOCK_EX)
            except OSError:
                pass  # some file systems have no locks
        return held

    def prove_libraries(self, libraries):
        behind = work_behind(self.needed)
        self.left = sorted(libraries, key=behind.get, reverse=True)
        running = {}
        with ThreadPoolExecutor(processors()) as pool:
            try:
                while self.left or running:
                    self.start_runs(pool, running)
                    for it in wait(running, return_when=FIRST_COMPLETED).done:
                        running.pop(it)
                        it.result()
            finally:
                self.end()

    def start_runs(self, pool, running):
        """Starts to prove the crates that can be proved now, beside those that are running."""
        waited_for = {*self.left, *(crate for crate, _ in running.values())}
        ready = [it for it in self.left if not waited_for & {*it.below}]
        # what the runs hold by now is no longer free, and they may come to hold the other half
        memory = free_memory() - sum(crate.memory(jobs) for crate, jobs in running.values()) / 2
        # each further job reads all libraries once more, so crates side by side come before jobs
        share = processors() // max(1, len(ready) + len(running))
        for crate in ready:
            within = crate.jobs_within(memory)
            if len(running) < processors() and (within > 0 or not running):
                jobs = max(1, min(within, self.most_jobs, share))
                memory -= crate.memory(jobs)
                self.left.remove(crate)
                self.tell(crate)
                running[pool.submit(self.prove_library, crate, jobs)] = crate, jobs

    def tell(self, crate):
        self.started += 1
        say(f"proving {self.started} of {self.count}: {crate.name}")

    def prove_library(self, crate, jobs):
        if not self.is_ending:
            room = Room(self.rooms, crate, self.begun)
            words = [AS_CI] if self.as_ci else ["lib", "--jobs", str(jobs)]
            try:
                self.run(crate, room.folder, *RT_ONCE, *words)
            except NotProved:
                room.keep_work()
                raise
        if not self.is_ending:
            room.give_back()

    def prove_program(self, crate):
        """Proves and builds a program in its own folder, and writes beside it what proved it."""
        proved_with = f"{crate.folder}/out/{PROVED_WITH}"
        if os.path.exists(proved_with):
            os.remove(proved_with)
        if self.as_ci:
            self.run(crate, crate.folder, *RT_ONCE, AS_CI)
            return
        toolchain = subprocess.run([*RT, "version"], stdout=subprocess.PIPE, text=True, check=True).stdout
        jobs = max(1, min(crate.jobs_within(free_memory()), self.most_jobs))
        self.run(crate, crate.folder, *RT, "run", "--jobs", str(jobs), "--", *crate.words())
        with open(proved_with, "w", encoding="utf-8") as file:
            file.write(toolchain)

    def run(self, crate, folder, *words):
        """Runs a command in a folder. Its output goes to the crate's log."""
        log = f"{LOGS}/{crate.name}.log"
        with open(log, "w", encoding="utf-8") as out:
            how = {"cwd": folder, "stdin": subprocess.DEVNULL, "stdout": out, "stderr": subprocess.STDOUT}
            ran = self.runs[crate.name] = subprocess.Popen(words, **how)
            if self.is_ending:
                ran.terminate()
            status, seconds = ended(ran)
            out.write(f"{seconds:.1f} processor seconds\n")
            self.seconds += seconds
        if status and not self.is_ending:
            with open(log, encoding="utf-8", errors="replace") as it:
                last = "".join(it.readlines()[-SHOWN:])
            raise NotProved(f"{crate.name} was not proved; {log} has more\n{last.rstrip()}")

    def end(self):
        """Ends all runs. Their rooms are thrown away."""
        self.is_ending = True
        for ran in [*self.runs.values()]:
            ran.terminate()


class Asked(NamedTuple):
    """What the words ask for."""

    most_jobs: int
    as_ci: bool
    names: list


def asked(words):
    """What the words ask for; None for wrong words."""
    most_jobs, as_ci = MOST_JOBS, words[:1] == [f"--{AS_CI}"]
    if as_ci:
        most_jobs, words = 1, words[1:]
    elif words[:1] == ["--jobs"]:
        if len(words) == 1 or not re.fullmatch("[1-9][0-9]*", words[1]):
            return None
        most_jobs, words = min(MOST_JOBS, int(words[1])), words[2:]
    return None if any(it.startswith("-") for it in words) else Asked(most_jobs, as_ci, words or ["restool"])


def main(words):
    found = asked(words)
    if not found:
        print(__doc__, end="", file=sys.stderr)
        return 2
    crates = read_crates()
    for name in found.names:
        if name not in crates:
            say(f"crates.txt has no crate {name}")
            return 2
    if not shutil.which("rt"):
        say("rt is not on the path: it comes with the Rattle toolchain")
        return 1
    os.makedirs(LOGS, exist_ok=True)
    # so that what is begun is ended and thrown away
    for it in (signal.SIGTERM, signal.SIGHUP):
        signal.signal(it, lambda number, _: sys.exit(128 + number))
    start = time.monotonic()
    prover = Prover([crates[it] for it in found.names], found.most_jobs, found.as_ci)
    try:
        prover.prove()
    except NotProved as why:
        say(why)
        return 1
    except KeyboardInterrupt:
        say("interrupted; the crates that are proved stay proved")
        return 130
    took = round(time.monotonic() - start)
    say(f"proved in {took // 60} min {took % 60} s, {prover.seconds / 60:.1f} processor minutes")
    return 0


if __name__ == "__main__":
    sys.exit(main(sys.argv[1:]))

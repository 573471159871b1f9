#!/usr/bin/env python3
"""Prints the processor seconds that each edit of must-fail/ takes, as `rt must-fail` tries them: edit_seconds.py CRATE..

The edits of a crate are tried in turn, each over what those before it proved. So the first one has the whole crate proved too, and
each further one a new start of the prover, what it reads, and the functions that the edit changes. Last comes the crate itself, as
`sound`. The libraries below have to be there, as tools/prove.py leaves them."""
import os
import resource
import shutil
import sys
import tempfile
from pathlib import Path

ROOT = Path(__file__).resolve().parent.parent
sys.path.append(str(ROOT / "tools"))

from rt_once import load

ONE_JOB = ["--jobs", "1"]


def seconds():
    """What the processes took that have ended."""
    used = resource.getrusage(resource.RUSAGE_CHILDREN)
    return used.ru_utime + used.ru_stime


def tried(rt, crate):
    """Of each edit its name, its seconds, and whether it was refused; and of the crate whether it is proved."""
    edits, _ = rt.edits_of(crate)
    with tempfile.TemporaryDirectory(prefix="edits-") as kept:
        for edit in edits:
            texts, why = rt.read_edit(edit, crate.folder)
            if why:
                sys.exit(f"{edit}: {why}")
            before = seconds()
            ran = rt.checked(crate, texts, ONE_JOB, kept)
            yield Path(edit).stem, seconds() - before, ran.returncode == 1
        before = seconds()
        ran = rt.checked(crate, {}, ONE_JOB, kept)
        yield "sound", seconds() - before, ran.returncode == 0


def main(*names):
    rt = load(os.path.realpath(shutil.which("rt")))
    rt.rtlib.guarded()
    rt.rtlib.Crate = rt.Crate
    os.chdir(ROOT)
    crates = {it.name: it for it in rt.rtlib.crates_below(str(ROOT))}
    for name in names:
        for what, took, is_well in tried(rt, crates[name]):
            print(f"{name} {what}: {took:.0f}{'' if is_well else ', which is not as it must be'}", flush=True)


if __name__ == "__main__":
    main(*sys.argv[1:])

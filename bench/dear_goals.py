#!/usr/bin/env python3
"""Names the goals for which the prover took most steps, and what each crate takes: dear_goals.py [LIMIT [CRATE..]]

Read is what tools/prove.py left: what each proof noted in out/incremental of its crate, and in out/proofs how many modules it read.
Steps are the same however much ran beside the proof, and with however many jobs, so what changed is seen at once. A goal is named
as MODULE NAME; one of a module `.Proof` has no answer, and was looked for. LIMIT is the least that is named, in millions of steps;
2 if it is left out. All crates are read if none is named.

Behind them stands a line for each crate: its steps, the size of its compiled code (as dear_functions.py has it) and the modules
that it read. Its processor seconds go by the three, as README.md says. A crate that was proved twice in one place may have notes
of goals that are gone; those of modules that are gone are left out."""
import json
import re
import sys
from pathlib import Path
from typing import NamedTuple

ROOT = Path(__file__).resolve().parent.parent
MILLION = 1_000_000
NOTE = re.compile(rb'\[\{"aux":.*?"toil":\[\d+,\d+\]\}\]', re.S)
"""What a proof noted of a declaration."""


class Goal(NamedTuple):
    steps: int
    crate: str
    module: str
    name: str


def modules(crate):
    """The modules of the last proof of a crate, with the folder in which they lie."""
    for module in (ROOT / "crates" / crate / "out" / "incremental").glob("*/*.oantt"):
        yield module.parent, module.name.removesuffix(".oantt")


def goals(crate):
    for folder, module in modules(crate):
        noted = folder / "records" / f"{module}.decls.oantt"
        for note in NOTE.findall(noted.read_bytes()) if noted.exists() else ():
            try:
                of = json.loads(note)[0]
            except ValueError:
                continue
            yield Goal(sum(of["steps"][:2]), crate, module.removeprefix(f"Rattle-{crate}-proofs."), of["name"])


def code_size(crate):
    return sum((folder / f"{module}.oantt").stat().st_size for folder, module in modules(crate) if module.endswith(".Lts"))


def modules_read(crate):
    log = ROOT / "out" / "proofs" / f"{crate}.log"
    return sum(map(int, re.findall(r"modules loaded=(\d+)", log.read_text()))) if log.exists() else 0


def main(limit="2", *crates):
    names = crates or sorted(it.name for it in (ROOT / "crates").iterdir())
    found = {crate: list(goals(crate)) for crate in names}
    for goal in sorted((it for of in found.values() for it in of), reverse=True):
        if goal.steps >= float(limit) * MILLION:
            print(f"{goal.steps / MILLION:.1f} {goal.crate}: {goal.module} {goal.name}")
    for crate in names:
        steps = sum(it.steps for it in found[crate]) / MILLION
        print(f"{crate}: {steps:.1f} million steps, {code_size(crate) / MILLION:.1f} MB of code, {modules_read(crate)} modules read")


main(*sys.argv[1:])

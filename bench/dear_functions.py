#!/usr/bin/env python3
"""Names the functions whose proofs are large, and with that dear: dear_functions.py [LIMIT [CRATE..]]

Read is what a check left in out/incremental of each crate, of all crates if none is named. The compiled code of a function has a
module of its own, and its size goes with the time: some two to four seconds for a million bytes, with what else the function's proof
takes. So it counts how large it is, however much ran beside the check. LIMIT is the least that is named, in millions of bytes; 3 if
it is left out. The last line says how much all functions have, and how much of it those that are named."""
import sys
from pathlib import Path

CRATES = Path(__file__).resolve().parent.parent / "crates"
MILLION = 1_000_000


def functions(crate):
    """The functions of a crate, each with the size of its compiled code as a proof has it."""
    before, behind = f"Rattle-{crate}-proofs.", ".Lts"
    for module in (CRATES / crate / "out" / "incremental").rglob(f"{before}*{behind}.oantt"):
        yield module.stem.removeprefix(before).removesuffix(behind), module.stat().st_size


def main(limit="3", *crates):
    names = crates or sorted(it.name for it in CRATES.iterdir())
    found = sorted(((size, crate, function) for crate in names for function, size in functions(crate)), reverse=True)
    named = [it for it in found if it[0] >= float(limit) * MILLION]
    for size, crate, function in named:
        print(f"{size / MILLION:.1f} {crate}: {function}")
    whole, part = (sum(size for size, _, _ in them) / MILLION for them in (found, named))
    print(f"{len(found)} functions: {whole:.0f}; these {len(named)}: {part:.0f}")


main(*sys.argv[1:])

#!/usr/bin/env python3
"""Runs rt over sources that nobody edits meanwhile: rt_once.py [WORD..], the words that rt takes.

A crate's stamp is a sum of its sources and of the stamps of the crates that it lists. rt asks for it several times in
a run, and reads the sources below a crate once for each path through crates.txt. Here each stamp is computed once.
Where the toolchain is not as this script expects it, rt runs as it is.

The word `as-ci` alone is not rt's: it proves the crate in whose folder it is called as `rt ci` does, with one job. So it
begins with nothing, reads of the crates below what they state and not their proofs, looks for contracts that no call
can meet, keeps nothing for a later check, and builds a program by both compilers. What stands below was proved so too.
"""
import importlib.machinery
import importlib.util
import os
import shutil
import sys

AS_CI = "as-ci"


def load(file):
    """The Python program in a file, as a module: it does not begin to run."""
    loader = importlib.machinery.SourceFileLoader("rt", file)
    module = importlib.util.module_from_spec(importlib.util.spec_from_loader("rt", loader))
    loader.exec_module(module)
    return module


def computed_once(stamp):
    def kept(crate):
        if "stamp_of_this_run" not in vars(crate):
            crate.stamp_of_this_run = stamp(crate)
        return crate.stamp_of_this_run

    return kept


def main_of_rt(file):
    """rt's main function, once stamps are kept; None where rt is not as expected."""
    try:
        rt = load(file)
        rt.rtlib.Crate.stamp = computed_once(vars(rt.rtlib.Crate)["stamp"])
        return rt.main
    except (Exception, SystemExit):
        return None


def prove_as_ci(rt):
    """Proves the crate in this folder, in a copy of the repository that holds it and the libraries below it."""
    # (its first call sets a signal's handler, which only the main thread may)
    rt.rtlib.guarded()
    folder = os.getcwd()
    rt.rtlib.Crate = rt.Crate
    rt.Crate.cuts_libraries = True
    crate = next(it for it in rt.rtlib.crates_below(folder) if it.folder == folder)
    os.makedirs("out", exist_ok=True)
    status = crate.ci(["--jobs", "1"], False)
    if not status and not crate.is_program:
        # so that the crates above find it up to date
        with open("out/rlib/stamp", "w", encoding="utf-8") as file:
            file.write(crate.stamp())
    return status


def run(words):
    sys.dont_write_bytecode = True
    if words == [AS_CI]:
        return prove_as_ci(load(os.path.realpath(shutil.which("rt"))))
    main = main_of_rt(os.path.realpath(shutil.which("rt") or ""))
    if not callable(main):
        os.execvp("rt", ["rt", *words])
    return main(words)


if __name__ == "__main__":
    sys.exit(run(sys.argv[1:]))

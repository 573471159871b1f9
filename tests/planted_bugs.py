#!/usr/bin/env python3
"""Plants the bugs crates/NAME/seen-by-tests/*.edit, which the prover may let through, and runs the test that sees each.

    planted_bugs.py [CRATE | CRATE/BUG ..]
    planted_bugs.py --control [CRATE | CRATE/BUG ..]
    planted_bugs.py --apply [CRATE | CRATE/BUG ..]

Without a name it takes all. An edit has a line 'seen by: TESTS: NAME'. TESTS is tests/stops or one of WORKED, for which the
program is proved and built with the bug; or tests/stops/calls.py, whose program is built with it and not proved, and runs the
rows of that NAME. NAME is the test that has to fail there. The last line is 'N seen or refused, M let through'; refused is
a bug that the prover does not let through.

With --control it takes the edits of must-fail/ and wrong-bodies/ that name a control, and plants that in place of the
bug: the right body in the same form. The prover has to let it through, or the edit is refused for its form and shows
nothing. The last line is 'N let through, M refused'.

With --apply it proves nothing: it checks that each edit of all three folders still applies, that no two edits of a
crate have one name, and that the first two folders have no more than MOST, of all crates together. The last line is
'N apply, M do not'.

It works on a copy. What rt says is not read, where its status and what it has built tell as much. The environment may give RT, the command that proves in place of rt, and JOBS, how many edits are
tried side by side."""
import os
import re
import shutil
import subprocess
import sys
import tempfile
from concurrent.futures import ThreadPoolExecutor
from pathlib import Path

sys.path.append(str(Path(__file__).resolve().parent / "stops"))
from worked_calls import all_rows

HERE = Path(__file__).resolve().parent.parent
RT = os.environ.get("RT", "rt").split()
PROGRAM = "restool"
WORKED = [f"tests/worked_{name}.py" for name in ("rows", "certificates", "made", "reports", "styles", "configurations", "boxes")]
"""Files of worked cases."""
PROGRAM_TESTS = {"tests/stops": ["sh", "tests/stops/stops.sh"], **{file: ["python3", file] for file in WORKED}}
"""The tests of the built program, which print a line `failed: NAME ..`, and how they are run."""
CALLS = "tests/stops/calls.py"
CALLS_PROGRAM = "test_calls"
RAN = "run=ended status=0"
"""What rt says of a program that has run without a proof."""
FOR_THE_PROVER = ("must-fail", "wrong-bodies")
FOR_TESTS = ("seen-by-tests",)
MOST = {"must-fail": 30, "wrong-bodies": 500}
"""How many edits there may be, of all crates together: the gate pays for the first, whoever renames something for all."""


class Edit:
    """A bug, or its control: what is replaced in which file, and the test that sees the bug."""

    def __init__(self, path, is_control=False):
        self.crate, self.name = path.parent.parent.name, path.stem
        self.pairs, self.tests, self.test = [], "", ""
        self.file, self.old = "", ""
        for line in path.read_text().splitlines():
            key, _, text = line.partition(":")
            self.read(key, text[1:], is_control)

    def read(self, key, text, is_control):
        if key == "seen by":
            self.tests, _, self.test = text.partition(": ")
        elif key == "file":
            self.file = text.strip()
        elif key == "old":
            self.old = text
        elif key == "new":
            self.pairs.append((self.file, self.old, text))
        elif key == "control" and is_control:
            self.pairs[-1] = (*self.pairs[-1][:2], text)

    def changed(self, crate):
        """The files of a crate that it changes, with their new texts. Each old text has to stand there once."""
        texts = {}
        for file, old, new in self.pairs:
            if not file.startswith(("src/", "specs/", "proofs/")) or not (crate / file).is_file():
                raise ValueError(f"there is no file {file}")
            text = texts.get(file) or (crate / file).read_text()
            if not old or text.count(old) != 1:
                raise ValueError(f"an old text is in {file} {text.count(old)} times, and not once")
            texts[file] = text.replace(old, new)
        if not texts:
            raise ValueError("it has no old and new text")
        return texts

    def plant(self, crate):
        for file, text in self.changed(crate).items():
            (crate / file).unlink()
            (crate / file).write_text(text)


class Run:
    """A command that has run: whether its status is 0, and what it wrote, line by line."""

    def __init__(self, words, folder):
        how = {"stdin": subprocess.DEVNULL, "capture_output": True, "text": True, "errors": "replace"}
        done = subprocess.run(words, cwd=folder, **how)
        self.is_well = done.returncode == 0
        self.lines = (done.stdout + done.stderr).splitlines()


def copy_into(folder, name, links):
    """Copies a file or a folder into another folder. With links the files are shared."""
    folder.mkdir(exist_ok=True)
    subprocess.run(["cp", "-al" if links else "-a", name, folder], check=True)


def tried_on_program(edit, copy):
    crate = copy / "crates" / PROGRAM
    program = crate / "out" / PROGRAM
    program.unlink(missing_ok=True)
    built = Run([*RT, "run"], crate)
    if not program.exists():
        return "refused" if any("not-proved" in line for line in built.lines) else f"NOT BUILT: {built.lines[-1:]}"
    ran = Run([*PROGRAM_TESTS[edit.tests], str(program)], copy)
    return seen(edit, [line for line in ran.lines if line.startswith("failed: ")], f"failed: {edit.test}")


def tried_on_calls(edit, copy):
    """Runs the rows of a name, to which no memory is refused."""
    asked = [row for row in all_rows() if row.name == edit.test]
    for row in asked:
        ran = Run([*RT, "try", "--", *row.words], copy / "crates" / CALLS_PROGRAM)
        if not any(line.startswith("run=ended") for line in ran.lines):
            return f"NOT BUILT: {ran.lines[-1:]}"
        if ran.lines[: len(row.answer)] != row.answer or not any(line.startswith(RAN) for line in ran.lines):
            return f"seen by {edit.test}"
    return f"NOT SEEN by the {len(asked)} rows of {edit.test}"


def seen(edit, failed, wanted):
    if any(line.startswith(wanted) for line in failed):
        return f"seen by {edit.test}"
    return f"NOT SEEN by {edit.test}; {len(failed)} others: {failed[:3]}"


def tried_by_prover(control, copy):
    ran = Run([*RT, "check"], copy / "crates" / control.crate)
    if ran.is_well:
        return "let through"
    wrong = [line for line in ran.lines if ": error" in line] or ran.lines
    return f"REFUSED: {wrong[:1]}"


def tried(edit, base, work):
    """Whether an edit gives what is wanted of it, and what is said of it."""
    room = work / f"{edit.crate}.{edit.name}"
    copy_into(room, base, links=True)
    copy = room / base.name
    try:
        edit.plant(copy / "crates" / edit.crate)
        said = edit_tried(edit, copy)
    except ValueError as error:
        said = f"NOT PLANTED: {error}"
    shutil.rmtree(room)
    print(f"{edit.crate}/{edit.name}.edit: {said}", flush=True)
    return said.startswith(("seen", "refused", "let through"))


def edit_tried(edit, copy):
    if not edit.tests:
        return tried_by_prover(edit, copy)
    return tried_on_calls(edit, copy) if edit.tests == CALLS else tried_on_program(edit, copy)


def paths_of(word, folders):
    """The edits that a word names, `*` those of all crates."""
    crate, _, edit = word.partition("/")
    if crate != "*" and not (HERE / "crates" / crate).is_dir():
        sys.exit(f"no crate {crate}")
    found = (HERE / "crates").glob
    return [path for folder in folders for path in sorted(found(f"{crate}/{folder}/{edit or '*'}.edit"))]


def bugs_of(word):
    return [Edit(path) for path in paths_of(word, FOR_TESTS)]


def controls_of(word):
    paths = paths_of(word, FOR_THE_PROVER)
    return [Edit(path, is_control=True) for path in paths if "\ncontrol:" in path.read_text()]


def all_of(word):
    return [Edit(path) for path in paths_of(word, [*FOR_THE_PROVER, *FOR_TESTS])]


def prove_below(edits, base):
    """Proves the crates of controls, which are then tried over that work."""
    for crate in sorted({edit.crate for edit in edits}):
        ran = Run([*RT, "check" if crate == PROGRAM else "lib"], base / "crates" / crate)
        if not ran.is_well:
            print(f"{crate} is not proved without a control: {ran.lines[-1:]}", flush=True)


def tried_on_copy(edits, is_control):
    with tempfile.TemporaryDirectory() as work, ThreadPoolExecutor(int(os.environ.get("JOBS", "1"))) as pool:
        base = Path(work) / "base"
        for name in ("crates", "crates.txt", "HANDLES", "bench", "examples", "tests"):
            copy_into(base, HERE / name, links=False)
        if is_control:
            prove_below(edits, base)
        return list(pool.map(lambda edit: tried(edit, base, Path(work)), edits))


def applies(edits):
    """Of each edit whether it applies, and is the first of its name in its crate."""
    names = set()
    for edit in edits:
        name = f"{edit.crate}/{edit.name}.edit"
        why = ""
        try:
            edit.changed(HERE / "crates" / edit.crate)
        except ValueError as error:
            why = f"{name} does not apply: {error}"
        if name in names:
            why = f"{edit.crate} has two edits {edit.name}.edit"
        names.add(name)
        if why:
            print(why)
        yield not why


def are_few():
    """Whether no folder has more edits than it may have."""
    counts = {folder: len(paths_of("*", [folder])) for folder in MOST}
    crowded = [folder for folder, count in counts.items() if count > MOST[folder]]
    for folder in crowded:
        print(f"{counts[folder]} edits in {folder}/, at most {MOST[folder]}")
    return not crowded


def main():
    words = sys.argv[1:]
    option = words.pop(0) if words[:1] in (["--control"], ["--apply"]) else ""
    edits_of = {"--control": controls_of, "--apply": all_of, "": bugs_of}[option]
    edits = [edit for name in words or ["*"] for edit in edits_of(name)]
    found = [*applies(edits)] if option == "--apply" else tried_on_copy(edits, option == "--control")
    good, bad = {
        "--control": ("let through", "refused"),
        "--apply": ("apply", "do not"),
        "": ("seen or refused", "let through"),
    }[option]
    print(f"{sum(found)} {good}, {len(found) - sum(found)} {bad}")
    sys.exit(not (all(found) and (option != "--apply" or are_few())))


if __name__ == "__main__":
    main()

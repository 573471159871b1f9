#!/usr/bin/env python3
"""Runs a program with standard error on a terminal, and prints what stands there at last, line by line as it was
rewritten: on_terminal.py [--output] PROGRAM WORD..

A line of the work that comes sooner than it may is named on standard error. What the program writes to standard output is
dropped. With --output that goes to the terminal, and standard error stays as it is. The status is the program's."""
import os
import pty
import subprocess
import sys
import time

LINE_OF_THE_WORK = b" goals done"
BEFORE_THE_FIRST, BETWEEN_TWO = 1.0, 0.25
"""Seconds of work without a line, and between two lines at least."""


def written_to(terminal, started):
    """What is written until no program has the terminal's other end any more. A terminal ends a line by two bytes."""
    parts, lines = [], 0
    while True:
        try:
            parts.append(os.read(terminal, 65536))
        except OSError:
            return b"".join(parts).decode().replace("\r\n", "\n")
        passed, shown = time.monotonic() - started, parts[-1].count(LINE_OF_THE_WORK)
        lines += shown
        if shown and passed < BEFORE_THE_FIRST + (lines - 1) * BETWEEN_TWO:
            print(f"line {lines} of the work after {passed:.2f} s", file=sys.stderr)


def run(words, to_output=False, **streams):
    """What stands on the terminal, and the status."""
    terminal, other_end = pty.openpty()
    started = time.monotonic()
    streams["stdout" if to_output else "stderr"] = other_end
    program = subprocess.Popen(words, stdin=subprocess.DEVNULL, **streams)
    os.close(other_end)
    told = written_to(terminal, started)
    os.close(terminal)
    return told, program.wait()


def main():
    words = sys.argv[1:]
    to_output = words[0] == "--output"
    told, status = run(words[1:], True) if to_output else run(words, stdout=subprocess.DEVNULL)
    print(told.replace("\r", "\n").strip("\n"))
    sys.exit(status)


if __name__ == "__main__":
    main()

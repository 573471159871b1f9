#!/usr/bin/env python3
"""Times commands side by side: least.py RUNS COMMAND.., each command one argument of words.

Each turn runs every command once. Prints for each the least wall time of its runs in milliseconds, the greatest peak of
memory in bytes, and the least processor time in milliseconds. A command that finds something absent ends with status 1."""
import os
import shlex
import subprocess
import sys
import time


def run(words):
    start = time.perf_counter()
    child = subprocess.Popen(words, stdout=subprocess.DEVNULL)
    _, status, used = os.wait4(child.pid, 0)
    took = time.perf_counter() - start
    if os.waitstatus_to_exitcode(status) not in (0, 1):
        sys.exit(f"least.py: failed: {shlex.join(words[:3])}")
    return took * 1e3, used.ru_maxrss * 1024, (used.ru_utime + used.ru_stime) * 1e3


def main():
    runs, commands = int(sys.argv[1]), [shlex.split(command) for command in sys.argv[2:]]
    seen = [[run(command) for command in commands] for _ in range(runs)]
    for results in zip(*seen):
        took, peaks, worked = zip(*results)
        print(f"{min(took):.2f} {max(peaks)} {min(worked):.2f}")


main()

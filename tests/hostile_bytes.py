#!/usr/bin/env python3
"""Runs restool on small tables whose bytes were changed:

    hostile_bytes.py PROGRAM [JOBS]

Tables of one entry, without names and with them, dense and sparse, are cut at every length, and each of their bytes is made 00,
7f and ff in turn. `rows` and `dump` have to print such a table or refuse it: status 0 with nothing on standard error, or status 3
with one line there and nothing printed. One that is cut has a fault that is known. The last line counts both."""
import subprocess
import sys
from concurrent.futures import ThreadPoolExecutor

from small_tables import TABLE_A, TABLE_B, changed

BYTES = (0x00, 0x7F, 0xFF)
COMMANDS = ("rows", "dump")
TABLES = TABLE_A, TABLE_B, changed(TABLE_A, (357, "01")), changed(TABLE_B, (429, "01"))


def fault_of_cut(length):
    """What is said of a table of which so many bytes are left."""
    return f"refused: table: Chunk {'Truncated' if length < 8 else 'Oversize'} 0\n".encode()


def asked(whole):
    """What was changed, the bytes then, and what is to be said of them, None where that is open."""
    yield "unchanged", whole, b""
    for length in range(len(whole)):
        yield f"cut to {length}", whole[:length], fault_of_cut(length)
    for place in range(len(whole)):
        for byte in BYTES:
            yield f"byte {place} made {byte:02x}", whole[:place] + bytes([byte]) + whole[place + 1 :], None


def answer(program, command, some, due):
    """0 where it is printed, 3 where it is refused, else what happened."""
    done = subprocess.run([program, command, "-"], input=some, capture_output=True)
    printed, told = done.stdout, done.stderr
    is_refused = done.returncode == 3 and not printed and told.startswith(b"refused: table: ") and told.count(b"\n") == 1
    is_printed = done.returncode == 0 and not told
    is_due = due is None or told == due
    return done.returncode if is_due and (is_refused or is_printed) else f"status {done.returncode}, {told}"


def main():
    program, jobs = sys.argv[1], int(sys.argv[2]) if len(sys.argv) > 2 else 1
    all_asked = [(command, place, *each) for command in COMMANDS for place, table in enumerate(TABLES) for each in asked(table)]
    with ThreadPoolExecutor(jobs) as pool:
        answers = list(pool.map(lambda each: answer(program, each[0], *each[3:]), all_asked))
    wrong = [(each[:3], said) for each, said in zip(all_asked, answers) if said not in (0, 3)]
    for fault in wrong:
        print(*fault)
    print(f"{answers.count(0)} printed, {answers.count(3)} refused")
    sys.exit(bool(wrong))


main()

"""The words of a script that checks numbered cases. For the scripts beside it."""
import os
import sys

from random_locales import LocaleFocus


def read_words():
    """What `[--locales android] PROGRAM CASES [JOBS [FIRST]]` asks for: whether locales are compared as a phone does, the program,
    the numbers of the cases, and how many jobs check them at once."""
    words = sys.argv[1:]
    as_phone = tuple(words[: len(LocaleFocus.options)]) == LocaleFocus.options
    if as_phone:
        del words[: len(LocaleFocus.options)]
    program, *numbers = words
    cases, jobs, first = (int(number) for number in numbers + ["1", "0"][len(numbers) - 1 :])
    return as_phone, os.path.abspath(program), range(first, first + cases), jobs

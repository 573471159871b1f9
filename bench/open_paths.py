#!/usr/bin/env python3
"""Counts how many paths are open at once, at most, in each tree of certificates.

    open_paths.py CERTIFICATE..

A line for each number: how many trees have so many, and how many have no more than that."""
import json
import sys
from collections import Counter


def most_open(nodes):
    """A test opens a path beside its own, and a leaf ends its own."""
    now = most = 1
    for node in nodes:
        now += 1 if "coord" in node else -1
        most = max(most, now)
    return most


def main(paths):
    counted = Counter()
    for path in paths:
        with open(path, encoding="utf-8") as text:
            counted.update(most_open(goal["nodes"]) for goal in json.load(text)["goals"])
    trees = sum(counted.values())
    for most in sorted(counted):
        fewer = sum(count for other, count in counted.items() if other <= most)
        print(f"{most} open: {counted[most]} trees, at most {most}: {fewer} of {trees}")


if __name__ == "__main__":
    main(sys.argv[1:])

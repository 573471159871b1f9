#!/usr/bin/env python3
"""Writes a box and a certificate of one goal, 0x7f010000, whose tree is a chain:

    make_chain.py SIDE OTHERS NODES BOX CERT

Each test parts one number from all others of its coordinate. Where SIDE is `right`, the number's leaf comes first and
the chain goes on in the no half; where it is `left` it goes on in the yes half, so that all leaves come after all
tests. All leaves are the decimal value 0 of layer 0. The coordinates of the tests are ranges in the box. The others
are 0, and the density 160, where OTHERS is `none`. Where it is `choices`, they are choices, of 512 values where there
are so many. NODES, less one where it is even, is how many there are."""
import json
import sys

LAST = 65535
RANGES = ("mcc", "mnc", "smallestWidthDp", "widthDp", "heightDp", "width", "height", "sdk")
CHOICES = {
    "layoutDirection": 3,
    "screenSize": 15,
    "long": 3,
    "round": 3,
    "wideColor": 3,
    "hdr": 3,
    "orientation": 255,
    "uiType": 15,
    "night": 3,
    "density": 512,
    "touchscreen": 255,
    "keysHidden": 3,
    "navHidden": 3,
    "keyboard": 255,
    "navigation": 255,
    "minor": 511,
}
LETTERS = "abcdefghijklmnopqrstuvwxyz"
LEAF = '{"layer":0,"kind":16,"word":0}'


def box(others):
    sets = {name: {"from": 0, "to": LAST} for name in RANGES}
    if others == "none":
        return {**sets, "density": [160]}
    sets.update({name: list(range(name == "density", greatest + 1)) for name, greatest in CHOICES.items()})
    sets["locale"] = [a + b for a in LETTERS for b in LETTERS][:512]
    return sets


def tests(side, count):
    for place in range(count):
        name, number = RANGES[place // LAST], place % LAST
        yield f'{{"coord":"{name}","atMost":{number if side == "right" else LAST - 1 - number}}}'


def main():
    side, others, nodes, box_path, path = sys.argv[1:6]
    count = (int(nodes) - 1) // 2
    with open(box_path, "w") as out:
        json.dump(box(others), out)
    if side == "right":
        nodes = [node for test in tests(side, count) for node in (test, LEAF)] + [LEAF]
    else:
        nodes = list(tests(side, count)) + [LEAF] * (count + 1)
    with open(path, "w") as out:
        out.write('{"version":1,"goals":[{"id":"0x7f010000","nodes":[' + ",".join(nodes) + "]}]}")


main()

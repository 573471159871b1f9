#!/usr/bin/env python3
"""A plain reading of the devices of a part of a box, and of tests, in Android's words: how they are written, and read again. By itself

    plain_devices.py [CASES [FIRST]]

tries known texts, and then so many made boxes, 10,000 if it is not said, numbered from FIRST on, which is 0 if it is not given: what
is written of a part is read as that part. Its last line is `N passed, M failed`.

A set is a pair of numbers, the ends of a range, or a list of numbers or of the texts of locales. A box, or a part, is a dictionary of
sets by the names of coordinates."""
import random
import re
import sys

from plain_config import AROUND, NAMES, ORDER, WORDS
from plain_notation import number_word

SECOND = {"width": "height", "sdk": "minor"}
DEVICE_ORDER = [each for name in ORDER for each in (name, SECOND.get(name)) if each]
CASES = 10000


# ---- written


def letters_at(name):
    """What stands before and behind a number, and the sign before it, which is left out where another one stands there."""
    front, end = ("v", "") if name == "sdk" else AROUND.get(name, (name, ""))
    return front, "" if name == "sdk" or name in AROUND else "=", end


def locale_word(text):
    language, *others = text.split("-")
    has_script = any(len(other) == 4 for other in others)
    if not text:
        return "no-locale"
    if has_script or any(language in words for words in WORDS.values()):
        return "b+" + text.replace("-", "+")
    return "-r".join([language, *others])


def word_of(name, value):
    return locale_word(value) if name == "locale" else number_word(name, value)


def list_text(name, values):
    return ",".join(word_of(name, value) for value in values)


def range_text(name, low, high, whole):
    front, sign, end = letters_at(name)
    if low == high:
        return number_word(name, low)
    if low == whole[0]:
        return f"{front}<{high + 1}{end}"
    return f"{front}>={low}{end}" if high == whole[1] else f"{front}{sign}{low}..{high}{end}"


def set_text(name, whole, part):
    if isinstance(part, tuple):
        return range_text(name, *part, whole)
    if len(whole) >= 5 and 2 * len(part) > len(whole):
        return "all but " + list_text(name, [value for value in whole if value not in part])
    return list_text(name, part)


def devices_text(whole, part):
    """The coordinates at which a part is another one than the whole, and what it has there."""
    said = [" " + set_text(name, whole[name], part[name]) for name in DEVICE_ORDER if part.get(name, whole.get(name)) != whole.get(name)]
    return " on" + "".join(said) if said else ""


def test_text(test):
    """A test as a certificate has it."""
    name = test["coord"]
    if "atMost" in test:
        front, _, end = letters_at(name)
        return f"{front}<{test['atMost'] + 1}{end}"
    return list_text(name, test["in"]) or "nothing"


# ---- read


def range_of(name, whole, text):
    """The range of a text, None where it is none of this coordinate."""
    front, sign, end = map(re.escape, letters_at(name))
    for value in (*whole, *map(int, re.findall("[0-9]+", text)), *WORDS.get(name, {}).values()):
        if number_word(name, value) == text:
            return value, value
    for pattern, ends in (
        (f"{front}<([0-9]+){end}", lambda high: (whole[0], high - 1)),
        (f"{front}>=([0-9]+){end}", lambda low: (low, whole[1])),
        (f"{front}{sign}([0-9]+)\\.\\.([0-9]+){end}", lambda *both: both),
    ):
        found = re.fullmatch(pattern, text)
        if found:
            return ends(*map(int, found.groups()))
    return None


def list_of(name, whole, text):
    values = {word_of(name, value): value for value in whole}
    return [values.get(word) for word in text.split(",")]


def set_of(whole, is_but, text):
    """The coordinate of a text, and the set that it says there."""
    for name, values in whole.items():
        if isinstance(values, tuple):
            said = None if is_but else range_of(name, values, text)
            if said:
                return name, said
        elif None not in list_of(name, values, text):
            said = list_of(name, values, text)
            return name, [value for value in values if value not in said] if is_but else said
    raise ValueError(text)


def part_of(whole, text):
    """The part of which this is written behind ` on`."""
    words = text.removeprefix(" on ").split(" ") if text else []
    part = dict(whole)
    while words:
        is_but = words[:2] == ["all", "but"]
        name, said = set_of(whole, is_but, words[2 if is_but else 0])
        part[name], words = said, words[3 if is_but else 1 :]
    return part


# ---- what is tried

LOCALES = ["", "de", "en", "en-US", "es-MX", "es-US", "fil-PH", "es-419", "car", "car-BR", "sr-Latn", "sr-Latn-RS", "all", "but"]
PHONES = {"smallestWidthDp": (320, 900), "density": (120, 640), "sdk": (21, 28), "locale": ["", "de", "en-US", "es-MX", "es-US"]}
PHONES |= {"orientation": [1, 2], "width": (0, 900), "minor": [0, 1], "mnc": [0, 4, 65535], "keyboard": [1, 3], "mcc": [310, 334]}
PARTS = [
    ({}, ""),
    ({"smallestWidthDp": (320, 599)}, " on sw<600dp"),
    ({"smallestWidthDp": (600, 900), "orientation": [2]}, " on sw>=600dp land"),
    ({"smallestWidthDp": (400, 599)}, " on sw400..599dp"),
    ({"smallestWidthDp": (600, 600)}, " on sw600dp"),
    ({"density": (120, 197)}, " on <198dpi"),
    ({"density": (198, 640)}, " on >=198dpi"),
    ({"density": (121, 197)}, " on 121..197dpi"),
    ({"density": (160, 160)}, " on mdpi"),
    ({"density": (161, 161)}, " on 161dpi"),
    ({"sdk": (21, 25)}, " on v<26"),
    ({"sdk": (26, 27)}, " on v26..27"),
    ({"sdk": (27, 27), "minor": [0]}, " on v27 minor=0"),
    ({"width": (0, 599)}, " on width<600"),
    ({"width": (600, 900)}, " on width>=600"),
    ({"width": (320, 599)}, " on width=320..599"),
    ({"width": (600, 600)}, " on width=600"),
    ({"locale": ["es-MX", "es-US"]}, " on es-rMX,es-rUS"),
    ({"locale": ["", "de", "en-US"]}, " on all but es-rMX,es-rUS"),
    ({"locale": ["", "es-MX"], "mnc": [0, 65535]}, " on mnc0,mnc00 no-locale,es-rMX"),
    ({"keyboard": [3], "mcc": [310]}, " on mcc310 12key"),
]
"""Parts of PHONES, by what they have where they are narrower, and what is written of them."""
TESTS = [
    ({"coord": "smallestWidthDp", "atMost": 599}, "sw<600dp"),
    ({"coord": "density", "atMost": 197}, "<198dpi"),
    ({"coord": "sdk", "atMost": 25}, "v<26"),
    ({"coord": "night", "atMost": 1}, "night<2"),
    ({"coord": "locale", "in": ["de-AT", "de-CH"]}, "de-rAT,de-rCH"),
    ({"coord": "orientation", "in": [2, 0]}, "land,orientation=0"),
    ({"coord": "locale", "in": [""]}, "no-locale"),
    ({"coord": "locale", "in": []}, "nothing"),
]


def made_set(chance, name):
    if name == "locale":
        return sorted(chance.sample(LOCALES, chance.randint(1, 8)))
    numbers = sorted({*WORDS.get(name, {}).values(), 0, 1, 2, 3, 4, 320, 600, 65535, chance.randrange(1 << 16)})
    if chance.random() < 0.5:
        return sorted(chance.sample(numbers, chance.randint(1, 8)))
    return tuple(sorted(chance.sample(range(0, 1000), 2)))


def made_part(chance, values):
    if chance.random() < 0.5:
        return values
    if isinstance(values, tuple):
        return tuple(sorted((chance.choice([values[0], chance.randint(*values)]), chance.choice([values[1], chance.randint(*values)]))))
    return sorted(chance.sample(values, chance.randint(1, len(values))))


def faults_of_case(case):
    chance = random.Random(case)
    whole = {name: made_set(chance, name) for name in chance.sample(NAMES, chance.randint(1, 8))}
    part = {name: made_part(chance, values) for name, values in whole.items()}
    text = devices_text(whole, part)
    read = part_of(whole, text)
    if read != part:
        yield f"{whole}:{text} is read as {read}, not {part}"


def faults():
    for said, text in PARTS:
        if devices_text(PHONES, PHONES | said) != text:
            yield f"{devices_text(PHONES, PHONES | said)}, not {text}"
        if part_of(PHONES, text) != PHONES | said:
            yield f"{text} is read as {part_of(PHONES, text)}"
    for test, text in TESTS:
        if test_text(test) != text:
            yield f"{test_text(test)}, not {text}"


def main(words):
    cases, first = (list(map(int, words)) + [CASES, 0][len(words) :])[:2]
    found = [*faults(), *(fault for case in range(first, first + cases) for fault in faults_of_case(case))]
    for fault in found[:20]:
        print("failed:", fault)
    print(f"{2 * len(PARTS) + len(TESTS) + cases - len(found)} passed, {len(found)} failed")
    sys.exit(len(found) > 0)


if __name__ == "__main__":
    main(sys.argv[1:])

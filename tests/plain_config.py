#!/usr/bin/env python3
"""A plain reading of a device as Android writes it: the first line of `adb shell am get-config`, with its `config:` and
without it; and how a device is written so. By itself

    plain_config.py [CASES [FIRST]]

tries known lines, and then so many made ones, 5,000 if it is not said, numbered from FIRST on, which is 0 if it is not given:
where a device can be written, its line reads as that device. Its last line is `N passed, M failed`. `--lines` before the
numbers prints the made lines instead, and `--told` what each line of standard input says; with `--android` locales are read as
by a phone, which knows their scripts."""
import random
import re
import sys

from plain_locales import joined, likely

NAMES = """mcc mnc locale layoutDirection smallestWidthDp widthDp heightDp screenSize long round wideColor hdr orientation uiType
night density touchscreen keysHidden navHidden keyboard navigation width height sdk minor""".split()
"""The coordinates, in the order of a device's checks and of its text."""
GREATEST = dict.fromkeys("layoutDirection long round wideColor hdr night keysHidden navHidden".split(), 3)
GREATEST |= dict.fromkeys(("screenSize", "uiType"), 15)
GREATEST |= dict.fromkeys("orientation touchscreen keyboard navigation".split(), 255)
WORDS = {
    "layoutDirection": {"ldltr": 1, "ldrtl": 2},
    "screenSize": {"small": 1, "normal": 2, "large": 3, "xlarge": 4},
    "long": {"notlong": 1, "long": 2},
    "round": {"notround": 1, "round": 2},
    "wideColor": {"nowidecg": 1, "widecg": 2},
    "hdr": {"lowdr": 1, "highdr": 2},
    "orientation": {"port": 1, "land": 2, "square": 3},
    "uiType": {"desk": 2, "car": 3, "television": 4, "appliance": 5, "watch": 6, "vrheadset": 7},
    "night": {"notnight": 1, "night": 2},
    "density": {
        **{"ldpi": 120, "mdpi": 160, "tvdpi": 213, "hdpi": 240, "xhdpi": 320, "xxhdpi": 480, "xxxhdpi": 640},
        **{"anydpi": 65534, "nodpi": 65535},
    },
    "touchscreen": {"notouch": 1, "stylus": 2, "finger": 3},
    "keysHidden": {"keysexposed": 1, "keyshidden": 2, "keyssoft": 3},
    "keyboard": {"nokeys": 1, "qwerty": 2, "12key": 3},
    "navHidden": {"navexposed": 1, "navhidden": 2},
    "navigation": {"nonav": 1, "dpad": 2, "trackball": 3, "wheel": 4},
}
AROUND = {
    "mcc": ("mcc", ""),
    "mnc": ("mnc", ""),
    "smallestWidthDp": ("sw", "dp"),
    "widthDp": ("w", "dp"),
    "heightDp": ("h", "dp"),
    "density": ("", "dpi"),
}
"""What stands before and behind a number."""
ORDER = """mcc mnc locale layoutDirection smallestWidthDp widthDp heightDp screenSize long round wideColor hdr orientation uiType
night density touchscreen keysHidden keyboard navHidden navigation width sdk""".split()
"""The order in which Android writes the parts. With the width stands the height, with sdk the minor version."""
MNC_ZERO = 65535
NUMBER = "([0-9]+)"
CASES = 5000


class Refused(Exception):
    """Why a line is no device: `Qualifier` and a part, or the fault of a device."""


# ---- read


def number(digits):
    """None where it has more than 64 bits."""
    value = int(digits)
    return value if value < 1 << 64 else None


def locale_in(part, android):
    """The first locale of a part. A phone knows its script, which its text has where it is not the likely one."""
    first = part.split(",")[0]
    language, region = "([a-z]{2,3})", "([A-Z]{2}|[0-9]{3})"
    script = r"(?:\+([A-Z][a-z]{3}))?" if android else "()"
    found = re.fullmatch(rf"{language}()(?:-r{region})?", first) or re.fullmatch(rf"b\+{language}{script}(?:\+{region})?", first)
    if not found:
        return None
    language, script, region = (group or "" for group in found.groups())
    return joined(language, "" if script == likely(language, region) else script, region)


def qualifier_in(part, android):
    """The kind of a part, and what it says of which coordinates; None where it is no qualifier."""
    for name, words in WORDS.items():
        if part in words:
            return name, {name: words[part]}
    for name, (front, end) in AROUND.items():
        found = re.fullmatch(re.escape(front) + NUMBER + re.escape(end), part)
        if found:
            value = number(found[1])
            return value is not None and (name, {name: MNC_ZERO if name == "mnc" and value == 0 else value})
    for names, between, front, is_whole in ((("width", "height"), "x", "", False), (("sdk", "minor"), r"\.", "v", True)):
        found = re.fullmatch(front + NUMBER + between + NUMBER, part) or is_whole and re.fullmatch(front + NUMBER, part)
        if found:
            values = [number(group) for group in (*found.groups(), "0")[:2]]
            return None not in values and (names[0], dict(zip(names, values)))
    locale = locale_in(part, android)
    return locale and ("locale", {"locale": locale})


def parts_of(line):
    """Parts stand between dashes, but for a dash before `r` and a capital letter or a digit."""
    return re.split("-(?!r[A-Z0-9])", line)


def device_of(line, android=False):
    """What the parts say, with their numbers in range."""
    said, kinds = {"uiType": 1}, set()
    for part in parts_of(line):
        kind, says = qualifier_in(part, android) or (None, None)
        if kind is None or kind in kinds:
            raise Refused("Qualifier " + part)
        kinds.add(kind)
        said |= says
    for name in NAMES:
        if name == "density" and not 1 <= said.get(name, 0) <= 32767:
            raise Refused("Density")
        if name != "locale" and said.get(name, 0) > GREATEST.get(name, 65535):
            raise Refused("FieldRange " + name)
    return {name: said[name] for name in NAMES if said.get(name, 0) != 0}


def line_in(text):
    """The line of the text that `am get-config` prints."""
    return re.split("[\r\n]", text.removeprefix("config:").lstrip(" \t"))[0]


# ---- write


def part_at(device, name):
    """The part of a coordinate; empty where there is none."""
    value = device.get(name, 0)
    if name == "locale":
        language, *others = (value or "").split("-")
        if len(language) == 2 and [len(other) for other in others] in ([], [2]):
            return "-r".join([language, *others])
        return language and "b+" + "+".join([language, *others])
    if name == "width":
        size = value, device.get("height", 0)
        return "{}x{}".format(*size) if any(size) else ""
    if name == "sdk":
        minor = device.get("minor", 0)
        return f"v{value}" + (f".{minor}" if minor else "") if value or minor else ""
    if name == "mnc" and value == MNC_ZERO:
        return "mnc00"
    words = [word for word, number in WORDS.get(name, {}).items() if number == value]
    if value == 0 or words:
        return words[0] if words else ""
    return str(value).join(AROUND[name]) if name in AROUND else ""


def written(device):
    return "-".join(filter(None, (part_at(device, name) for name in ORDER)))


def unsaid(device, android=False):
    """The first coordinate of which a device has what no part says, or None. A part that is refused is a locale's."""
    try:
        read = device_of(written(device), android)
    except Refused:
        return "locale"
    return next((name for name in NAMES if read.get(name) != device.get(name)), None)


def line_of(device, android=False):
    """The line of a device, or None where it has something that no part says."""
    return None if unsaid(device, android) else written(device)


def printed_of(device, android=False):
    """The text that `am get-config` begins with, or None where there is no line."""
    line = line_of(device, android)
    return line and "config: " + line


# ---- made lines


def some_number(chance):
    return chance.choice((0, 1, 4, 27, 310, 411, 999, 32767, 32768, 65535, 65536, 1 << 32, (1 << 64) - 1, 1 << 64, 10**21))


def some_locale(chance):
    language = chance.choice("en es fil car b e xx2 EN de".split())
    region = chance.choice(["", "US", "419", "MX", "u", "12", "1234", "USA"])
    return chance.choice(
        [language, f"{language}-r{region}", f"b+{language}", f"b+{language}+{region}", f"b+{language}+Latn", "b+sr+Latn+RS", f"b+{language}+Hans+{region}", f"{language}-rHans", f"{language}-{region}"]
    )


def some_part(chance):
    kind = chance.randrange(8)
    if kind < 3:
        return chance.choice(list(chance.choice(list(WORDS.values()))))
    if kind == 3:
        return str(some_number(chance)).join(AROUND[chance.choice(list(AROUND))])
    if kind == 4:
        return chance.choice(["{}x{}", "v{}", "v{}.{}", "{}.{}", "v{}."]).format(some_number(chance), some_number(chance))
    if kind == 5:
        return ",".join(some_locale(chance) for _ in range(chance.choice((1, 1, 2, 3))))
    if kind == 6:
        return chance.choice(["mnc0", "mnc00", "mnc000", "mcc", "mcc001", "w+5dp", "w 5dp", "dpi", "", "x", "v", "sw-5dp", "1440x", "x5", "rUS", "r4"])
    return chance.choice(list(AROUND)) + "dp"


SCRIPTED = "zh-Hant zh-HK zh-Hans-HK sr sr-Latn sr-Latn-RS en-Dsrt-US fil-Tglg-419 az-Arab xx-Latn".split()
"""Texts of locales that a phone knows, without the script where it is the likely one."""


def some_device(chance, android=False):
    """Numbers that words can say, mostly, at some of the coordinates."""
    device = {"density": chance.choice((120, 160, 213, 320, 420, 560, 640, 1, 32767)), "uiType": 1}
    for name in chance.sample(NAMES, chance.randrange(len(NAMES) + 1)):
        if name == "locale":
            texts = ["en", "en-US", "es-419", "fil", "fil-PH", "car", "car-BR", "eng-001"]
            device[name] = chance.choice(texts + (SCRIPTED if android else []))
        elif name != "density":
            limit = GREATEST.get(name, 65535)
            device[name] = min(limit, chance.choice((*WORDS.get(name, {}).values(), 1, 2, 3, limit if chance.random() < 0.1 else 2)))
    return device


def changed(line, chance):
    """The line with a byte taken, doubled or another, or two parts exchanged."""
    place = chance.randrange(len(line) + 1)
    kind = chance.randrange(4)
    if kind == 0:
        return line[:place] + line[place + 1 :]
    if kind == 1:
        return line[:place] + chance.choice("-r,+xvAZ09az.é ") + line[place + kind % 2 * chance.randrange(2) :]
    parts = line.split("-")
    chance.shuffle(parts)
    return "-".join(parts + parts[:1] if kind == 2 else parts)


def made_line(case):
    chance = random.Random(case)
    kind = case % 3
    if kind == 0:
        return "-".join(some_part(chance) for _ in range(chance.randrange(1, 6))) + chance.choice(("", "-xhdpi"))
    line = "-".join(filter(None, (part_at(some_device(chance), name) for name in ORDER)))
    return changed(line, chance) if kind == 1 else line


# ---- what a line says


def text_of(device):
    """As a device is printed in messages."""
    return " ".join(f"{name}={value}" for name, value in device.items())


def told(line, android=False):
    """Its device, and the line that Android writes of that; or its fault."""
    try:
        device = device_of(line, android)
    except Refused as refused:
        return str(refused)
    return f"{text_of(device)} | {line_of(device, android) or 'NoWord ' + unsaid(device, android)}"


FULL = "-".join(
    "mcc310 mnc260 en rUS ldltr sw411dp w411dp h683dp normal notlong notround nowidecg lowdr port notnight 560dpi finger keysexposed nokeys"
    " navhidden nonav 1440x2704 v27".split()
)
KNOWN = {
    FULL: "mcc=310 mnc=260 locale=en-US layoutDirection=1 smallestWidthDp=411 widthDp=411 heightDp=683 screenSize=2 long=1 round=1 wideColor=1"
    " hdr=1 orientation=1 uiType=1 night=1 density=560 touchscreen=3 keysHidden=1 navHidden=2 keyboard=1 navigation=1 width=1440 height=2704 sdk=27",
    "xhdpi": "uiType=1 density=320",
    "car-xhdpi": "uiType=3 density=320",
    "car-rBR-xhdpi": "locale=car-BR uiType=1 density=320",
    "b+car-xhdpi": "locale=car uiType=1 density=320",
    "en-rUS,b+sr+Latn+RS,fil-xhdpi": "locale=en-US uiType=1 density=320",
    "b+es+419-160dpi": "locale=es-419 uiType=1 density=160",
    "es-r419-160dpi": "locale=es-419 uiType=1 density=160",
    "v27.1-mnc00-1dpi": "mnc=65535 uiType=1 density=1 sdk=27 minor=1",
    "xhdpi-en-US": "Qualifier US",
    "b+sr+Latn-xhdpi": "Qualifier b+sr+Latn",
    "en-fr-xhdpi": "Qualifier fr",
    "xhdpi-port-land-foo": "Qualifier land",
    "xhdpi-round-rUS": "Qualifier round-rUS",
    "": "Qualifier ",
    "xhdpi--port": "Qualifier ",
    "port": "Density",
    "anydpi": "Density",
    "xhdpi-mcc65536": "FieldRange mcc",
    "xhdpi-w18446744073709551616dp": "Qualifier w18446744073709551616dp",
}
BY_ANDROID = {
    "b+zh+Hans+CN-xhdpi": "locale=zh-CN uiType=1 density=320 | zh-rCN-xhdpi",
    "b+zh+Hant+CN-xhdpi": "locale=zh-Hant-CN uiType=1 density=320 | b+zh+Hant+CN-xhdpi",
    "b+sr+Latn-xhdpi": "locale=sr-Latn uiType=1 density=320 | b+sr+Latn-xhdpi",
    "b+sr+Latn+RS,en-xhdpi": "locale=sr-Latn-RS uiType=1 density=320 | b+sr+Latn+RS-xhdpi",
    "sr-rRS-xhdpi": "locale=sr-RS uiType=1 density=320 | sr-rRS-xhdpi",
    "b+fil+419-xhdpi": "locale=fil-419 uiType=1 density=320 | b+fil+419-xhdpi",
    "xhdpi": "uiType=1 density=320 | xhdpi",
    "b+zh+CN+Hans-xhdpi": "Qualifier b+zh+CN+Hans",
    "b+zh+Hans+CN+x-xhdpi": "Qualifier b+zh+Hans+CN+x",
    "b+zh+hans-xhdpi": "Qualifier b+zh+hans",
    "zh-rHans-xhdpi": "Qualifier zh-rHans",
    "b++Hans-xhdpi": "Qualifier b++Hans",
    "b+-xhdpi": "Qualifier b+",
}
PRINTED = {
    f"config: {FULL}\nabi: arm64-v8a,armeabi-v7a\n": FULL,
    f"config:\t  {FULL}\r\nconfig: port": FULL,
    f"config:{FULL}": FULL,
    f"{FULL}\n": FULL,
    "config:\nxhdpi": "",
    "config: xhdpi \n": "xhdpi ",
    "config:config:xhdpi": "config:xhdpi",
    " config: xhdpi": "config: xhdpi",
    "": "",
}
"""The line of a text."""
WRITTEN = {
    "mcc": 310,
    "mnc": MNC_ZERO,
    "locale": "fil-PH",
    "density": 160,
    "uiType": 7,
    "height": 5,
    "minor": 1,
    "keyboard": 2,
    "navHidden": 1,
}

UNSAID = {
    None: {"density": 160, "uiType": 1},
    "uiType": {"density": 160, "keyboard": 9},
    "screenSize": {"density": 160, "uiType": 1, "screenSize": 5, "long": 3},
    "locale": {"locale": "sr-Latn-RS", "layoutDirection": 3, "density": 160, "uiType": 1},
    "navigation": {"density": 160, "uiType": 1, "navigation": 5, "width": 5},
}
"""Devices, and the first coordinate of which no part says what they have."""


def main(words):
    lines, android = "--lines" in words, "--android" in words
    numbers = [int(word) for word in words if word.isdigit()]
    cases, first = (numbers + [CASES, 0][len(numbers) :])[:2]
    if "--told" in words:
        for line in sys.stdin:
            print(told(line.rstrip("\n"), android))
        return 0
    if lines:
        print(*(made_line(case) for case in range(first, first + cases)), sep="\n")
        return 0
    results = [told(line).split(" | ")[0] == meant for line, meant in KNOWN.items()]
    results.extend(told(line, True) == meant for line, meant in BY_ANDROID.items())
    results.append(line_of(WRITTEN) == "mcc310-mnc00-b+fil+PH-vrheadset-mdpi-qwerty-navexposed-0x5-v0.1")
    results.extend(unsaid(device) == name for name, device in UNSAID.items())
    results.append(line_of(device_of(FULL)) == FULL)
    results.extend(line_in(text) == line for text, line in PRINTED.items())
    for case in range(first, first + cases):
        device = some_device(random.Random(case), case % 2)
        line = line_of(device, case % 2)
        results.append(line is None or device_of("-".join(reversed(parts_of(line))), case % 2) == device)
        results.append(line is None or line_in(printed_of(device, case % 2) + "\nabi: x86") == line)
    print(f"{sum(results)} passed, {len(results) - sum(results)} failed")
    return 0 if all(results) else 1


if __name__ == "__main__":
    sys.exit(main(sys.argv[1:]))

#!/usr/bin/env python3
"""Asks the program about devices and configurations of rows, where the answers were worked out by hand: which texts are devices,
how devices and configurations are printed, which match, which of two is better, by which rule, and which are equal:

    worked_configurations.py PROGRAM [JOBS]

The cases are those of worked_rows.py, in groups of their own. The last line is the number of cases."""
from made_layers import chunk, table_of, type_spec
from plain_rules import COORDS
from small_tables import changed, table_of_lines
from worked_rows import ID, MEDIUM, SAME, Case, check_groups, lines, of_table, over

QUERY, EXPLAIN = f"query layers device {ID}", f"explain layers device {ID}"


def qualified(text):
    """The qualifiers of a text, `locale=fr,sdk=26` or, as devices are printed, with blanks in place of commas."""
    words = [word.split("=") for word in text.replace(" ", ",").split(",") if word]
    return {name: value if name == "locale" else int(value) for name, value in words}


def device_of(text):
    """The device of these qualifiers; its density is 160 where none is named."""
    return MEDIUM | qualified(text)


# ---- texts of devices

EVERY = {
    "mcc": 310, "mnc": 260, "locale": "es-419", "layoutDirection": 1, "smallestWidthDp": 320, "widthDp": 360, "heightDp": 640,
    "screenSize": 2, "long": 2, "round": 1, "wideColor": 1, "hdr": 2, "orientation": 1, "uiType": 3, "night": 1, "density": 480,
    "touchscreen": 3, "keysHidden": 1, "navHidden": 2, "keyboard": 2, "navigation": 1, "width": 480, "height": 800, "sdk": 26,
    "minor": 1,
}
"""A number at each coordinate, and a locale."""
EVERY_TEXT = (
    "mcc=310 mnc=260 locale=es-419 layoutDirection=1 smallestWidthDp=320 widthDp=360 heightDp=640 screenSize=2 long=2 round=1 "
    "wideColor=1 hdr=2 orientation=1 uiType=3 night=1 density=480 touchscreen=3 keysHidden=1 navHidden=2 keyboard=2 navigation=1 "
    "width=480 height=800 sdk=26 minor=1"
)

DEVICES = [
    # A text, and how the device is printed.
    ('{"density":480,"locale":"es-419"}', "locale=es-419 density=480"),
    ('{"density":160}\n', "density=160"),
    (
        '{"density":480,"locale":"fr-CA","sdk":27,"orientation":2,"smallestWidthDp":360,"widthDp":640,"heightDp":360,"screenSize":2,'
        '"night":1}',
        "locale=fr-CA smallestWidthDp=360 widthDp=640 heightDp=360 screenSize=2 orientation=2 night=1 density=480 sdk=27",
    ),
    (
        '{"density":320,"locale":"de-DE","sdk":26,"orientation":1,"smallestWidthDp":600,"widthDp":600,"heightDp":960,"screenSize":3,'
        '"night":2,"layoutDirection":1}',
        "locale=de-DE layoutDirection=1 smallestWidthDp=600 widthDp=600 heightDp=960 screenSize=3 orientation=1 night=2 density=320 "
        "sdk=26",
    ),
    ('{"density":1,"locale":"fil"}', "locale=fil density=1"),
    ('{"density":32767,"locale":""}', "density=32767"),
    (EVERY, EVERY_TEXT),
    (' {"density" : 160 , "night" : 1} \n', "night=1 density=160"),
    # Of a name that stands twice the last counts, also where the first is of no shape; escapes are read first.
    ('{"density":160,"night":1,"night":2}', "night=2 density=160"),
    ('{"density":"x","density":160}', "density=160"),
    ('{"\\u0064ensity":160}', "density=160"),
    ('{"density":160,"night":1,"\\u006eight":2}', "night=2 density=160"),
]


def other_than(given, name):
    """A number or a locale that a device with these qualifiers does not have, and that no smaller one has."""
    if name == "locale":
        return f"{given[name].partition('-')[0]}-ZZ" if name in given else "de"
    return given.get(name, 0) + 1


def read_as(text, given):
    """A device that is read of a text. Of each coordinate a row matches that asks for what it has, and none that asks for another
    number; and of two densities next to each other its own is better."""
    density = given["density"]
    asked = [([f"density={density}", f"density={density + 1}"], 1), ([f"density={density - 1}", f"density={density}"], 2)]
    for name in COORDS:
        if name in given:
            asked.append(([f"{name}={given[name]}"], 1))
        if name != "density":
            asked.append(([f"{name}={other_than(given, name)}"], None))
    rows, told = [], []
    for entry, (records, number) in enumerate(asked):
        name = f"0x{0x7F010000 + entry:08x}"
        rows += [f"{entry} [{record}] {place}" for place, record in enumerate(records, 1)]
        told.append(f"{name} value layer 0 decimal {number}" if number else f"{name} absent {name}")
    ids = [line.split(" ")[0] for line in told]
    return over(["\n".join(rows)], ["query", "layers", "device", *ids], lines([*told, "set-aside 0"]), status=1, device=text)


def printed(given, text):
    """A device, the only one of a box, on which nothing has a value."""
    box, out = {name: [value] for name, value in given.items()}, lines(["counter goal 0", f"device {text}", f"end absent {ID}"])
    return Case(f"make layers box {ID}", out, "", 1, layers=[], box=box)


NO_TEXTS = [
    # What is no JSON, and what is of another shape than a device.
    ("", "Syntax"), ("{", "Syntax"), ('{"density":160', "Syntax"), ('{"density":1e309}', "Syntax"), ('{"density":0160}', "Syntax"),
    ('{"density":160} x', "Syntax"), ('\ufeff{"density":160}', "Syntax"), ('{"\\ud800":160}', "Syntax"),
    (b'{"\xff":160}', "Syntax"),
    # Lists within one another.
    ("[" * 128 + "]" * 128, "Syntax"), ("[" * 127 + "]" * 127, "Shape"),
    # No object, no coordinate, no number of 64 bits without a sign, no text.
    ("[]", "Shape"), ('{"densty":160}', "Shape"), ('{"density":160,"density ":160}', "Shape"), ('{"density":[160]}', "Shape"),
    ('{"night":[4]}', "Shape"), ('{"density":160.0}', "Shape"), ('{"density":1e2}', "Shape"), ('{"density":160,"mcc":-0}', "Shape"),
    ('{"density":160,"night":-1}', "Shape"), ('{"density":"160"}', "Shape"),
    ('{"density":160,"mcc":18446744073709551616}', "Shape"),
    ('{"density":160,"locale":0}', "Shape"), ('{"density":160,"locale":null}', "Shape"),
    ('{"density":160,"density":"x"}', "Shape"),
    # The shape of the last member comes before the first coordinate.
    ('{"mcc":65536,"minor":"x"}', "Shape"),
]

NO_DEVICES = [
    # Coordinate by coordinate.
    ("{}", "Density"), ('{"density":0}', "Density"), ('{"density":32768}', "Density"), ('{"density":65534}', "Density"),
    ('{"touchscreen":256}', "Density"), ('{"density":160,"touchscreen":256}', "FieldRange touchscreen"),
    ('{"night":4}', "FieldRange night"), ('{"density":160,"night":4}', "FieldRange night"),
    ('{"density":160,"mcc":65536}', "FieldRange mcc"), ('{"density":160,"mcc":18446744073709551615}', "FieldRange mcc"),
    ('{"locale":"-FR","mcc":65536}', "FieldRange mcc"), ('{"locale":"-FR","layoutDirection":4}', "RegionAlone"),
]

NO_LOCALES = [
    ("-FR", "RegionAlone"), ("-419", "RegionAlone"), ("fr-Fr", "FieldRange locale"), ("-Fr", "FieldRange locale"),
    ("fr-", "FieldRange locale"), ("f", "FieldRange locale"), ("FR", "FieldRange locale"), ("fr-CA-x", "FieldRange locale"),
]

GREATEST = {
    "mcc": 65535, "mnc": 65535, "layoutDirection": 3, "smallestWidthDp": 65535, "widthDp": 65535, "heightDp": 65535,
    "screenSize": 15, "long": 3, "round": 3, "wideColor": 3, "hdr": 3, "orientation": 255, "uiType": 15, "night": 3,
    "density": 32767, "touchscreen": 255, "keysHidden": 3, "navHidden": 3, "keyboard": 255, "navigation": 255, "width": 65535,
    "height": 65535, "sdk": 65535, "minor": 65535,
}
"""The greatest number of each coordinate of a device."""
GREATEST_TEXT = (
    "mcc=65535 mnc=65535 layoutDirection=3 smallestWidthDp=65535 widthDp=65535 heightDp=65535 screenSize=15 long=3 round=3 "
    "wideColor=3 hdr=3 orientation=255 uiType=15 night=3 density=32767 touchscreen=255 keysHidden=3 navHidden=3 keyboard=255 "
    "navigation=255 width=65535 height=65535 sdk=65535 minor=65535"
)


def refused(text, fault):
    return over([], QUERY, "", f"refused: device: {fault}\n", 3, device=text)


def of_devices():
    for text, qualifiers in DEVICES:
        yield read_as(text, qualified(qualifiers))
        yield printed(qualified(qualifiers), qualifiers)
    for text, fault in [*NO_TEXTS, *NO_DEVICES]:
        yield refused(text, fault)
    for locale, fault in NO_LOCALES:
        yield refused({"density": 160, "locale": locale}, fault)
    yield over([], QUERY, f"{ID} absent {ID}\nset-aside 0\n", status=1, device=GREATEST)
    yield printed(GREATEST, GREATEST_TEXT)
    for name, most in GREATEST.items():
        fault = "Density" if name == "density" else f"FieldRange {name}"
        yield refused({**GREATEST, name: most + 1}, fault)
        box = {other: [number + (other == name)] for other, number in GREATEST.items()}
        yield Case(f"make layers box {ID}", "", f"refused: box: {fault}\n", 3, layers=[], box=box)


# ---- configurations of rows

CONFIGURATION = 368
"""Where the 52 bytes of the configuration begin in a table of one row."""


def with_bytes(place, digits):
    """A table of one row, with other bytes from a place in its configuration on."""
    return changed(table_of_lines("0 [] 1"), (CONFIGURATION + place, digits))


FULL = (
    "34000000 36010401"  # size; mcc, mnc
    "66724341 0103a000"  # language, country; orientation, touchscreen, density
    "020109ff e0012003"  # keyboard, navigation, inputFlags, inputPad0; screenWidth, screenHeight
    "1a000100 62134001"  # sdkVersion, minorVersion; screenLayout, uiMode, smallestScreenWidthDp
    "68018002"  # screenWidthDp, screenHeightDp
    "00000000 00000000 00000000"  # localeScript; localeVariant
    "0209ffff"  # screenLayout2, colorMode, screenConfigPad2
)
"""A number at each coordinate, and a locale."""
FULL_TEXT = (
    "mcc=310,mnc=260,locale=fr-CA,layoutDirection=1,smallestWidthDp=320,widthDp=360,heightDp=640,screenSize=2,long=2,round=2,"
    "wideColor=1,hdr=2,orientation=1,uiType=3,night=1,density=160,touchscreen=3,keysHidden=1,navHidden=2,keyboard=2,navigation=1,"
    "width=480,height=800,sdk=26,minor=1"
)
SHORT = "1c000000 00000000 00000000 0000feff 00000000 00000000 08000000 62234001"
"""Of the size 28: the bytes after it are no part of it."""

LOCALES = [
    # The bytes of a language and a region, and how they are printed.
    ("66720000", "fr"), ("66724341", "fr-CA"), ("7a7a0000", "zz"), ("ad050000", "fil"), ("ad05a424", "fil-419"),
    ("6573a424", "es-419"), ("00004652", "-FR"), ("0000a424", "-419"), ("66000000", "x66000000"), ("66720001", "x66720001"),
    ("66726361", "x66726361"), ("ffff0000", "xffff0000"),
]

SET_ASIDE = [
    # Qualifiers, and whether a row that has them is set aside.
    ("", 0), ("locale=sr", 0), ("locale=sr,script=4c61746e", 1), ("variant=706f736978000000", 1),
]


def shown(table, record, aside=0):
    return of_table(table, "rows", f"row {ID} [{record}] decimal 1\nrows 1 set-aside {aside}\n")


def only_a_size():
    """A type whose header ends behind the size of its configuration, of 52 bytes."""
    header = bytes.fromhex("01000000 00000000 18000000 34000000")
    return table_of(type_spec(1, 1) + chunk(0x0201, header, b""))


def of_configurations():
    yield shown(with_bytes(0, FULL), FULL_TEXT)
    yield shown(with_bytes(0, SHORT), "density=65534,sdk=8")
    for digits, locale in LOCALES:
        yield shown(with_bytes(8, digits), f"locale={locale}")
        # It is that of a device, where a text gives a device this one. A region alone matches none.
        given = "" if locale.startswith(("-", "x")) else locale
        end = "value layer 0 decimal 1" if given else f"absent {ID}"
        out = f"{ID} {end}\nset-aside 0\n"
        yield over([with_bytes(8, digits)], QUERY, out, status=not given, device={"density": 160, "locale": given})
    for record, aside in SET_ASIDE:
        yield shown(f"0 [{record}] 1", record, aside)
    for table in (with_bytes(0, "35"), only_a_size()):
        yield of_table(table, "rows", "", "refused: table: Config 348\n", 3)


# ---- which match

MATCHES = [
    # The configuration of a row, a device, and what becomes of the row.
    ("", "", "first"),
    ("keysHidden=1", "keysHidden=3", "first"),
    ("sdk=25", "sdk=25", "first"),
    ("locale=fr", "locale=fr-CA", "first"),
    ("locale=fr-CA", "locale=fr-CA", "first"),
    ("density=65535", "", "first"),
    ("locale=sr,script=4c61746e", "locale=sr", "set aside"),
    ("locale=sr,variant=0000000000000001", "locale=sr", "set aside"),
    ("keysHidden=2", "keysHidden=3", "no match keysHidden"),
    ("keysHidden=3", "keysHidden=1", "no match keysHidden"),
    ("sdk=26", "sdk=25", "no match sdk"),
    ("minor=1", "minor=2", "no match minor"),
    ("locale=fr-CA", "locale=fr", "no match locale"),
    ("locale=fr", "locale=de", "no match locale"),
    ("locale=-CA", "locale=fr-CA", "no match locale"),
]


def of_ones():
    """A number at a coordinate matches a device that has it, and none without one."""
    for name in COORDS:
        if name not in ("locale", "density"):
            yield f"{name}=1", f"{name}=1", "first"
            yield f"{name}=1", "", f"no match {name}"


def of_matches():
    for record, device, told in (*MATCHES, *of_ones()):
        end = "value layer 0 decimal 1" if told == "first" else f"absent {ID}"
        out = lines([f"lookup {ID}", f"candidate 0 layer 0 [{record}] {told}", f"end {end}"])
        yield over([f"0 [{record}] 1"], EXPLAIN, out, status=told != "first", device=device_of(device))


# ---- which of two is better

BY_RULE = [
    # The first is better than the second at a device, by the rule whose number is the place of the row, counted from 1.
    ("mcc=7", "", "mcc=7"),
    ("mnc=7", "", "mnc=7"),
    ("locale=fr-CA", "locale=fr", "locale=fr-CA"),
    ("layoutDirection=1", "", "layoutDirection=1"),
    ("smallestWidthDp=8", "smallestWidthDp=7", "smallestWidthDp=8"),
    ("widthDp=60", "heightDp=40", "widthDp=60,heightDp=40"),
    ("screenSize=2", "", "screenSize=2"),
    ("long=1", "", "long=1"),
    ("round=1", "", "round=1"),
    ("wideColor=1", "", "wideColor=1"),
    ("hdr=1", "", "hdr=1"),
    ("orientation=1", "", "orientation=1"),
    ("uiType=1", "", "uiType=1"),
    ("night=1", "", "night=1"),
    ("density=160", "density=120", ""),
    ("touchscreen=1", "", "touchscreen=1"),
    ("keysHidden=3", "keysHidden=1", "keysHidden=3"),
    ("navHidden=1", "", "navHidden=1"),
    ("keyboard=1", "", "keyboard=1"),
    ("navigation=1", "", "navigation=1"),
    ("width=60", "height=40", "width=60,height=40"),
    ("sdk=21", "sdk=8", "sdk=26"),
    ("minor=1", "", "minor=1"),
]

BETTER = [
    # The first is better by this rule.
    ("screenSize=1", "", "screenSize=1", 7),
    ("", "screenSize=1", "screenSize=2", 7),
    ("screenSize=3", "screenSize=2", "screenSize=4", 7),
    ("keysHidden=1", "", "keysHidden=3", 17),
    ("keysHidden=3", "", "keysHidden=3", 17),
    ("widthDp=600", "heightDp=400", "widthDp=600,heightDp=400", 6),
    # An earlier rule decides before a later one.
    ("mcc=7", "density=120", "mcc=7", 1),
    # Any density is the best, also at a device of density 1.
    ("density=65534", "", "density=1", 15),
    ("density=65534", "density=65535", "", 15),
    ("density=65534", "density=160", "", 15),
    # The smaller one up to a density of 197, and the larger from there on.
    ("density=160", "density=320", "density=197", 15),
    ("density=320", "density=160", "density=198", 15),
    ("density=320", "", "density=480", 15),
    # None is a density of 65535.
    ("density=320", "density=65535", "density=480", 15),
    ("density=65535", "", "density=480", 15),
    ("", "density=120", "density=160", 15),
]

UNDECIDED = [
    # No rule decides. Of dimensions the same is left of the screen.
    ("smallestWidthDp=8", "smallestWidthDp=8", "smallestWidthDp=8"),
    ("widthDp=40", "heightDp=40", "widthDp=60,heightDp=40"),
    ("widthDp=400", "heightDp=400", "widthDp=600,heightDp=400"),
    ("widthDp=5,heightDp=7", "widthDp=7,heightDp=5", "widthDp=9,heightDp=9"),
    ("density=160", "density=160", ""),
    ("width=40", "height=40", "width=60,height=40"),
]


def second_does(best, other, device, told):
    """What the second of two rows does, of which the first matches."""
    end = "value layer 0 decimal " + ("2" if told.startswith("took over") else "1")
    out = [f"lookup {ID}", f"candidate 0 layer 0 [{best}] first", f"candidate 1 layer 0 [{other}] {told}", f"end {end}"]
    return over([f"0 [{best}] 1\n0 [{other}] 2"], EXPLAIN, lines(out), device=device_of(device))


def of_rules():
    by_rule = [(*row, rule) for rule, row in enumerate(BY_RULE, 1)]
    for better, worse, device, rule in by_rule + BETTER:
        yield second_does(worse, better, device, f"took over P{rule}")
        yield second_does(better, worse, device, f"kept out P{rule}")
    # No density counts as 160, and both are then the larger one.
    for density, told in ((160, "took over P15"), (120, "kept out P15")):
        for best, other in (("", "density=160"), ("density=160", "")):
            yield second_does(best, other, f"density={density}", told)
    for one, other, device in UNDECIDED:
        yield second_does(one, other, device, "kept out")
        yield second_does(other, one, device, "kept out")


# ---- which are equal

EQUAL = [
    # A byte of a configuration, and whether one that has it is still equal to the configuration without qualifiers.
    (19, "01", False),  # padding of the input flags
    (48, "80", False),  # unused bits of screenLayout2
    (50, "01", True),  # behind the last field
    (0, "1c", True),  # the size
]


def of_equal_ones():
    plain = table_of_lines("0 [] 1")
    for place, digits, is_equal in EQUAL:
        other = with_bytes(place, digits)
        layer, told = (1, "took over equal") if is_equal else (0, "kept out")
        for base, overlay in ((plain, other), (other, plain)):
            out = [f"lookup {ID}", "candidate 0 layer 0 [] first", f"candidate 1 layer 1 [] {told}"]
            yield over([base, (overlay, SAME)], EXPLAIN, lines([*out, f"end value layer {layer} decimal 1"]))
    for first, second, told in (
        ("sdk=21", "sdk=21", "took over equal"), ("sdk=21", "sdk=21,minor=1", "took over P23"),
        ("sdk=21,minor=1", "sdk=21", "kept out P23"),
    ):
        layer = int(told.startswith("took over"))
        out = [f"lookup {ID}", f"candidate 0 layer 0 [{first}] first", f"candidate 1 layer 1 [{second}] {told}"]
        layers = [f"0 [{first}] 1", (f"0 [{second}] 1", SAME)]
        yield over(layers, EXPLAIN, lines([*out, f"end value layer {layer} decimal 1"]), device=device_of("sdk=21,minor=1"))


if __name__ == "__main__":
    check_groups([of_devices, of_configurations, of_matches, of_rules, of_equal_ones])

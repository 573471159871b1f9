#!/usr/bin/env python3
"""A plain reading of Android's notation: of stored configurations as the folders of their resources are called
(ResTable_config::toString of Android 8.1), and of values as XML writes them (ResTable::stringToValue). By itself

    plain_notation.py [CASES [FIRST]]

tries known texts, and then so many made records and values, 10,000 of each if it is not said, numbered from FIRST on, which is 0
if it is not given: two with one text are the same, the text of a record that words say is read as it by plain_config.py, and that
of a number as aapt reads it, or as the number beside it, where aapt cuts off what has no room. Its last line is `N passed, M failed`.
With `--configs` before the numbers it prints the made records instead, each as the digits of its bytes, a blank, and its text; with
`--values` the values, each as its kind, its word and its text."""
import random
import re
import struct
import sys
from fractions import Fraction

from plain_config import AROUND, NAMES, ORDER, WORDS, Refused, device_of, parts_of

FIELDS = "<IHH2s2sBBHBBBBHHHHBBHHH4s8sBBxxB"
"""Those of ResTable_config, up to whether the script was computed."""
LONGEST = struct.calcsize(FIELDS)
LETTERS = {"language": ("a", "[a-z]{2,3}"), "region": ("0", "[A-Z]{2}|[0-9]{3}")}
"""From which sign packed letters are counted, and what they may be."""
CASES = 10000


# ---- what a record holds


def fields_of(record):
    """The numbers of a record, and its locale, script and variant as bytes. What a short one has not is 0."""
    (_, mcc, mnc, language, region, orientation, touchscreen, density, keyboard, navigation, flags, _, width, height, sdk, minor, layout,
     mode, smallest, width_dp, height_dp, script, variant, layout2, color, _) = struct.unpack(FIELDS, record[:LONGEST].ljust(LONGEST, b"\0"))
    numbers = dict(mcc=mcc, mnc=mnc, orientation=orientation, touchscreen=touchscreen, density=density, keyboard=keyboard)
    numbers |= dict(navigation=navigation, width=width, height=height, sdk=sdk, minor=minor)
    numbers |= dict(smallestWidthDp=smallest, widthDp=width_dp, heightDp=height_dp)
    numbers |= dict(keysHidden=flags & 3, navHidden=flags >> 2 & 3, round=layout2 & 3, wideColor=color & 3, hdr=color >> 2 & 3)
    numbers |= dict(screenSize=layout & 15, long=layout >> 4 & 3, layoutDirection=layout >> 6, uiType=mode & 15, night=mode >> 4 & 3)
    return numbers, (language, region, script, variant)


def unpacked(kind, two):
    """The letters or digits of two bytes; None where they are none."""
    base, allowed = LETTERS[kind]
    first, second = two
    if not any(two):
        return ""
    text = two.decode("latin1")
    if first & 0x80:
        text = "".join(chr(ord(base) + it) for it in (second & 31, (second >> 5) + ((first & 3) << 3), first >> 2 & 31))
    return text if re.fullmatch(allowed, text) else None


# ---- its text


def locale_parts(language_bytes, region_bytes, script, variant):
    """As appendDirLocale has it; what that leaves out or cannot say is named."""
    language, region = unpacked("language", language_bytes), unpacked("region", region_bytes)
    tag = script.decode("latin1") if any(script) else ""
    own = variant.rstrip(b"\0").decode("latin1")
    if language and region is not None and re.fullmatch("([A-Z][a-z]{3})?", tag) and re.fullmatch("([a-z0-9]{4,8})?", own):
        is_word = any(language in words for words in WORDS.values())
        if not tag and not own and not is_word:
            return [language + (region and f"-r{region}")]
        return ["b+" + "+".join(filter(None, (language, tag, region, own)))]
    both = language_bytes + region_bytes
    text = "x" + both.hex() if None in (language, region) else language + (region and f"-{region}")
    named = {"locale": text if any(both) else "", "script": script.hex() if tag else "", "variant": variant.hex() if own else ""}
    return [f"{name}={said}" for name, said in named.items() if said]


def number_word(name, number):
    """The word of a number, or its letters, or its name."""
    if (name, number) == ("mnc", 65535):
        return "mnc00"
    words = [word for word, meant in WORDS.get(name, {}).items() if meant == number]
    front, end = ("v", "") if name == "sdk" else AROUND.get(name, (f"{name}=", ""))
    return words[0] if words else f"{front}{number}{end}"


def number_parts(name, numbers):
    number = numbers[name]
    if name == "width":
        return [f"{number}x{numbers['height']}"] if number or numbers["height"] else []
    if name == "sdk":
        minor = numbers["minor"]
        return [f"v{number}" + (f".{minor}" if minor else "")] if number or minor else []
    return [number_word(name, number)] if number else []


def config_text(record):
    """The text of the bytes of a record."""
    numbers, locale = fields_of(record)
    parts = [part for name in ORDER for part in (locale_parts(*locale) if name == "locale" else number_parts(name, numbers))]
    return "-".join(parts) or "(default)"


# ---- values


KINDS = {"null": 0, "reference": 1, "float": 4, "dimension": 5, "fraction": 6, "decimal": 16, "hex": 17, "boolean": 18}
KINDS |= {"argb8": 28, "rgb8": 29, "argb4": 30, "rgb4": 31}
UNITS = {5: ("px", "dp", "sp", "pt", "in", "mm"), 6: ("%", "%p")}
RADIXES = (0, 7, 15, 23)
EXACT = {0: "null 0x{:08x}", 1: "@0x{:08x}", 2: "?0x{:08x}", 4: "float 0x{:08x}", 7: "dynamic 0x{:08x}"}
EXACT |= {29: "rgb8 #{:08x}", 30: "argb4 #{:08x}", 31: "rgb4 #{:08x}"}


def signed(number, bits):
    return number - (1 << bits) if number >> (bits - 1) else number


def rounded(number, places):
    """The nearest decimal of a fraction, as a number of its last place; of two that are as near the greater."""
    return (number * 10**places * 2 + 1) // 2


def shortest(number, gap):
    """The decimal of a number that is not negative: the fewest digits behind the point that are nearer than half of the gap."""
    places = next(it for it in range(64) if abs(Fraction(rounded(number, it), 10**it) - number) < gap / 2)
    whole, behind = divmod(rounded(number, places), 10**places)
    return f"{whole}" + (f".{behind:0{places}}" if places else "")


def complex_text(kind, word):
    """A dimension or a fraction, where its point stands as aapt puts it."""
    mantissa, radix, unit = signed(word >> 8, 24), RADIXES[word >> 4 & 3], word & 15
    exact = Fraction(mantissa, 1 << radix)
    if unit >= len(UNITS[kind]) or radix != radix_of(abs(exact)) or word & 0xC0:
        return None
    times = 100 if kind == 6 else 1
    return ("-" if mantissa < 0 else "") + shortest(abs(exact) * times, Fraction(times, 1 << radix)) + UNITS[kind][unit]


def radix_of(size):
    """Where aapt puts the point of a number (Res_value of a dimension in ResTable::stringToValue)."""
    if size.denominator == 1:
        return 0
    return 23 if size < 1 else 15 if size < 256 else 7


def float_text(word):
    """A float of 32 bits from 2^-35 on and below 2^59, with a digit behind its point."""
    sign, exponent, fraction = "-" if word >> 31 else "", word >> 23 & 0xFF, word & 0x7FFFFF
    if word & 0x7FFFFFFF == 0:
        return sign + "0.0"
    if not 127 - 35 <= exponent < 127 + 59:
        return None
    last = Fraction(2) ** (exponent - 150)
    text = shortest((0x800000 + fraction) * last, last if fraction else last / 2)
    return sign + text + ("" if "." in text else ".0")


def color_text(kind, word):
    """`#aarrggbb`, `#rrggbb`, `#argb`, `#rgb`."""
    digits = f"{word:08x}"
    if kind in (KINDS["argb4"], KINDS["rgb4"]):
        if digits[::2] != digits[1::2]:
            return None
        digits = digits[::2]
    if kind in (KINDS["rgb8"], KINDS["rgb4"]):
        return "#" + digits[len(digits) // 4 :] if word >> 24 == 0xFF else None
    return "#" + digits


def exact_text(kind, word):
    """As `rows` has it; but truth values that are neither 0 nor all ones, and numbers with bits that say nothing, as a kind without
    a name."""
    if kind in UNITS and word & 0xC0 == 0:
        name, unit = ("dimension", "fraction")[kind - 5], word & 15
        units = UNITS[kind]
        return f"{name} {signed(word >> 8, 24)}/2^{RADIXES[word >> 4 & 3]} " + (units[unit] if unit < len(units) else f"unit {unit}")
    if kind == 3:
        return f"string {word}"
    return EXACT[kind].format(word) if kind in EXACT else f"kind 0x{kind:02x} 0x{word:08x}"


def xml_text(kind, word):
    """The text of a value without the names of resources and strings."""
    named = {(0, 0): "null", (0, 1): "@empty", (1, 0): "@null", (18, 0): "false", (18, 0xFFFFFFFF): "true"}
    text = named.get((kind, word))
    if kind in UNITS:
        text = complex_text(kind, word)
    elif kind == KINDS["float"]:
        text = float_text(word)
    elif kind == KINDS["decimal"]:
        text = f"{signed(word, 32)}"
    elif kind == KINDS["hex"]:
        text = f"0x{word:x}"
    elif 28 <= kind <= 31:
        text = color_text(kind, word)
    return exact_text(kind, word) if text is None else text


FORMATS = {
    0: "reference", 1: "string", 2: "integer", 3: "boolean", 4: "color", 5: "float", 6: "dimension", 7: "fraction", 16: "enum", 17: "flags",
}
"""The bits of an attribute's row 0x01000000 (ResTable_map::TYPE_REFERENCE and on)."""


def formats_text(kind, word):
    """What an attribute may be. Where its 16 low bits are set it may be anything."""
    types = {16, 17} if word & 0xFFFF == 0xFFFF else set(range(32))
    words = ["any"] * (types == {16, 17}) + [FORMATS.get(bit, "") for bit in sorted(types) if word >> bit & 1]
    is_said = kind in (KINDS["decimal"], KINDS["hex"]) and words and all(words) and word < 1 << 18
    return "|".join(words) if is_said else xml_text(kind, word)


def complex_word(size, is_negative, unit):
    """How aapt makes a dimension of a number and a unit."""
    bits = int(size * (1 << 23) + Fraction(1, 2))
    shift, radix = 23, 0
    if bits & 0x7FFFFF == 0:
        pass
    elif bits >> 23 == 0:
        shift, radix = 0, 3
    elif bits >> 31 == 0:
        shift, radix = 8, 2
    elif bits >> 39 == 0:
        shift, radix = 16, 1
    mantissa = bits >> shift & 0xFFFFFF
    return (-mantissa if is_negative else mantissa) % (1 << 24) << 8 | radix << 4 | unit


# ---- made records


def packed(base, text):
    first, second, third = (ord(it) - ord(base) for it in text)
    return bytes([0x80 | third << 2 | second >> 3, (second & 7) << 5 | first])


def some_locale(chance):
    """Bytes of a language, a region, a script and a variant."""
    languages = [b"\0\0", b"en", b"fr", packed("a", "fil"), packed("a", "car"), packed("a", "mcc")]
    regions = [b"\0\0", b"\0\0", b"US", packed("0", "419")]
    scripts = [bytes(4), bytes(4), bytes(4), b"Latn", b"Hant", b"latn", b"La\0\0"]
    variants = [bytes(8), bytes(8), bytes(8), b"polyton\0", b"1996\0\0\0\0", b"scouse\0x", b"POSIX\0\0\0", b"abc\0\0\0\0\0", b"abcdefgh"]
    made = [chance.choice(kind) for kind in (languages, regions, scripts, variants)]
    if chance.random() < 0.1:
        place = chance.randrange(4)
        made[place] = chance.randbytes(len(made[place]))
    return made


def some_number(chance, name):
    return chance.choice([0, 0, *WORDS.get(name, {}).values(), 1, 2, 600, 0xFFFE, 0xFFFF, chance.randrange(1 << 16)])


def made_record(case):
    """Some fields are set; some records are short, and some are random bytes."""
    chance = random.Random(case)
    if case % 10 == 0:
        size = chance.choice((28, 36, 48, 52, 56, 64))
        return struct.pack("<I", size) + chance.randbytes(size - 4)
    said = {name: some_number(chance, name) if chance.random() < 0.3 else 0 for name in NAMES}
    language, region, script, variant = some_locale(chance) if chance.random() < 0.6 else (bytes(2), bytes(2), bytes(4), bytes(8))
    size = chance.choice((28, 32, 36, 48, 52, 56))
    bits = lambda name, width: said[name] & ((1 << width) - 1)
    fields = struct.pack(
        FIELDS, size, said["mcc"], said["mnc"], language, region, bits("orientation", 8), bits("touchscreen", 8), said["density"],
        bits("keyboard", 8), bits("navigation", 8), bits("navHidden", 2) << 2 | bits("keysHidden", 2), 0, said["width"], said["height"],
        said["sdk"], said["minor"], bits("layoutDirection", 2) << 6 | bits("long", 2) << 4 | bits("screenSize", 4),
        bits("night", 2) << 4 | bits("uiType", 4), said["smallestWidthDp"], said["widthDp"], said["heightDp"], script, variant,
        bits("round", 2), bits("hdr", 2) << 2 | bits("wideColor", 2), 0,
    )
    return fields.ljust(size, b"\0")[:size]


def some_word(chance, kind):
    if kind in UNITS:
        size = chance.choice([Fraction(chance.randrange(100000), 10 ** chance.randrange(8)), chance.randrange(1 << 23), Fraction(1, 10)])
        word = complex_word(Fraction(size), chance.random() < 0.2, chance.randrange(len(UNITS[kind])))
        return chance.choice([word, word, word ^ 1 << chance.randrange(32), chance.getrandbits(32)])
    if kind == KINDS["float"]:
        size = chance.choice([chance.randrange(1000) / 10 ** chance.randrange(6), 2.0 ** chance.randrange(-40, 64), float(chance.getrandbits(40))])
        word = struct.unpack("<I", struct.pack("<f", size))[0]
        return chance.choice([word, word | 1 << 31, (word + 1) % (1 << 32), chance.getrandbits(32)])
    digits = chance.choices("0123456789abcdef", k=4)
    opaque = chance.choice(["f", digits[0]])
    doubled = int("".join(it * 2 for it in [opaque, *digits[1:]]), 16)
    return chance.choice([0, 1, 2, 0xFFFFFFFF, 0x80000000, 0xFFB5651D, doubled, doubled ^ 1, chance.getrandbits(8), chance.getrandbits(32)])


def made_value(case):
    chance = random.Random(case)
    kind = chance.choice([*KINDS.values(), *UNITS, *UNITS, 4, 4]) if chance.random() < 0.95 else chance.randrange(256)
    return kind, some_word(chance, kind)


# ---- what is tried


def record_of(language="", region="", script=b"", variant=b"", computed=0, **said):
    """The bytes of a record with these fields."""
    code = lambda text, base: packed(base, text) if len(text) == 3 else text.encode().ljust(2, b"\0")
    it = dict.fromkeys(NAMES, 0) | said
    return struct.pack(
        FIELDS, LONGEST, it["mcc"], it["mnc"], code(language, "a"), code(region, "0"), it["orientation"], it["touchscreen"], it["density"],
        it["keyboard"], it["navigation"], it["navHidden"] << 2 | it["keysHidden"], 0, it["width"], it["height"], it["sdk"], it["minor"],
        it["layoutDirection"] << 6 | it["long"] << 4 | it["screenSize"], it["night"] << 4 | it["uiType"], it["smallestWidthDp"],
        it["widthDp"], it["heightDp"], script, variant, it["round"], it["hdr"] << 2 | it["wideColor"], computed,
    )


def config_of(record):
    """The notation of a record that is printed between brackets."""
    said = dict(part.split("=") for part in record[1:-1].split(",") if part)
    language, _, region = said.pop("locale", "").partition("-")
    script, variant = (bytes.fromhex(said.pop(name, "")) for name in ("script", "variant"))
    return config_text(record_of(language, region, script, variant, **{name: int(number) for name, number in said.items()}))


CONFIGS = [
    (record_of(), "(default)"),
    (record_of("fr", "CA", smallestWidthDp=600, orientation=2, night=2, density=320, sdk=13), "fr-rCA-sw600dp-land-night-xhdpi-v13"),
    (record_of("sr", script=b"Latn"), "b+sr+Latn"),
    (record_of("sr", "RS", script=b"Latn", density=480), "b+sr+Latn+RS-xxhdpi"),
    (record_of("de", variant=b"1996"), "b+de+1996"),
    (record_of("en", "GB", variant=b"scouse"), "b+en+GB+scouse"),
    (record_of("fil", "PH", mcc=310, mnc=4), "mcc310-mnc4-fil-rPH"),
    (record_of("es", "419", mcc=310, mnc=65535), "mcc310-mnc00-es-r419"),
    (record_of("car"), "b+car"),
    (record_of(uiType=3), "car"),
    (record_of(region="US"), "locale=-US"),
    (record_of(script=b"Latn"), "script=4c61746e"),
    (record_of("fr", script=b"latn", variant=b"abc"), "locale=fr-script=6c61746e-variant=6162630000000000"),
    (record_of("f1", "CA"), "locale=x66314341"),
    (record_of(layoutDirection=2, widthDp=1, heightDp=2, screenSize=4, long=2, round=1), "ldrtl-w1dp-h2dp-xlarge-long-notround"),
    (record_of(wideColor=2, hdr=1, orientation=3, uiType=7, night=1, density=65534), "widecg-lowdr-square-vrheadset-notnight-anydpi"),
    (record_of(density=65535, touchscreen=3, keysHidden=3, keyboard=3, navHidden=2), "nodpi-finger-keyssoft-12key-navhidden"),
    (record_of(navigation=4, width=1440, height=2560, sdk=27), "wheel-1440x2560-v27"),
    (record_of(density=213, width=3, minor=1), "tvdpi-3x0-v0.1"),
    (record_of(density=420, sdk=4), "420dpi-v4"),
    (record_of(layoutDirection=3, screenSize=5, long=3, round=3, wideColor=3, hdr=3),
     "layoutDirection=3-screenSize=5-long=3-round=3-wideColor=3-hdr=3"),
    (record_of(orientation=4, uiType=1, night=3, touchscreen=4, keyboard=4, navHidden=3, navigation=5),
     "orientation=4-uiType=1-night=3-touchscreen=4-keyboard=4-navHidden=3-navigation=5"),
]
"""Records, and their texts as AOSP and docs/DECISIONS.md have them."""


VALUES = [
    ("dimension", 12 << 8 | 1, "12dp"),
    ("dimension", 1130496 << 8 | 0x22, "34.5sp"),
    ("dimension", 838861 << 8 | 0x31, "0.1dp"),
    ("dimension", (-4 % (1 << 24)) << 8, "-4px"),
    ("dimension", (-838861 % (1 << 24)) << 8 | 0x35, "-0.1mm"),
    ("dimension", 0, "0px"),
    ("dimension", 32768 << 8 | 0x33, "0.0039063pt"),
    ("dimension", 98304 << 8 | 0x33, "0.0117188pt"),
    ("dimension", 32832 << 8 | 0x13, "256.5pt"),
    ("dimension", 49152 << 8 | 0x24, "1.5in"),
    ("dimension", 12 << 8 | 6, "dimension 12/2^0 unit 6"),
    ("dimension", 1536 << 8 | 0x11, "dimension 1536/2^7 dp"),
    ("dimension", 3277 << 8 | 0x21, "dimension 3277/2^15 dp"),
    ("dimension", 12 << 8 | 0x41, "kind 0x05 0x00000c41"),
    ("fraction", 12 << 8 | 0x8F, "kind 0x06 0x00000c8f"),
    ("fraction", 3145728 << 8 | 0x30, "37.5%"),
    ("fraction", 1 << 30 | 0x31, "50%p"),
    ("fraction", 2793406 << 8 | 0x30, "33.3%"),
    ("fraction", 1 << 8, "100%"),
    ("fraction", 1 << 8 | 2, "fraction 1/2^0 unit 2"),
    ("argb8", 0x80B5651D, "#80b5651d"),
    ("rgb8", 0xFFB5651D, "#b5651d"),
    ("rgb8", 0x80B5651D, "rgb8 #80b5651d"),
    ("argb4", 0x88BB5511, "#8b51"),
    ("argb4", 0x88BB5512, "argb4 #88bb5512"),
    ("rgb4", 0xFFBB5511, "#b51"),
    ("rgb4", 0xEEBB5511, "rgb4 #eebb5511"),
    ("rgb4", 0xFFB5651D, "rgb4 #ffb5651d"),
    ("boolean", 0xFFFFFFFF, "true"),
    ("boolean", 0, "false"),
    ("boolean", 1, "kind 0x12 0x00000001"),
    ("decimal", 250, "250"),
    ("decimal", 0xFFFFFFFF, "-1"),
    ("decimal", 0x80000000, "-2147483648"),
    ("hex", 250, "0xfa"),
    ("hex", 0, "0x0"),
    ("float", 0x3FC00000, "1.5"),
    ("float", 0x3F800000, "1.0"),
    ("float", 0x3DCCCCCD, "0.1"),
    ("float", 0xBE99999A, "-0.3"),
    ("float", 0x3EAAAAAB, "0.33333334"),
    ("float", 0x80000000, "-0.0"),
    ("float", 0x4B800000, "16777216.0"),
    ("float", 0x3A83126F, "0.001"),
    ("float", 0x7FC00000, "float 0x7fc00000"),
    ("float", 0x7F800000, "float 0x7f800000"),
    ("float", 0x00000001, "float 0x00000001"),
    ("null", 0, "null"),
    ("null", 1, "@empty"),
    ("null", 2, "null 0x00000002"),
    ("reference", 0, "@null"),
    ("reference", 0x7F010000, "@0x7f010000"),
]
"""Kinds, words and their texts, as the rules have them and as aapt writes such words."""
FORMATTED = [
    (16, 1 << 4 | 1, "reference|color"), (16, 0xFFFF, "any"), (17, 0x1FFFF, "any|enum"), (16, 1 << 17, "flags"),
    (16, 1 << 16 | 1 << 2, "integer|enum"), (16, 0xFF, "reference|string|integer|boolean|color|float|dimension|fraction"),
    (16, 0, "0"), (17, 1 << 8, "0x100"), (16, 1 << 18 | 1, "262145"), (18, 0xFFFFFFFF, "true"), (1, 0, "@null"),
]
OTHERS = [(2, 0x01010001, "?0x01010001"), (3, 5, "string 5"), (7, 0x02010000, "dynamic 0x02010000"), (8, 9, "kind 0x08 0x00000009")]


def faults_of_reading(record, text):
    """A text of words alone, without a variant, is read as the record, where that is in reach of a device."""
    numbers, (language, region, script, variant) = fields_of(record)
    if text == "(default)" or "=" in text or any(variant):
        return
    said = {name: number for name, number in numbers.items() if number}
    if not 1 <= numbers["density"] <= 32767 or any(numbers[name] > most for name, most in (("uiType", 15),)):
        return
    try:
        read = device_of(text, android=any(script))
    except Refused as refused:
        yield f"{text}: {refused}"
        return
    read_locale = read.pop("locale", "")
    want = "-".join(filter(None, (unpacked("language", language), unpacked("region", region))))
    if not any(script) and read_locale != want:
        yield f"{text}: locale {read_locale}"
    if read != {name: said.get(name, 1 if name == "uiType" else 0) for name in NAMES if name in said or name == "uiType"}:
        yield f"{text}: {read}"


def faults_of_number(kind, word, text):
    """A number is read as its word, as aapt reads it, and a float as any reader does; no text with one digit less is."""
    if kind == KINDS["float"] and text[0] in "-0123456789":
        if struct.pack("<f", float(text)) != struct.pack("<I", word):
            yield f"{text}: another float than 0x{word:08x}"
        shorter = float(text[:-1]) if not text.endswith(".0") else float(text)
        if not text.endswith(".0") and word & 0x7FFFFF and struct.pack("<f", shorter) == struct.pack("<I", word):
            yield f"{text}: a digit too many"
    found = re.fullmatch(r"(-?)([0-9.]+)([a-z%]+)", text)
    if kind in UNITS and found:
        size = Fraction(found[2]) / (100 if kind == 6 else 1)
        made = complex_word(size, found[1] == "-", UNITS[kind].index(found[3]))
        # aapt cuts off what has no room where a number is 1 or more
        if abs((made >> 8) - (word >> 8)) > (size >= 1) or made & 255 != word & 255:
            yield f"{text}: 0x{made:08x}, not 0x{word:08x}"


def faults_of_configs(records):
    seen = {}
    for record, text in CONFIGS:
        if config_text(record) != text:
            yield f"{config_text(record)}, not {text}"
    for record in records:
        text = config_text(record)
        if seen.setdefault(text, fields_of(record)) != fields_of(record):
            yield f"two are {text}"
        yield from faults_of_reading(record, text)


def faults_of_values(values):
    seen = {}
    for kind, word, text in [*((KINDS[name], word, text) for name, word, text in VALUES), *OTHERS]:
        if xml_text(kind, word) != text:
            yield f"{xml_text(kind, word)}, not {text}"
    for kind, word in values:
        text = xml_text(kind, word)
        if seen.setdefault(text, (kind, word)) != (kind, word):
            yield f"two are {text}"
        yield from faults_of_number(kind, word, text)


def faults_of_formats():
    seen = {}
    for kind, word, text in FORMATTED:
        if formats_text(kind, word) != text:
            yield f"{formats_text(kind, word)}, not {text}"
    for word in range(1 << 18):
        text = formats_text(KINDS["decimal"], word)
        if seen.setdefault(text, word) != word:
            yield f"two are {text}"


def main(words):
    prints = words[0] if words[:1] in (["--configs"], ["--values"]) else ""
    cases, first = (list(map(int, words[bool(prints) :])) + [CASES, 0][len(words) - bool(prints) :])[:2]
    records = [made_record(first + case) for case in range(cases)]
    values = [made_value(first + case) for case in range(cases)]
    if prints == "--configs":
        print("\n".join(f"{record.hex()} {config_text(record)}" for record in records))
    elif prints == "--values":
        print("\n".join(f"{kind} {word} {xml_text(kind, word)}" for kind, word in values))
    else:
        faults = [*faults_of_configs(records), *faults_of_values(values), *faults_of_formats()]
        for fault in faults[:20]:
            print("failed:", fault)
        tried = len(CONFIGS) + len(VALUES) + len(OTHERS) + len(FORMATTED) + (1 << 18) + 2 * cases
        print(f"{tried - len(faults)} passed, {len(faults)} failed")
        sys.exit(len(faults) > 0)


if __name__ == "__main__":
    main(sys.argv[1:])

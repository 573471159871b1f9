#!/usr/bin/env python3
"""A plain reading of how a phone compares locales, which is what `--locales android` asks for: by their scripts, and by a tree of
regions. The 24 other conditions and the 22 other rules are those of plain_rules. For the scripts beside it. By itself

    plain_locales.py

tries rows of which Android's own code was asked, and texts. The last line is `N passed, M failed`."""
import os
import re
import sys
from functools import cache
from typing import NamedTuple

import plain_rules
from plain_certificates import Box, packed
from plain_rules import COORDS, Layers, Record, end_text, first_mismatch, parts

FACTS = os.path.join(os.path.dirname(os.path.dirname(os.path.abspath(__file__))), "crates", "locales", "data")
MOST_IN_LINE = 4
LATIN_AMERICA = "es-419"
SPECIAL_SPANISH = "es-US", "es-MX"
P1, P2, P3 = 1, 2, 3


def facts(name):
    """The words of each line of a list of CLDR's facts."""
    with open(os.path.join(FACTS, name), encoding="ascii") as lines:
        return [tuple(line.split()) for line in lines if not line.startswith("#")]


LIKELY_SCRIPTS = dict(facts("likely-scripts.txt"))
PARENTS = {(script, locale): parent for script, locale, parent in facts("parents.txt")}
REPRESENTATIVES = set(facts("representatives.txt"))
"""Locales that stand for their language in a script."""


# ---- what is known of locales


def joined(*words):
    """The text of these parts of a locale, without those that are none."""
    return "-".join(word for word in words if word)


def likely(language, region):
    """The script in which a locale is likely written, "" where none is known."""
    return LIKELY_SCRIPTS.get(joined(language, region)) or LIKELY_SCRIPTS.get(language, "")


def are_alike(language, other):
    return language == other or {language, other} == {"tl", "fil"}


def parent(locale, script):
    """The parent of a locale with a region, under a script."""
    return PARENTS.get((script, locale)) or parts(locale)[0]


def line(locale, script):
    """A locale, its parent, the parent of that, and so on. One without a region has no parent."""
    found = [locale]
    while "-" in found[-1] and len(found) < MOST_IN_LINE:
        found.append(parent(found[-1], script))
    return found


def is_near_us_english(region):
    """Whether English of this region comes to English without passing the English of the world."""
    met = [locale for locale in line(joined("en", region), "Latn") if locale in ("en", "en-001")]
    return met[:1] == ["en"]


# ---- texts

TEXT = re.compile("(?:([a-z]{2,3})(?:-([A-Z][a-z]{3}))?(?:-([A-Z]{2}|[0-9]{3}))?)?")
REGION_ALONE = re.compile("-([A-Z]{2}|[0-9]{3})")


class Locale(NamedTuple):
    """The locale of a device. Its script is the one that its text has, or else the likely one."""

    language: str
    region: str
    script: str


def fault_of(text):
    """Why a text is no locale, as a refusal says it, None where it is one."""
    if TEXT.fullmatch(text):
        return None
    return "RegionAlone" if REGION_ALONE.fullmatch(text) else "FieldRange locale"


@cache
def locale_of(text):
    """The locale that a text says."""
    language, script, region = TEXT.fullmatch(text).groups("")
    return Locale(language, region, script or likely(language, region))


def printed(locale):
    """The text of a locale: it has the script only where that is not the likely one."""
    language, region, script = locale
    return joined(language, "" if script == likely(language, region) else script, region)


def in_order(locale):
    """What locales of a box are ordered by: the bytes of the language, the region and the script."""
    return packed(locale.language, "a"), packed(locale.region, "0"), locale.script.encode()


class AndroidBox(Box):
    """A box in whose list of locales those of one language, region and script are one."""

    @staticmethod
    def set_of(said):
        if isinstance(said, list) and all(isinstance(value, str) for value in said):
            return [printed(locale) for locale in sorted({locale_of(text) for text in said}, key=in_order)]
        return Box.set_of(said)


# ---- does a row match


def script_of(record):
    """The script of a row, "" where it has none."""
    if record.script:
        return record.script.decode("latin-1")
    return "" if record.computed else likely(*parts(record.locale))


def suits_locale(record, own):
    """Whether a row's locale suits that of the device."""
    if not record.locale:
        return True
    language, region = parts(record.locale)
    if not are_alike(language, own.language):
        return False
    is_of_unknown_script = not record.script and not record.computed and not likely(language, region)
    if not own.script or is_of_unknown_script:
        return region in ("", own.region)
    return script_of(record) == own.script


def suits(name, record, device):
    """Whether the row's number suits the device's."""
    return suits_locale(record, locale_of(device["locale"])) if name == "locale" else plain_rules.suits(name, record, device)


def mismatch(record, device):
    """Why a row does not match, None where it does. No row is set aside."""
    return first_mismatch(record, device, suits)


# ---- which of two rows is better, where both match


def is_of_us(region):
    return region in ("", "US")


def good_regions(own):
    """How a device in the English of the United States, or near it, tells the regions that are better than a row without a
    language; None at other devices, where all are."""
    if own.language != "en":
        return None
    if own.region == "US":
        return is_of_us
    return is_near_us_english if is_near_us_english(own.region) else None


def has_better_language(a, b, own):
    """Whether the first row's locale is better, where one of both has no language."""
    is_good = good_regions(own)
    if is_good is None:
        return a.locale != ""
    return is_good(parts(a.locale)[1]) if a.locale else not is_good(parts(b.locale)[1])


def with_stand_in(x, y):
    """The first locale, or es-419 in its place: where it is es-US or es-MX, and the other one is none of the three."""
    is_replaced = x in SPECIAL_SPANISH and y not in (*SPECIAL_SPANISH, LATIN_AMERICA)
    return LATIN_AMERICA if is_replaced else x


def distance(locale, script, above):
    """How far a locale is from the first one of a line: the steps up to where its own line meets that line, and down again."""
    up, met = next((up, met) for up, met in enumerate(line(locale, script)) if met in above)
    return up + above.index(met)


def is_nearer(region, other, own):
    """Whether the first of two regions is nearer to the device's."""
    x, y = joined(own.language, region), joined(own.language, other)
    x, y = with_stand_in(x, y), with_stand_in(y, x)
    above = line(joined(own.language, own.region), own.script)
    met = [locale for locale in above if locale in (x, y)]
    if met:
        return met[0] == x

    def rank(locale):
        return distance(locale, own.script, above), (locale, own.script) not in REPRESENTATIVES, packed(parts(locale)[1], "0")

    return rank(x) < rank(y)


def has_better_locale(a, b, own):
    """Whether the first row's locale is better."""
    if not own.language or not (a.locale or b.locale):
        return False
    (language, region), (other_language, other_region) = parts(a.locale), parts(b.locale)
    if not are_alike(language, other_language):
        return has_better_language(a, b, own)
    if region != other_region:
        return is_nearer(region, other_region, own)
    if bool(a.variant) != bool(b.variant):
        return bool(b.variant)
    return language == own.language and other_language != own.language


def better_locale(a, b, device):
    """P3. It says yes, or passes; it never says no."""
    return has_better_locale(a, b, locale_of(device["locale"])) or None


RULES = [better_locale if number == P3 else rule for number, rule in enumerate(plain_rules.RULES, 1)]
"""P1 to P23."""


def better(a, b, device):
    """Whether the first row is better, and the number of the rule that decides, None where none does. Where P1 and P2 pass, P3
    keeps a row out by which the other is better."""
    is_better, rule = plain_rules.better(a, b, device, RULES)
    if not is_better and rule not in (P1, P2) and better_locale(b, a, device):
        return False, P3
    return is_better, rule


# ---- selection


class AndroidLayers(Layers):
    """Layers of which a phone selects the rows."""

    mismatch = staticmethod(mismatch)
    better = staticmethod(better)

    def set_aside(self):
        return 0


def device_in(locale, **numbers):
    """A device of this locale and these numbers."""
    return {**dict.fromkeys(COORDS, 0), "density": 160, **numbers, "locale": locale}


def selected(device, layers, name):
    """The candidate of an id that a device selects, None where it selects none."""
    return layers.look_up(name, device)[1]


def value_for(device, layers, name):
    """Where an id ends at a device, as it is printed."""
    return end_text(layers.way(name, device)[1])


# ---- rows and texts whose answers are known

NAME = 0x7F010000

ROWS = (
    ("es-MX", "[] [es] [es-ES] [es-419]", 4),
    ("es-AR", "[] [es] [es-US]", 3),
    ("es-AR", "[] [es] [es-US] [es-MX]", 4),
    ("es-ES", "[] [es] [es-US]", 2),
    ("es-ES", "[] [es-US] [es-419]", 3),
    ("pt-AO", "[] [pt] [pt-PT]", 3),
    ("pt-BR", "[] [pt] [pt-PT]", 2),
    ("pt-MZ", "[] [pt-BR] [pt-PT]", 3),
    ("zh-HK", "[] [zh-CN] [zh-TW]", 3),
    ("zh-SG", "[] [zh-CN] [zh-TW]", 2),
    ("zh-SG", "[] [zh]", 2),
    ("zh-TW", "[] [zh]", 1),
    ("zh-US", "[] [zh-CN] [zh-TW]", 3),
    ("zh-HK", "[] [zh-Hant] [zh-Hans]", 2),
    ("en-US", "[] [en-GB]", 1),
    ("en-US", "[en-GB] []", 2),
    ("en-US", "[] [en-GB] [en-US]", 3),
    ("en-PR", "[] [en-GB]", 1),
    ("en-AU", "[] [en-GB]", 2),
    ("en-AU", "[] [en-US] [en-GB]", 3),
    ("en-NZ", "[] [en-AU] [en-GB]", 3),
    ("en-IN", "[] [en-US]", 2),
    ("en-CA", "[] [en-GB] [en-US]", 2),
    ("en-001", "[] [en] [en-GB]", 2),
    ("fil-PH", "[] [tl]", 2),
    ("fil-PH", "[] [tl] [fil]", 3),
    ("tl-PH", "[] [fil] [tl]", 3),
    ("sr-RS", "[] [sr] [sr-Latn]", 2),
    ("sr-Latn-RS", "[] [sr] [sr-Latn]", 3),
    ("sr-ME", "[] [sr] [sr-Latn]", 3),
    ("sr-Latn", "[] [sr-ME]", 2),
    ("fr-FR", "[] [fr-CA]", 2),
    ("fr-CA", "[] [fr] [fr-FR]", 2),
    ("fr-CH", "[] [fr-BE] [fr-CA] [fr]", 4),
    ("de-AT", "[] [de-CH]", 2),
    ("de-AT", "[] [de-DE] [de-CH]", 2),
    ("ar-MA", "[] [ar-EG] [ar-015]", 3),
    ("ar-SA", "[] [ar-MA] [ar-EG]", 3),
    ("az-AZ", "[] [az-IR]", 1),
    ("uz-AF", "[] [uz] [uz-UZ]", 1),
    ("nb-NO", "[] [no]", 1),
    ("xx-YY", "[] [xx]", 2),
    ("xx", "[] [xx-ZZ]", 1),
    ("xx-Latn", "[] [xx-ZZ] [xx-Latn-ZZ]", 3),
    ("de-DE", "[] [de+polyton] [de]", 3),
    ("", "[] [de]", 1),
    ("en-XA", "[] [en] [en-XA]", 3),
    ("de-DE", "[-Latn] [de]", 2),
    ("zh-HK", "[zh-TW]", 1),
    ("zh-HK", "[] [zh]", 1),
    ("zh", "[] [zh-HK]", 1),
    ("fr-FR", "[fr-CA]", 1),
    ("fr-Cyrl-CA", "[] [fr-CA]", 1),
    ("fr", "[] [de]", 1),
    ("fil", "[tl]", 1),
    ("xx-YY", "[] [xx-ZZ]", 1),
    ("xx-Latn-ZZ", "[xx-ZZ]", 1),
    ("xx-Latn", "[] [xx-ZZ]", 1),
    ("", "[-Latn]", 1),
)
"""A device's locale, the rows of an id with the values 1, 2 and so on, and the value that the device loads."""

DECISIONS = (
    ("es-MX", "[] [es] [es-ES] [es-419]", ["first", "took over P3", "kept out P3", "took over P3"]),
    ("es-MX", "[es] [,mcc=310] [es,mcc=310] [es-419]", ["first", "took over P1", "took over P3", "kept out P1"]),
    ("es-MX", "[,mnc=4] [es]", ["first", "kept out P2"]),
    ("fr-CA", "[fr] [,night=2] [fr-CA,night=2] [fr-CA] [fr]",
     ["first", "took over P14", "took over P3", "kept out P14", "kept out P3"]),
    ("en-ES", "[en-419] [en-001] [] [en-419]", ["first", "took over P3", "took over P3", "took over P3"]),
    ("de-DE", "[de+polyton] [de+1996] [de] [de,night=2]", ["first", "kept out", "took over P3", "took over P14"]),
    ("fil", "[tl] [fil] [tl] [fr]", ["first", "took over P3", "kept out P3", "no match locale"]),
    ("", "[-Latn] [,night=2] [] [de-Latn]", ["first", "took over P14", "kept out P14", "no match locale"]),
)
"""The same with what each row does, at a device with these numbers too."""
NUMBERS = {"mcc": 310, "mnc": 4, "night": 2}

TEXTS = (
    ("", ""), ("de", "de"), ("fil-PH", "fil-PH"), ("es-419", "es-419"), ("zh-Hant-HK", "zh-HK"), ("zh-Hans-HK", "zh-Hans-HK"),
    ("zh-Hans", "zh"), ("sr-Latn-RS", "sr-Latn-RS"), ("sr-Latn-ME", "sr-ME"), ("en-Latn-XA", "en-Latn-XA"), ("en-XA", "en-XA"),
    ("xx", "xx"), ("xx-Latn-ZZ", "xx-Latn-ZZ"),
)
"""Texts of locales, and how these are printed."""

WRONG_TEXTS = (
    *((text, "RegionAlone") for text in ("-US", "-419")),
    *((text, "FieldRange locale") for text in (
        "-", "e", "deut", "DE", "dE", "de-", "de-us", "de-U", "de-USA", "de-41", "de-4199", "de-4A9", "de_DE", "de--DE", "-Latn",
        "-Latn-US", "de-latn", "de-LATN", "de-Lat", "de-Latin", "de-Latn-", "de-Latn-us", "de-DE-Latn", "de-Latn-Latn",
        "de-DE-AT", "de-1996", "de-DE-polyton", "Latn", " de", "de ", "de\n", "d\u00e9", "de-D\u00c9", "de-\u0664\u0661\u0669")),
)
"""Other texts, and how these are refused."""

BOX = "zh-TW zh-Hans-TW fil sr-RS zh-Hant-TW sr-Latn-RS xx-Latn en-XA xx en-Latn-XA sr-Cyrl-RS sr".split() + [""]
BOX_IN_ORDER = ["", *"en-Latn-XA en-XA sr sr-RS sr-Latn-RS xx xx-Latn zh-Hans-TW zh-TW fil".split()]


def record_of(text):
    """The configuration that is written so, as `de-Latn-DE+polyton`, with numbers behind it, as `,mcc=310`."""
    locale, *numbers = text.split(",")
    locale, _, variant = locale.partition("+")
    language, *rest = locale.split("-")
    script, region = (next((part for part in rest if (len(part) == 4) == is_script), "") for is_script in (True, False))
    given = {name: int(number) for name, number in (word.split("=") for word in numbers)}
    return Record({"locale": joined(language, region), **given}, script.encode(), variant.encode())


def layers_of(rows):
    """A layer of an id with these rows, with the values 1, 2 and so on."""
    records = [record_of(text[1:-1]) for text in rows.split()]
    return AndroidLayers([({NAME: [(record, (0x10, value)) for value, record in enumerate(records, 1)]}, None)])


def trials():
    """What is tried, what came out, and what is due."""
    for locale, rows, value in ROWS:
        yield f"{locale} {rows}", value_for(device_in(locale), layers_of(rows), NAME), f"value layer 0 decimal {value}"
    for locale, rows, due in DECISIONS:
        decided, _ = layers_of(rows).look_up(NAME, device_in(locale, **NUMBERS))
        yield f"{locale} {rows}", [told for _, told in decided], due
    for text, due in TEXTS:
        yield text, (fault_of(text), printed(locale_of(text))), (None, due)
    for text, due in WRONG_TEXTS:
        yield text, fault_of(text), due
    yield "a box", AndroidBox.set_of(BOX), BOX_IN_ORDER


def main():
    counts = [0, 0]
    for name, came, due in trials():
        counts[came != due] += 1
        if came != due:
            print(f"failed: {name}: {came}, due {due}")
    print(f"{counts[0]} passed, {counts[1]} failed")
    return int(counts[1] > 0)


if __name__ == "__main__":
    sys.exit(main())

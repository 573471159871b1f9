"""Random layers and boxes about locales as a phone compares them: with scripts, variants, and regions far and near. For the
scripts beside it."""
from typing import NamedTuple

from plain_locales import LIKELY_SCRIPTS, PARENTS, REPRESENTATIVES, AndroidBox, AndroidLayers, joined, likely, locale_of
from plain_rules import Record, parts
from random_apps import Apps
from random_cases import Case, CertifiedCase, Focus

LISTED = sorted({*LIKELY_SCRIPTS, *(locale for _, locale in PARENTS), *(locale for locale, _ in REPRESENTATIVES)})
"""The locales of which CLDR says something."""


class Family(NamedTuple):
    """Languages that a case is about, with scripts and regions, and how often they are drawn. A region may stand several times, so
    that more cases have it."""

    often: int
    languages: str
    scripts: str
    regions: str


FAMILIES = (
    Family(5, "en", "Latn Shaw", "US US US GB GB 001 150 AU NZ IN CA AT DE ES PR PH UM XA 419"),
    Family(5, "es", "Latn", "US US US MX MX MX 419 419 ES AR CL PH GQ 001"),
    Family(3, "pt", "Latn", "BR PT AO MZ MO CH US"),
    Family(4, "zh", "Hans Hant Bopo", "CN TW HK MO SG US MY"),
    Family(4, "sr", "Cyrl Latn", "RS ME BA XK RO"),
    Family(4, "tl fil", "Latn Tglg", "PH US SA"),
    Family(2, "ar", "Arab Latn", "EG SA MA DZ LY 015 001 XB"),
    Family(2, "az uz pa ku", "Latn Arab Cyrl Guru", "IR IQ AZ AF CN PK IN"),
    Family(2, "fr de nb no", "Latn", "FR CA CH BE DE AT NO"),
    Family(2, "xx qaa", "Latn Cyrl", "YY ZZ 419"),
)
OTHERS = 3
"""How often the languages are any of the listed ones."""

ODD_SCRIPTS = b"~~~A", b"~~~B", b"Zzzz", b"latn", b"La", b"\0\0\0A"
VARIANTS = b"polyton", b"1996", b"\0\0\0\0\0\0\0x"


def any_family(chance):
    languages = [parts(locale)[0] for locale in chance.sample(LISTED, 2)]
    scripts = ["Latn", *(likely(language, "") for language in languages)]
    return Family(OTHERS, " ".join(languages), " ".join(scripts), "US DE")


class LocaleFocus(Focus):
    """Rows and boxes that are mostly about the locales of one family, and about a few other coordinates."""

    options = "--locales", "android"
    box_of = AndroidBox
    layers_of = AndroidLayers

    def __init__(self, chance):
        super().__init__(chance)
        self.focus = [name for name in self.focus[-2:] if name != "locale"] + ["locale"]
        families = *FAMILIES, any_family(chance)
        (family,) = chance.choices(families, [family.often for family in families])
        self.languages, self.scripts, self.regions = (words.split() for words in family[1:])
        listed = [region for language, region in map(parts, LISTED) if language in self.languages and region]
        self.regions = self.some(self.regions, 5) + self.some(listed, 2)

    def some(self, regions, most):
        return self.chance.sample(regions, min(len(regions), most))

    def is_seldom(self, share):
        return self.chance.random() < share

    # ---- parts of a locale

    def language(self):
        return parts(self.chance.choice(LISTED))[0] if self.is_seldom(0.06) else self.chance.choice(self.languages)

    def region(self):
        if self.is_seldom(0.06):
            symbols, count = self.chance.choice((("ABCDEFGHIJKLMNOPQRSTUVWXYZ", 2), ("0123456789", 3)))
            return "".join(self.chance.choices(symbols, k=count))
        return self.chance.choice(self.regions)

    def locale(self):
        """A language, with a region or without one."""
        return joined(self.language(), "" if self.is_seldom(0.25) else self.region())

    # ---- rows

    def record(self):
        """A row of any locale, or of none, or, what no tool writes, of a region alone."""
        locale = "" if self.is_seldom(0.15) else f"-{self.region()}" if self.is_seldom(0.02) else self.locale()
        numbers = {**super().record().numbers, "locale": locale}
        variant = self.chance.choice(VARIANTS) if self.is_seldom(0.12) else b""
        computed = self.chance.choice((1, 1, 255)) if self.is_seldom(0.08) else 0
        return Record(numbers, self.script_of_row(locale), variant, int(self.is_seldom(0.05)), computed)

    def script_of_row(self, locale):
        """Its script, mostly none."""
        draw = self.chance.random()
        if draw < 0.04:
            return self.chance.choice(ODD_SCRIPTS)
        if draw < 0.2:
            return likely(*parts(locale)).encode()
        return self.chance.choice(self.scripts).encode() if draw < 0.4 else b""

    # ---- texts

    def text(self):
        """A locale as a device or a box has it."""
        if self.is_seldom(0.05):
            return ""
        language, region = parts(self.locale())
        return joined(language, self.chance.choice(self.scripts) if self.is_seldom(0.3) else "", region)

    def respelled(self, text):
        """A text of the same locale, in which the likely script may stand too."""
        language, region, script = locale_of(text)
        return joined(language, script, region) if script.isalpha() and self.is_seldom(0.3) else text

    def random_choice(self, name, size):
        if name != "locale":
            return super().random_choice(name, size)
        return [self.text() for _ in range(self.chance.randint(1, size))]


class LocaleCase(Case, LocaleFocus):
    """Layers, and a box, about locales."""


class CertifiedLocaleCase(CertifiedCase, LocaleCase):
    """The same with a certificate, in whose lists locales are spelled otherwise than in the box."""

    def __init__(self, chance, has_styles=False):
        super().__init__(chance, has_styles)
        self.goals = [(goal, [self.respelled_node(node) for node in nodes]) for goal, nodes in self.goals]

    def respelled_node(self, node):
        if "in" not in node:
            return node
        return {**node, "in": [self.respelled(value) if isinstance(value, str) else value for value in node["in"]]}


class LocaleApps(Apps, LocaleFocus):
    """Apps over one another, and a box, about locales."""

    def two_numbers(self, name):
        return (self.text(), self.text()) if name == "locale" else super().two_numbers(name)

"""A plain reading of the words that ask for resources. For the scripts beside it. A package is its number and its name."""
import re

ANDROID_TYPES = (
    "anim animator array attr ^attr-private bool color configVarying dimen drawable font fraction id integer interpolator layout macro"
    " menu mipmap navigation plurals raw string style styleable transition xml"
).split()
PACKAGE = r"(?:[^*,@/:]+:)"
TYPE = rf"(?:{PACKAGE}[^*,@/]+|[^*,@/:]+)"
XML_NAME = re.compile(rf"@{PACKAGE}?(?:{'|'.join(map(re.escape, ANDROID_TYPES))})/[^*,@]+")
NO_SIGN = rf"0x[0-9a-fA-F]{{8}}|{TYPE}/[^*,@]+"
ONE = rf"(?:{NO_SIGN}|{XML_NAME.pattern})"
SET = re.compile(rf"\*|{TYPE}/\*|{ONE}")
GOAL = re.compile(rf"{SET.pattern}|(?:{NO_SIGN})@{ONE}(?:,{ONE}){{0,63}}")
NUMBER = re.compile("0x[0-9a-fA-F]{2}")
BREAKS = {0x85, *range(0x2028, 0x202F), *range(0x2066, 0x206A)}
"""Characters that end lines or turn the direction of a text."""


class Missing(Exception):
    """The text of a word for which nothing is there."""


class Two(Exception):
    """The text of a name that two packages have, and its names in them."""


def parts_of(word):
    """The package that a name has, None where it has none, and its type and its entry."""
    head, entry = word.removeprefix("@").split("/", 1)
    package, colon, type_name = head.partition(":")
    if not colon:
        return None, (head, entry)
    return int(package, 16) if NUMBER.fullmatch(package) else package, (type_name, entry)


def is_asked(packages, package, number):
    """Whether resources of the package with this number are asked for, where a word has this one."""
    return (number, package) in packages if isinstance(package, str) else package in (None, number)


def is_plain(text):
    """Whether a text can be a part of a word, and neither that nor its line could be read otherwise."""
    return text != "" and not any(letter in '*,@ "\\\x7f' or letter < " " or ord(letter) in BREAKS for letter in text)


def package_text(package):
    return package if isinstance(package, str) else f"0x{package:02x}"


def package_told(packages, number):
    """The package of this number as a word has it: by the name of the first, where that tells it."""
    name = next((name for other, name in packages if other == number), None)
    is_word = name is not None and is_plain(name) and not set(name) & set(":/") and not NUMBER.fullmatch(name)
    return name if is_word and all(other == number for other, own in packages if own == name) else number


def package_before(packages, number):
    """The package of this number, as it stands before a type."""
    return f"{package_text(package_told(packages, number))}:"


def text_of(word):
    """A word as it is told: without `@`, and the number of a package in lower case."""
    if "/" not in word:
        return word.lower()
    package, names = parts_of(word)
    before = "" if package is None else f"{package_text(package)}:"
    return before + "/".join(names)


def check_packages(packages, word, numbers):
    """Raises why a word asks for nothing: these are the packages of what has its name."""
    if not numbers:
        raise Missing(text_of(word))
    other = next((number for number in numbers if number != numbers[0]), None)
    if other is not None:
        names = "/".join(parts_of(word)[1])
        told = [f"{package_before(packages, number)}{names}" for number in (numbers[0], other)]
        raise Two(f"{text_of(word)}: {', '.join(told)}")

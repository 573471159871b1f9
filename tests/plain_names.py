"""A plain reading of how resources are told by their names, as the words that ask for them. For the scripts beside it. A package
is its number and its name, and a label a name, `(number of the package, type, entry)`, or an id."""
from made_layers import joined_pairs
from make_strings import shown_character
from plain_certificates import id_text
from plain_words import BREAKS, is_plain, package_before

APP = 0x7F


def said_character(character, is_utf16):
    if ord(character) in BREAKS:
        return f"\\u{ord(character):04x}"
    return shown_character(character, is_utf16)


def said_text(text, is_utf16):
    """A text in quotes. Two surrogates that make a pair are the character."""
    return f'"{"".join(said_character(character, is_utf16) for character in joined_pairs(text))}"'


def is_bare_type(type_name, before):
    """Whether a type is read as it stands: a `/` would part it, and without a package a `:` would."""
    return is_plain(type_name) and "/" not in type_name and (before != "" or ":" not in type_name)


def label_text(packages, label):
    """An id, or a name as the word that asks for it; what would be read otherwise stands between quotes."""
    if isinstance(label, int):
        return id_text(label)
    number, type_name, entry_name = label
    are_apps = all(other == APP for other, _ in packages)
    before = "" if number == APP and are_apps else package_before(packages, number)
    type_text = type_name if is_bare_type(type_name, before) else said_text(type_name, False)
    return f"{before}{type_text}/{entry_name if is_plain(entry_name) else said_text(entry_name, False)}"


def named(packages, name, names):
    """An id, and the word for its names, where these are text."""
    return id_text(name) if None in names else f"{id_text(name)} {label_text(packages, (name >> 24, *names))}"

#!/usr/bin/env python3
"""Asks the program about boxes and certificates with `--locales android`, where the answers were worked out by hand: which texts
they have for locales, which of these are one value, how they are ordered and printed, and what phones in one locale load:

    worked_locales.py PROGRAM [JOBS]

The cases are such as worked_rows.py has, and what is printed of them is the same."""
from plain_locales import BOX, BOX_IN_ORDER, ROWS, WRONG_TEXTS, record_of
from worked_boxes import EMPTY, WRONG, but_on, changed_on, refused
from worked_certificates import PLAIN, accepted, among, certificate_of, checked, rejected, tree, value
from worked_certificates import refused as refused_certificate
from worked_made import locales, made, written
from worked_rows import ID, Case, check_groups, files_of, lines


def as_phone(case):
    """The same with the option, by which no row is set aside."""
    case.words[1:1] = ["--locales", "android"]
    out, *others = case.due
    case.due = out.replace("set-aside 1", "set-aside 0"), *others
    return case


# ---- texts

IN_LATIN = "locale=sr,script=4c61746e"


def of_texts():
    for text, fault in WRONG_TEXTS:
        yield as_phone(refused(locales(text), fault))
        yield as_phone(refused_certificate(certificate_of(tree({"bag": ID}, among("locale", text))), "Shape 0 1"))
    yield refused(locales("sr-Latn"), "FieldRange locale")
    yield refused_certificate(certificate_of(tree(among("locale", "sr-Latn"))), "Shape 0 0")
    # Values are counted as they are written.
    yield as_phone(refused(locales("zh-Hant-TW", *["zh-TW"] * 512), "TooMany locale"))
    yield as_phone(changed_on([""], PLAIN, "0 [] 2", locales("zh-Hant-TW", *["zh-TW"] * 511)))


def without(*left_out):
    return f"locale={','.join(text or 'none' for text in BOX_IN_ORDER if text not in left_out)}"


def of_order():
    # On all phones but those that one row matches.
    for row, left_out in (("locale=fil", ["fil"]), (IN_LATIN, ["sr-Latn-RS"]), ("locale=xx", ["xx", "xx-Latn"])):
        yield as_phone(changed_on([without(*left_out)], *but_on(row), locales(*BOX)))
    # The first in the order of a box.
    for texts, first in ((BOX[:-1], "en-Latn-XA"), (["sr-Latn-RS", "sr-RS"], "sr-RS"), (["sr-ME", "sr-Cyrl-ME"], "sr-Cyrl-ME")):
        told = rejected(0, "N8 OtherValue", f"device locale={first} density=160", "end value layer 0 decimal 1")
        yield as_phone(checked(PLAIN, locales(*texts), certificate_of(tree(WRONG)), told))


# ---- values

SERBIAN = f"0 [] 1\n0 [{IN_LATIN}] 3"
SERBIANS = locales("sr-Cyrl-RS", "sr-Latn-RS", "sr-Latn-ME", "sr-RS", "sr-ME")
"""Three phones. The first, in Serbia, reads Cyrillic letters, and the others Latin ones, as is likely in Montenegro."""
PARTED = among("locale", "sr-ME", "sr-Latn-RS"), value(3), value(1)

TESTS = [
    # The nodes of a tree for these, and what is said of it.
    (PARTED, accepted(3)),
    ([among("locale", "sr-Cyrl-RS"), value(1), value(3)], accepted(3)),
    ([among("locale", "sr-RS", "sr-Latn-ME", "sr-Latn-RS"), WRONG], rejected(0, EMPTY)),
    ([among("locale", "sr-Cyrl-ME", "sr-Latn", "sr"), WRONG], rejected(0, EMPTY)),
    (
        [among("locale", "sr-ME"), value(3), WRONG],
        rejected(2, "N6 MixedTrace", "first locale=sr-Latn-RS density=160", "second locale=sr-RS density=160"),
    ),
]


def of_values():
    for nodes, told in TESTS:
        yield as_phone(checked(SERBIAN, SERBIANS, certificate_of(tree(*nodes)), told))
    yield as_phone(made(SERBIAN, SERBIANS, None, [ID], written(tree(*PARTED))))


def of_rows():
    for locale, rows, number in ROWS:
        table = "\n".join(f"0 {record_of(text[1:-1]).text()} {place}" for place, text in enumerate(rows.split(), 1))
        box, leaf = locales(locale), tree(value(number))
        yield as_phone(checked(table, box, certificate_of(leaf), accepted(1)))
        yield as_phone(made(table, box, 1, [ID], written(leaf)))


# ---- surveys


def of_surveys():
    files = {**files_of([f"{SERBIAN}\n0 [locale=fr-CA] 2"]), "box": locales("fr", "sr-Latn")}
    for words in ("survey layers", "survey layers box"):
        yield as_phone(Case(words, lines(["qualifier locale rows 2 from fr-CA to sr"]), **files))


if __name__ == "__main__":
    check_groups([of_texts, of_order, of_values, of_rows, of_surveys])

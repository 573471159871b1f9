#!/usr/bin/env python3
"""Makes apks for plain_apk, by their number: zip files of Python's zipfile with a few small members, among them one table, none
or two, stored or deflated. Most are changed then: a field, a bit, bytes added or cut off, a header more or less. The first few
are edges: no members, as many as there may be, and one more; two directories, of two tables; two end records."""
import io
import random
import warnings
import zipfile
from typing import NamedTuple

END, HEADER, LOCAL, LOCATOR = b"PK\5\6", b"PK\1\2", b"PK\3\4", b"PK\6\7"
TABLE = "resources.arsc"
OTHERS = "AndroidManifest.xml", "classes.dex", "Resources.arsc", "res/resources.arsc", "resources.arsc.bak", "resources.ars"
END_FIELDS = {4: 2, 6: 2, 8: 2, 10: 2, 12: 4, 16: 4, 20: 2}
"""Of each field of an end record its place and its size."""
HEADER_FIELDS = {0: 4, 8: 2, 10: 2, 20: 4, 24: 4, 28: 2, 30: 2, 32: 2, 42: 4}
LOCAL_FIELDS = {0: 4, 6: 2, 8: 2, 18: 4, 22: 4, 26: 2, 28: 2}
MOST_COMMENT = 0xFFFF


class OneWay:
    """A file that can't be gone back in, so that zipfile writes sizes behind the members, and zeros in their local headers."""

    def __init__(self):
        self.written = bytearray()

    def write(self, some):
        self.written += some
        return len(some)

    def flush(self):
        pass


class Places(NamedTuple):
    """Where the records of a zip file start: the local header of each member, its header, and the end record."""

    local_headers: list
    headers: list
    end: int


def bytes_of(value, size):
    return (value % 256**size).to_bytes(size, "little")


def number(some, place, size):
    return int.from_bytes(some[place : place + size], "little")


def put(some, place, size, value):
    some[place : place + size] = bytes_of(value, size)


# ---- a zip file


def comment_of(chance):
    """A comment, which may have an end record in it: one that ends with it, or not."""
    kind = chance.randrange(12)
    if kind < 6:
        return b""
    if kind == 6 and chance.random() < 0.2:
        return END + bytes(MOST_COMMENT - 4)
    before, behind = chance.randbytes(chance.randrange(9)), chance.randbytes(chance.randrange(9))
    if kind < 9:
        return before + chance.choice((END, HEADER, LOCATOR)) + behind
    size = len(behind) + chance.choice((0, 0, 1, -1))
    return before + END + bytes(chance.choice((16, 15))) + bytes_of(size, 2) + behind


def names_of(chance):
    tables = chance.choice((0, 1, 1, 1, 1, 1, 1, 1, 2))
    names = [TABLE] * tables + chance.sample(OTHERS, chance.randrange(5))
    chance.shuffle(names)
    return names


def zip_of(chance):
    """A zip file, and where its records start."""
    out = OneWay() if chance.random() < 0.3 else io.BytesIO()
    methods = (zipfile.ZIP_STORED,) * 9 + (zipfile.ZIP_DEFLATED,)
    with zipfile.ZipFile(out, "w") as whole:
        for name in names_of(chance):
            member = zipfile.ZipInfo(name)
            member.compress_type = chance.choice(methods)
            member.extra = chance.choice((b"", b"", b"\xfe\xca\0\0", b"\x35\xd9\4\0" + chance.randbytes(4)))
            member.comment = chance.choice((b"", b"", b"", b"a comment", END))
            with warnings.catch_warnings():
                warnings.simplefilter("ignore")  # (zipfile warns of two members of one name)
                whole.writestr(member, chance.randbytes(chance.randrange(64)))
        whole.comment = comment_of(chance)
        local_headers = [member.header_offset for member in whole.infolist()]
    apk = bytearray(out.written if isinstance(out, OneWay) else out.getvalue())
    end = len(apk) - len(whole.comment) - 22
    headers, at = [], whole.start_dir
    while at < end:
        headers.append(at)
        at += 46 + sum(number(apk, at + size_at, 2) for size_at in (28, 30, 32))
    return apk, Places(local_headers, headers, end)


# ---- changes


def field_changed(chance, apk, places):
    """One field of a record is another number, or has one bit changed."""
    kinds = [(END_FIELDS, [places.end]), (HEADER_FIELDS, places.headers), (LOCAL_FIELDS, places.local_headers)]
    fields, starts = chance.choice([kind for kind in kinds if kind[1]])
    at, size = chance.choice(list(fields.items()))
    place = chance.choice(starts) + at
    old = number(apk, place, size)
    greatest = 256**size - 1
    put(apk, place, size, chance.choice((0, 1, old + 1, old - 1, greatest, old ^ 1 << chance.randrange(8 * size))))


def flagged(chance, apk, places):
    """A member has a flag more."""
    if places.headers:
        apk[chance.choice(places.headers) + 8 + chance.randrange(2)] |= 1 << chance.randrange(8)


def renamed(chance, apk, places):
    """The name of a member in the directory, or in its local header, has another letter."""
    starts = [at + 46 for at in places.headers] + [at + 30 for at in places.local_headers]
    if starts:
        apk[chance.choice(starts) + chance.randrange(5)] ^= 1 << chance.randrange(8)


def bit_changed(chance, apk, places):
    apk[chance.randrange(len(apk))] ^= 1 << chance.randrange(8)


def cut(chance, apk, places):
    size = chance.randrange(1, 1 + min(len(apk), 40))
    if chance.random() < 0.5:
        del apk[len(apk) - size :]
    else:
        del apk[:size]


def added(chance, apk, places):
    """Bytes in front, or behind."""
    some = chance.choice((b"\0", END, END + bytes(18), LOCATOR + bytes(16), chance.randbytes(chance.randrange(1, 40))))
    place = chance.choice((0, len(apk)))
    apk[place:place] = some


def put_before_end(chance, apk, places):
    """Bytes between the directory and the end record, which may count as the directory's."""
    some = chance.choice((LOCATOR + bytes(16), LOCATOR + bytes(17), bytes(20), HEADER, b"\0"))
    put(apk, places.end + 12, 4, number(apk, places.end + 12, 4) + chance.choice((0, len(some))))
    apk[places.end : places.end] = some


def put_before_directory(chance, apk, places):
    """Bytes between the members and the directory, as of an APK signature."""
    some = bytes(chance.randrange(1, 30))
    start = number(apk, places.end + 16, 4)
    put(apk, places.end + 16, 4, start + len(some))
    apk[start:start] = some


def header_twice(chance, apk, places):
    """A header stands once more at the end of the directory, which may be told."""
    if not places.headers:
        return
    at = chance.choice(places.headers)
    header = apk[at : at + 46 + sum(number(apk, at + size_at, 2) for size_at in (28, 30, 32))]
    more = chance.choice((0, 1, 1, 1))
    for count_at in (8, 10):
        put(apk, places.end + count_at, 2, number(apk, places.end + count_at, 2) + more)
    put(apk, places.end + 12, 4, number(apk, places.end + 12, 4) + chance.choice((0, len(header), len(header))))
    apk[places.end : places.end] = header


def end_record_moved(chance, apk, places):
    """The directory starts or ends a little earlier or later than it does."""
    at = chance.choice((12, 16))
    put(apk, places.end + at, 4, number(apk, places.end + at, 4) + chance.choice((-46, -1, 1, 46)))


def directory_in_part(chance, apk, places):
    """The end record says that the directory is some of its headers, one behind the other."""
    bounds = places.headers + [places.end]
    first, behind = sorted(chance.choices(range(len(bounds)), k=2))
    fields = {8: behind - first, 10: behind - first, 12: bounds[behind] - bounds[first], 16: bounds[first]}
    for at, value in fields.items():
        put(apk, places.end + at, END_FIELDS[at], value)


def larger(chance, apk, places):
    """A member has another size, up to the last that fits before the directory, or one more. Its local header may not have it."""
    if places.headers:
        member = chance.randrange(len(places.headers))
        header, local = places.headers[member], places.local_headers[member]
        start = local + 30 + number(apk, local + 26, 2) + number(apk, local + 28, 2)
        size = number(apk, places.end + 16, 4) - start + chance.choice((0, 0, 1, -1))
        local_fields = [local + at for at in (18, 22)] * (chance.random() < 0.7)
        for place in [header + 20, header + 24, *local_fields]:
            put(apk, place, 4, size)


CHANGES = (field_changed,) * 8 + (
    flagged, renamed, bit_changed, cut, added, put_before_end, put_before_directory, header_twice, end_record_moved,
    directory_in_part, larger,
)


# ---- cases


def without_table(count=0, directory=b"", before=b""):
    """A zip file of this directory, which has to list so many members."""
    end = END + bytes(4) + bytes_of(count, 2) * 2 + bytes_of(len(directory), 4) + bytes_of(len(before), 4) + bytes(2)
    return before + directory + end


def with_tables(*tables, comment=b""):
    """A zip file of these tables alone."""
    out = io.BytesIO()
    with warnings.catch_warnings(), zipfile.ZipFile(out, "w") as whole:
        warnings.simplefilter("ignore")  # (zipfile warns of two members of one name)
        for table in tables:
            whole.writestr(zipfile.ZipInfo(TABLE), table)
        whole.comment = comment
    return out.getvalue()


def two_directories(named):
    """A zip file with a directory for each of two tables. The end record says where that one starts, and the size of either.
    Where it says the first, zipfile takes the second, and all places to be by one size further back than they are told."""
    apk = bytearray(with_tables(bytes(60), b"another table"))
    end = len(apk) - 22
    start, size = number(apk, end + 16, 4), number(apk, end + 12, 4) // 2
    for at, value in {8: 1, 10: 1, 12: size, 16: start + named * size}.items():
        put(apk, end + at, END_FIELDS[at], value)
    if named == 0:
        put(apk, start + size + 42, 4, number(apk, start + size + 42, 4) - size)
    return bytes(apk)


def two_end_records():
    """A zip file whose comment is another one, with a byte behind, so that the last end record does not end the file."""
    return with_tables(b"one table", comment=with_tables(b"another one") + b"\0")


def edges():
    """No bytes; no members; one without a name; a locator before the end record; 65,534 members and 65,535; two directories,
    of which the first or the second is named; two end records."""
    nameless = HEADER + bytes(42)
    return [
        b"",
        without_table(),
        without_table(1, nameless),
        without_table(before=LOCATOR + bytes(16)),
        *(without_table(count, nameless * count) for count in (0xFFFE, 0xFFFF)),
        two_directories(0),
        two_directories(1),
        two_end_records(),
    ]


EDGES = edges()


def apk_of(number_of_case):
    """The bytes of a case. In some, several things are changed; the places are those before the first change."""
    if number_of_case < len(EDGES):
        return EDGES[number_of_case]
    chance = random.Random(number_of_case)
    apk, places = zip_of(chance)
    for _ in range(chance.choice((0, 1, 1, 1, 1, 2, 2, 3))):
        change = chance.choice(CHANGES)
        if apk:
            change(chance, apk, places)
    return bytes(apk)

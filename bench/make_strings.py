#!/usr/bin/env python3
"""Writes a table with many strings in many languages.

    make_strings.py [--utf16] [--expect] STRINGS LANGUAGES FILE

One package of four types. The type `string` has STRINGS entries, and a type chunk for each of the
languages, in which about one entry of eleven is missing. `plurals` and `array` hold bags, `dimen` plain
values. The texts are of several scripts, and of lengths from 0 up. From 200 strings on, one is the
longest that a UTF-8 pool can hold, or one that needs the long form of lengths in a UTF-16 pool.

--utf16 writes pools of UTF-16 strings, in place of UTF-8. --expect also prints what `restool dump FILE`
has to print; it is made from the lists that the table is made from, and not from the table's bytes.
"""
import argparse
import struct
import sys
from collections import namedtuple

STRING_POOL, TABLE, PACKAGE, TYPE, TYPE_SPEC = 0x0001, 0x0002, 0x0200, 0x0201, 0x0202
NO_ENTRY = 0xFFFFFFFF
UTF8_POOL = 0x100
PACKAGE_ID = 0x7F
PACKAGE_NAME = "com.example.strings"
PACKAGE_HEADER_SIZE = 288
TYPE_HEADER_SIZE = 72

# Kinds of values.
REFERENCE, STRING, DIMENSION, DECIMAL = 0x01, 0x03, 0x05, 0x10

# Flags of a type spec: what the values of an entry differ by, and that others may use it.
BY_DENSITY, BY_LOCALE, PUBLIC = 0x0100, 0x0004, 0x40000000

# Words of each script, to make texts of.
LATIN = "the settings of this device cannot be changed while it is locked open file über größe déjà Ångström".split()
GREEK = "οι ρυθμίσεις της συσκευής δεν αλλάζουν όταν είναι κλειδωμένη αρχείο".split()
CYRILLIC = "настройки этого устройства нельзя изменить пока оно заблокировано файл".split()
ARABIC = "لا يمكن تغيير إعدادات هذا الجهاز أثناء قفله ملف".split()
HEBREW = "אי אפשר לשנות את ההגדרות של המכשיר כשהוא נעול קובץ".split()
HINDI = "इस डिवाइस की सेटिंग लॉक होने पर नहीं बदली जा सकती फ़ाइल".split()
THAI = "ไม่สามารถ เปลี่ยน การตั้งค่า ของ อุปกรณ์ นี้ ขณะ ล็อก ไฟล์".split()
HAN = "設定 装置 锁定 文件 無法 更改 打开 語言".split()
KOREAN = "기기가 잠겨 있는 동안 설정을 변경할 수 없습니다 파일".split()
GEORGIAN = "მოწყობილობის პარამეტრების შეცვლა შეუძლებელია ფაილი".split()

LANGUAGES = [
    ("en", LATIN), ("de", LATIN), ("fr", LATIN), ("ru", CYRILLIC), ("ja", HAN), ("ar", ARABIC),
    ("hi", HINDI), ("el", GREEK), ("iw", HEBREW), ("th", THAI), ("ko", KOREAN), ("ka", GEORGIAN),
    ("zh-CN", HAN), ("zh-TW", HAN), ("pt-BR", LATIN), ("pt-PT", LATIN), ("es", LATIN), ("es-419", LATIN),
    ("fil", LATIN), ("sr", CYRILLIC), ("uk", CYRILLIC), ("bg", CYRILLIC), ("fa", ARABIC), ("ur", ARABIC),
    ("mr", HINDI), ("ne", HINDI), ("sv", LATIN), ("fi", LATIN), ("pl", LATIN), ("tr", LATIN),
    ("nl", LATIN), ("it", LATIN), ("da", LATIN), ("nb", LATIN), ("cs", LATIN), ("hu", LATIN),
    ("fr-CA", LATIN), ("en-GB", LATIN), ("mk", CYRILLIC), ("kk", CYRILLIC),
]

# Texts that are not printed as they stand. The last has half of a pair of surrogates.
ODD_TEXTS = ["", 'say "yes" \\ "no"', "a\nb\tc\x01\x7f", "smile 😀 and \U0001F468\u200d\U0001F680", "half \ud83d of it"]

Value = namedtuple("Value", "kind word text")
Bag = namedtuple("Bag", "parent rows")
Config = namedtuple("Config", "shown record")
# A type's keys and flags are those of its entries; a chunk is a configuration and the entries' cells.
Type = namedtuple("Type", "name keys flags chunks")


class Pool:
    """Texts, each of which stands once."""

    def __init__(self):
        self.indexes = {}

    def index(self, text):
        return self.indexes.setdefault(text, len(self.indexes))

    def value(self, text):
        return Value(STRING, self.index(text), text)


# ---- What the table holds


def packed(letters, first):
    """Two bytes of a language or a region: its two letters, or three letters or digits."""
    if len(letters) == 2:
        return letters.encode()
    low, middle, high = (ord(letter) - ord(first) for letter in letters)
    return bytes([0x80 | high << 2 | middle >> 3, (middle & 7) << 5 | low])


def config(shown, locale="", density=0, sdk=0):
    language, _, region = locale.partition("-")
    two = packed(language, "a") if language else b"\0\0"
    four = two + (packed(region, "0") if region else b"\0\0")
    return Config(shown, struct.pack("<I4x4s2xH8xH26x", 52, four, density, sdk))


DEFAULT = config("[]")


def text_of(words, number, language):
    """The text of a string: one of twelve is long, some are odd, and many have a number in them."""
    if number % 97 == language:
        return ODD_TEXTS[number % len(ODD_TEXTS)]
    count = 30 + number % 17 if number % 12 == 5 else 1 + number % 6
    start = number * 7 + language
    text = " ".join(words[(start + place) % len(words)] for place in range(count))
    return f"{text} {number}" if number % 5 else text


def is_missing(number, language):
    return (number * 3 + language) % 11 == 0


def string_cell(pool, words, number, language):
    if is_missing(number, language):
        return None
    if number % 50 == 49:
        return Value(REFERENCE, PACKAGE_ID << 24 | 1 << 16 | number - 1, None)
    return pool.value(text_of(words, number, language))


def string_type(pool, count, languages):
    chunks = []
    for language, (locale, words) in enumerate(languages):
        cells = [string_cell(pool, words, number, language) for number in range(count)]
        chunks.append((config(f"[locale={locale}]", locale), cells))
    keys = [f"string_{number}" for number in range(count)]
    flags = [BY_LOCALE | (PUBLIC if number % 4 == 0 else 0) for number in range(count)]
    return Type("string", keys, flags, chunks)


def plurals_type(pool, count, languages):
    """A bag for each number: how to name one, and how to name others."""
    chunks = []
    for language, (locale, words) in enumerate(languages):
        cells = []
        for number in range(count):
            one = pool.value(f"%d {words[number % len(words)]}")
            other = pool.value(f"%d {words[(number + 1) % len(words)]}, {number}")
            cells.append(Bag(0, [(0x01000004, other), (0x01000006, one)]))
        chunks.append((config(f"[locale={locale}]", locale), cells))
    keys = [f"plurals_{number}" for number in range(count)]
    return Type("plurals", keys, [BY_LOCALE] * count, chunks)


def array_type(pool, count, longest):
    """Bags of 0 to 4 rows, each but the first with the one before it as its parent."""
    cells = []
    for number in range(count):
        parent = PACKAGE_ID << 24 | 3 << 16 | number - 1 if number > 0 else 0
        values = [
            pool.value(f"item {number}"),
            Value(DECIMAL, number, None),
            Value(REFERENCE, PACKAGE_ID << 24 | 1 << 16 | number, None),
            pool.value("x" * longest if number == 3 else "item"),
        ]
        rows = [(0x02000000 + place, values[place]) for place in range((number + 1) % 5)]
        cells.append(Bag(parent, rows))
    keys = [f"array_{number}" for number in range(count)]
    return Type("array", keys, [0] * count, [(DEFAULT, cells)])


def dimen_type(count):
    """Sizes in dp, and one value that names a string that the table does not have."""
    cells = [Value(DIMENSION, number << 8 | 1, None) for number in range(count - 1)]
    cells.append(Value(STRING, 0xFFFFFFFF, None))
    dense = config("[density=320,sdk=4]", density=320, sdk=4)
    few = [cell if number % 3 == 0 else None for number, cell in enumerate(cells)]
    keys = [f"dimen_{number}" for number in range(count)]
    return Type("dimen", keys, [BY_DENSITY] * count, [(DEFAULT, cells), (dense, few)])


# ---- The bytes of it


def chunk(kind, header, body):
    size = 8 + len(header)
    return struct.pack("<HHI", kind, size, size + len(body)) + header + body


def padded(some):
    return some + b"\0" * (-len(some) % 4)


def units_of(text):
    return text.encode("utf-16-le", "surrogatepass")


def length_in_bytes(length):
    return bytes([length]) if length < 0x80 else bytes([0x80 | length >> 8, length & 0xFF])


def length_in_units(length):
    if length < 0x8000:
        return struct.pack("<H", length)
    return struct.pack("<HH", 0x8000 | length >> 16, length & 0xFFFF)


def utf8_string(text):
    some = text.encode("utf-8", "surrogatepass")
    return length_in_bytes(len(units_of(text)) // 2) + length_in_bytes(len(some)) + some + b"\0"


def utf16_string(text):
    units = units_of(text)
    return length_in_units(len(units) // 2) + units + b"\0\0"


def pool_chunk(texts, utf16):
    strings = [utf16_string(text) if utf16 else utf8_string(text) for text in texts]
    offsets, end = [], 0
    for string in strings:
        offsets.append(end)
        end += len(string)
    flags = 0 if utf16 else UTF8_POOL
    header = struct.pack("<5I", len(strings), 0, flags, 28 + 4 * len(strings), 0)
    return chunk(STRING_POOL, header, struct.pack(f"<{len(offsets)}I", *offsets) + padded(b"".join(strings)))


def value_bytes(value):
    return struct.pack("<HBBI", 8, 0, value.kind, value.word)


def entry_bytes(cell, key):
    if isinstance(cell, Value):
        return struct.pack("<HHI", 8, 0, key) + value_bytes(cell)
    head = struct.pack("<HHIII", 16, 1, key, cell.parent, len(cell.rows))
    return head + b"".join(struct.pack("<I", name) + value_bytes(value) for name, value in cell.rows)


def type_chunk(type_id, record, cells, keys):
    offsets, entries, end = [], [], 0
    for cell, key in zip(cells, keys):
        if cell is None:
            offsets.append(NO_ENTRY)
        else:
            offsets.append(end)
            entries.append(entry_bytes(cell, key))
            end += len(entries[-1])
    count = len(cells)
    header = struct.pack("<BBHII", type_id, 0, 0, count, TYPE_HEADER_SIZE + 4 * count) + record
    return chunk(TYPE, header, struct.pack(f"<{count}I", *offsets) + b"".join(entries))


def type_chunks(type_id, given, keys):
    count = len(given.flags)
    yield chunk(TYPE_SPEC, struct.pack("<BBHI", type_id, 0, 0, count), struct.pack(f"<{count}I", *given.flags))
    indexes = [keys.index(key) for key in given.keys]
    for described, cells in given.chunks:
        yield type_chunk(type_id, described.record, cells, indexes)


def package_chunk(types, utf16):
    keys = Pool()
    chunks = [made for place, given in enumerate(types) for made in type_chunks(place + 1, given, keys)]
    type_names = pool_chunk([given.name for given in types], utf16)
    key_names = pool_chunk(keys.indexes, utf16)
    name = units_of(PACKAGE_NAME).ljust(256, b"\0")
    keys_start = PACKAGE_HEADER_SIZE + len(type_names)
    pools = struct.pack("<5I", PACKAGE_HEADER_SIZE, len(types), keys_start, len(keys.indexes), 0)
    header = struct.pack("<I", PACKAGE_ID) + name + pools
    return chunk(PACKAGE, header, type_names + key_names + b"".join(chunks))


def table_bytes(types, pool, utf16):
    body = pool_chunk(pool.indexes, utf16) + package_chunk(types, utf16)
    return chunk(TABLE, struct.pack("<I", 1), body)


# ---- What `restool dump` has to print


def shown_character(character, utf16):
    code = ord(character)
    if character in '"\\':
        return "\\" + character
    if code < 0x20 or code == 0x7F:
        return f"\\x{code:02x}"
    if 0xD800 <= code <= 0xDFFF and utf16:
        return f"\\u{code:04x}"
    if 0xD800 <= code <= 0xDFFF:
        return "".join(f"\\x{byte:02x}" for byte in character.encode("utf-8", "surrogatepass"))
    return character


def shown(text, utf16):
    if text.isprintable() and '"' not in text and "\\" not in text:
        return f'"{text}"'
    return '"' + "".join(shown_character(character, utf16) for character in text) + '"'


def value_text(value, utf16):
    if value.kind == REFERENCE:
        return f"@0x{value.word:08x}"
    if value.kind == STRING:
        return f"string {value.word} " + ("!NoSuch" if value.text is None else shown(value.text, utf16))
    if value.kind == DIMENSION:
        return f"dimension {value.word >> 8}/2^0 dp"
    return f"decimal {value.word}"


def row_lines(start, cell, utf16):
    if isinstance(cell, Value):
        return [f"{start} {value_text(cell, utf16)}\n"]
    lines = [f"{start} bag parent 0x{cell.parent:08x} count {len(cell.rows)}\n"]
    return lines + [f"    0x{name:08x} {value_text(value, utf16)}\n" for name, value in cell.rows]


def dump_lines(types, utf16):
    yield f"package 0x{PACKAGE_ID:02x} {shown(PACKAGE_NAME, utf16)}\n"
    for place, given in enumerate(types):
        for described, cells in given.chunks:
            for entry, cell in enumerate(cells):
                if cell is not None:
                    names = f'"{given.name}"/"{given.keys[entry]}"'
                    resource = f"0x{PACKAGE_ID << 24 | place + 1 << 16 | entry:08x}"
                    start = f"  {resource} {names} flags 0x{given.flags[entry]:08x} {described.shown}"
                    yield from row_lines(start, cell, utf16)


def words():
    parser = argparse.ArgumentParser(description="Writes a table with many strings in many languages.")
    parser.add_argument("--utf16", action="store_true", help="write pools of UTF-16 strings, in place of UTF-8")
    parser.add_argument("--expect", action="store_true", help="print what `restool dump FILE` has to print")
    parser.add_argument("strings", type=int, help="how many strings, 1 to 65536")
    parser.add_argument("languages", type=int, help=f"in how many languages, 1 to {len(LANGUAGES)}")
    parser.add_argument("file", help="where the table is written")
    given = parser.parse_args()
    if not 1 <= given.strings <= 65536 or not 1 <= given.languages <= len(LANGUAGES):
        parser.error("too few or too many strings or languages")
    return given


def main():
    given = words()
    pool, languages = Pool(), LANGUAGES[: given.languages]
    few = max(1, given.strings // 50)
    types = [
        string_type(pool, given.strings, languages),
        plurals_type(pool, few, languages),
        array_type(pool, few, 40000 if given.utf16 else 32767),
        dimen_type(few),
    ]
    with open(given.file, "wb") as out:
        out.write(table_bytes(types, pool, given.utf16))
    if given.expect:
        sys.stdout.reconfigure(encoding="utf-8", newline="\n")
        sys.stdout.writelines(dump_lines(types, given.utf16))


if __name__ == "__main__":
    main()

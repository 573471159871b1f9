"""A plain reading of what a survey of layers finds. For check_survey.py.

A table is read from its bytes, without checks. Of one that is refused only the chunks are looked at."""
import struct

from plain_rules import COORDS

POOL, TABLE, PACKAGE, TYPE, SPEC, LIBRARY, OVERLAYABLE, STAGED = 1, 2, 0x200, 0x201, 0x202, 0x203, 0x204, 0x206
SPARSE, SHORT = 1, 2
NO_ENTRY = 0xFFFFFFFF

FILIPINO = ("tl", "fil")
PSEUDO = {"en": "XA", "ar": "XB"}
OF_SCRIPTS = "az ha kk ku ky man mn ms pa rif sd sr tg ug unr uz yue zh".split()

NAMES = (
    "16-bit-offsets type-flags gender newer-qualifier compact-entry entry-flags library overlayable staged-alias "
    "unknown-chunk dynamic-reference dynamic-attribute broken-string set-aside locale box-locale"
).split()
INFORM = ("overlayable", "set-aside", "locale")
OF_LOCALES = "set-aside", "locale", "box-locale"
"""What is told only of rows that a phone may compare otherwise by their locales."""


def number(form, bytes_, at):
    """The number at a place, or none where the bytes end before."""
    size = struct.calcsize(form)
    return struct.unpack_from("<" + form, bytes_, at)[0] if at + size <= len(bytes_) else None


class Chunk:
    def __init__(self, table, place):
        self.kind, header, size = struct.unpack_from("<HHI", table, place)
        self.place = place
        self.whole = table[place : place + size]
        self.header, self.body = self.whole[:header], self.whole[header:]

    def children(self, table):
        at, end = self.place + len(self.header), self.place + len(self.whole)
        while at + 8 <= end:
            child = Chunk(table, at)
            yield child
            at += len(child.whole)


class Strings:
    """The strings of a pool, of which some cannot be read; none without a pool."""

    def __init__(self, chunk):
        self.count, self.is_utf8 = 0, False
        if chunk is not None:
            self.count, styles, flags, start, styles_start = struct.unpack_from("<5I", chunk.header, 8)
            self.is_utf8, self.offsets = bool(flags & 0x100), chunk.body
            self.bytes = (chunk.whole[:styles_start] if styles else chunk.whole)[start:]

    def length(self, at, unit):
        """The length at a place, or none where the bytes end before; and the place behind it."""
        form, bits = ("B", 7) if unit == 1 else ("H", 15)
        first, second = number(form, self.bytes, at), number(form, self.bytes, at + unit)
        if first is None or not first >> bits:
            return first, at + unit
        return (None if second is None else (first - (1 << bits) << bits + 1) + second), at + 2 * unit

    def get(self, index):
        """The bytes of a string, or none where it cannot be read."""
        if index >= self.count:
            return None
        at, unit = number("I", self.offsets, 4 * index), 1 if self.is_utf8 else 2
        count, at = self.length(at, unit)
        if self.is_utf8 and count is not None:
            count, at = self.length(at, unit)
        if count is None or at + unit * count + unit > len(self.bytes):
            return None
        end = at + unit * count
        return None if any(self.bytes[end : end + unit]) else self.bytes[at:end]

    def name(self, index):
        """The text of a string, where it is one; in UTF-8 two surrogates may be a character."""
        found = None if index < 0 else self.get(index)
        try:
            if found is not None and self.is_utf8:
                found = found.decode("utf-8", "surrogatepass").encode("utf-16-le", "surrogatepass")
            return None if found is None else found.decode("utf-16-le")
        except UnicodeError:
            return None


def part(bytes_, base):
    """Two letters, or three that are packed; none where both bytes are zero."""
    first, second = bytes_
    if first < 128:
        return "" if bytes_ == b"\0\0" else chr(first) + chr(second)
    return "".join(chr(ord(base) + n) for n in (second & 31, second >> 5 | (first & 3) << 3, first >> 2 & 31))


def locale_text(language, region, bytes_):
    """The text of a locale, or its bytes where it is not of the grammar."""
    is_language = language == "" or len(language) in (2, 3) and all("a" <= letter <= "z" for letter in language)
    letters = "ABCDEFGHIJKLMNOPQRSTUVWXYZ" if len(region) == 2 else "0123456789"
    if not is_language or not all(letter in letters for letter in region):
        return "x" + bytes_.hex()
    return language + (f"-{region}" if region else "")


class Config:
    def __init__(self, chunk):
        size = number("I", chunk.header, 20)
        bytes_ = chunk.header[20 : 20 + size].ljust(64, b"\0")
        u16 = lambda at: struct.unpack_from("<H", bytes_, at)[0]
        self.language, self.region = part(bytes_[8:10], "a"), part(bytes_[10:12], "0")
        self.locale = locale_text(self.language, self.region, bytes_[8:12])
        self.set_aside = any(bytes_[36:48])
        self.gender, self.newer = bytes_[19] != 0, any(chunk.header[20 : 20 + size][50:])
        layout, mode, layout2, color, hidden = bytes_[28], bytes_[29], bytes_[48], bytes_[49], bytes_[18]
        self.numbers = {
            "mcc": u16(4),
            "mnc": u16(6),
            "locale": struct.unpack_from(">I", bytes_, 8)[0],
            "layoutDirection": layout >> 6,
            "smallestWidthDp": u16(30),
            "widthDp": u16(32),
            "heightDp": u16(34),
            "screenSize": layout & 15,
            "long": layout >> 4 & 3,
            "round": layout2 & 3,
            "wideColor": color & 3,
            "hdr": color >> 2 & 3,
            "orientation": bytes_[12],
            "uiType": mode & 15,
            "night": mode >> 4 & 3,
            "density": u16(14),
            "touchscreen": bytes_[13],
            "keysHidden": hidden & 3,
            "navHidden": hidden >> 2 & 3,
            "keyboard": bytes_[16],
            "navigation": bytes_[17],
            "width": u16(20),
            "height": u16(22),
            "sdk": u16(24),
            "minor": u16(26),
        }

    def differs_at(self, device):
        """Whether AOSP may compare it otherwise at a device of this locale, a text."""
        language, _, region = device.partition("-")
        if not self.language:
            return self.set_aside
        if self.language != language:
            return self.language in FILIPINO and language in FILIPINO
        if self.set_aside:
            return True
        if self.region:
            return self.region != region
        return region != "" and (language in OF_SCRIPTS or PSEUDO.get(language) == region)

    def differs_somewhere(self):
        return self.set_aside or (self.language != "" and (self.region != "" or self.language in (*FILIPINO, *OF_SCRIPTS, *PSEUDO)))


def offset_of(chunk, position, short_ones):
    """Of the entry at a position: its index, and where it stands behind the start of the entries."""
    flags = chunk.header[9]
    if flags & SPARSE:
        index, words = number("H", chunk.body, 4 * position), number("H", chunk.body, 4 * position + 2)
        return index, None if words is None else 4 * words
    if flags & SHORT and short_ones:
        words = number("H", chunk.body, 2 * position)
        return position, None if words in (None, 0xFFFF) else 4 * words
    offset = number("I", chunk.body, 4 * position)
    return position, None if offset == NO_ENTRY else offset


def values_of(chunk, at):
    """The kinds and words of the values of the entry at a place."""
    size, flags = struct.unpack_from("<HH", chunk.whole, at)
    places = [at + size + 12 * n + 4 for n in range(number("I", chunk.whole, at + 12))] if flags & 1 else [at + size]
    return [(chunk.whole[place + 3], number("I", chunk.whole, place + 4)) for place in places]


class Names:
    """The names of the types and entries of a package."""

    def __init__(self, bytes_, package):
        types, _, keys = struct.unpack_from("<3I", package.header, 268)
        self.offset = number("I", package.header, 284) if len(package.header) == 288 else 0
        self.types, self.keys = (Strings(Chunk(bytes_, package.place + at) if at else None) for at in (types, keys))

    def of(self, type_id, key):
        return self.types.name(type_id - 1 - self.offset), self.keys.name(key)


class Table:
    """The notes of a table, each a name and where it is, and the configurations and names of its rows, which it has where it
    opens."""

    def __init__(self, bytes_, locales, opens=True):
        self.notes, self.configs, self.locales, self.opens = [], [], locales, opens
        self.row_notes, self.names = [], []
        first = Chunk(bytes_, 0)
        children = list(first.children(bytes_)) if first.kind == TABLE else []
        self.strings = Strings(next((child for child in children if child.kind == POOL), None))
        for child in children:
            if child.kind == PACKAGE:
                self.read_package(bytes_, child)
            elif child.kind != POOL:
                self.notes.append(("unknown-chunk", child.place))

    def read_package(self, bytes_, package):
        counts, names = {}, Names(bytes_, package)
        for child in package.children(bytes_):
            if child.kind == TYPE:
                self.read_type(child, number("I", package.header, 8), counts, names)
            elif child.kind == SPEC:
                counts[child.header[8]] = number("I", child.header, 12)
            elif child.kind != POOL:
                name = {LIBRARY: "library", OVERLAYABLE: "overlayable", STAGED: "staged-alias"}.get(child.kind, "unknown-chunk")
                self.notes.append((name, child.place))

    def read_type(self, chunk, package_id, counts, names):
        flags, config = chunk.header[9], Config(chunk)
        self.notes += [("16-bit-offsets", chunk.place)] * bool(flags & SHORT) + [("type-flags", chunk.place)] * bool(flags & ~3)
        self.notes += [("gender", chunk.place)] * config.gender + [("newer-qualifier", chunk.place)] * config.newer
        start, type_id = number("I", chunk.header, 16), chunk.header[8]
        for position in range(number("I", chunk.header, 12)):
            _, offset = offset_of(chunk, position, True)
            entry_flags = None if offset is None else number("H", chunk.whole, start + offset + 2)
            if entry_flags is not None and entry_flags & 8:
                self.notes.append(("compact-entry", chunk.place))
            elif entry_flags is not None and entry_flags >> 4:
                self.notes.append(("entry-flags", chunk.place))
            index, offset = offset_of(chunk, position, False) if self.opens else (None, None)
            if offset is not None and index < min(counts[type_id], 65536):
                id_ = package_id << 24 | type_id << 16 | index
                self.read_row(id_, config, values_of(chunk, start + offset))
                name = names.of(type_id, number("I", chunk.whole, start + offset + 4))
                self.names += [((package_id, *name), id_)] * (None not in name)

    def read_row(self, id_, config, values):
        self.configs.append(config)
        kinds = [kind for kind, _ in values]
        found = {
            "dynamic-reference": 7 in kinds,
            "dynamic-attribute": 8 in kinds,
            "broken-string": any(kind == 3 and self.strings.get(word) is None for kind, word in values),
            "set-aside": config.set_aside,
            "locale": config.differs_somewhere(),
            "box-locale": any(config.differs_at(locale) for locale in self.locales),
        }
        self.row_notes += [(name, f"0x{id_:08x}") for name, is_so in found.items() if is_so]

    def lines(self, layer, names=NAMES):
        for name in names:
            places = [place for other, place in self.notes + self.row_notes if other == name]
            if places:
                yield f"{'note' if name in INFORM else 'warning'} layer {layer} {name} {len(places)} first {places[0]}"


def is_unknown(said):
    """Whether what a box says of a coordinate is unknown alone."""
    if said is None:
        return True
    return said == {"from": 0, "to": 0} or (isinstance(said, list) and not any(said))


def shared_lines(bases):
    """The line of the ids that have a name which stands for another one, of tables that give names."""
    names, stands = [named for table in bases for named in table.names], {}
    for name, id_ in names:
        stands.setdefault(name, id_)
    shared = {id_ for name, id_ in names if stands[name] != id_}
    return [f"warning shared-names {len(shared)} first 0x{min(shared):08x}"] if shared else []


def survey_of(tables, box, are_bases, as_phone=False):
    """The lines of a survey of the bytes of tables, with a box as it is written, or without one; and the status. Some of the
    tables are overlays. Locales may be compared as a phone does."""
    names = [name for name in NAMES if not as_phone or name not in OF_LOCALES]
    locales = [] if box is None else box.get("locale", [""])
    read = [Table(table, locales) for table in tables]
    lines = [line for layer, table in enumerate(read) for line in table.lines(layer, names)]
    lines += shared_lines([table for table, is_base in zip(read, are_bases) if is_base])
    lacking = []
    for name in COORDS:
        given = [config for table in read for config in table.configs if config.numbers[name]]
        if given:
            least, greatest = (ends(given, key=lambda config: config.numbers[name]) for ends in (min, max))
            said = (f"{config.locale if name == 'locale' else config.numbers[name]}" for config in (least, greatest))
            lines.append(f"qualifier {name} rows {len(given)} from {' to '.join(said)}")
            if box is not None and is_unknown(box.get(name)):
                lacking.append(f"warning box lacks {name}")
    lines += lacking
    return lines, int(any(line.startswith("warning") for line in lines))


def survey_of_refused(table, message):
    """The same of a table that is refused with this message: where nothing of its chunks is a warning, the message alone."""
    lines = list(Table(table, [], opens=False).lines(0))
    if any(line.startswith("warning") for line in lines):
        return [*lines, message], 1
    return [message], 3

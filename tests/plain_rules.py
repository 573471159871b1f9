"""A plain reading of the rules, for one device at a time: which row it selects for an id, and why. For the scripts
beside it, which hold what restool says against it.

A device is a dictionary of numbers, with a text at `locale`; what it leaves out is 0 or no text."""
from plain_bags import Attribute, Bag, look_up_bag, slot_of

REFERENCES = 20

COORDS = {
    "mcc": 65535,
    "mnc": 65535,
    "locale": None,
    "layoutDirection": 3,
    "smallestWidthDp": 65535,
    "widthDp": 65535,
    "heightDp": 65535,
    "screenSize": 15,
    "long": 3,
    "round": 3,
    "wideColor": 3,
    "hdr": 3,
    "orientation": 255,
    "uiType": 15,
    "night": 3,
    "density": 65535,
    "touchscreen": 255,
    "keysHidden": 3,
    "navHidden": 3,
    "keyboard": 255,
    "navigation": 255,
    "width": 65535,
    "height": 65535,
    "sdk": 65535,
    "minor": 65535,
}
"""Each coordinate with the greatest number of its field, in their order."""

SIZES = ("smallestWidthDp", "widthDp", "heightDp", "screenSize", "width", "height", "sdk")


class Record:
    """The configuration of a row."""

    def __init__(self, given, script=b"", variant=b"", spare=0, computed=0):
        self.numbers = {name: given.get(name, 0) for name in COORDS if name != "locale"}
        self.locale = given.get("locale", "")
        self.script = script.ljust(4, b"\0") if any(script) else b""
        self.variant = variant.ljust(8, b"\0") if any(variant) else b""
        self.spare = spare
        """Byte 19, which is compared in equal records alone."""
        self.computed = computed
        """Byte 52, not 0 where the script was computed. Only a phone looks at it, and in equal records it does not count."""
        self.named = [name for name, _ in given_of(self.numbers, self.locale)]

    def __getitem__(self, name):
        return self.numbers[name]

    def is_same(self, other):
        return {**vars(self), "computed": 0} == {**vars(other), "computed": 0}

    def text(self):
        names = [f"{name}={value}" for name, value in given_of(self.numbers, self.locale)]
        names += [f"script={self.script.hex()}"] if self.script else []
        names += [f"variant={self.variant.hex()}"] if self.variant else []
        return f"[{','.join(names)}]"


def given_of(numbers, locale):
    """What is not 0, in the order of the coordinates."""
    for name in COORDS:
        value = locale if name == "locale" else numbers.get(name, 0)
        if value:
            yield name, value


def device_text(device):
    return " ".join(f"{name}={value}" for name, value in given_of(device, device.get("locale", "")))


def parts(locale):
    language, _, region = locale.partition("-")
    return language, region


# ---- does a row match


def suits(name, record, device):
    """Whether the row's number suits the device's."""
    if name == "locale":
        language, region = parts(record.locale)
        own_language, own_region = parts(device["locale"])
        return not record.locale or (language == own_language and region in ("", own_region))
    a, d = record[name], device[name]
    if a == 0 or name == "density":
        return True
    if name in SIZES:
        return a <= d
    return a == d or (name == "keysHidden" and a == 1 and d == 3)


def first_mismatch(record, device, suits=suits):
    """The first number of a row that does not suit the device, None where all do."""
    return next((f"no match {name}" for name in record.named if not suits(name, record, device)), None)


def mismatch(record, device):
    """Why a row does not match, None where it does."""
    return "set aside" if record.script or record.variant else first_mismatch(record, device)


# ---- which of two rows is better; a rule that does not decide answers None


def specified(name):
    return lambda a, b, d: None if a[name] == b[name] or d[name] == 0 else a[name] != 0


def larger(name):
    return lambda a, b, d: None if a[name] == b[name] or d[name] == 0 else a[name] > b[name]


def locale_rank(record):
    return sum(1 for part in parts(record.locale) if part)


def more_specific_locale(a, b, d):
    x, y = locale_rank(a), locale_rank(b)
    return None if x == y else x > y


def larger_smallest_width(a, b, d):
    x, y = a["smallestWidthDp"], b["smallestWidthDp"]
    return None if x == y else x > y


def less_unused(first, second):
    def rule(a, b, d):
        x, y = (sum(d[name] - record[name] for name in (first, second) if d[name]) for record in (a, b))
        return None if x == y else x < y

    return rule


def screen_size(a, b, d):
    x, y, size = a["screenSize"], b["screenSize"], d["screenSize"]
    if x == y or size == 0:
        return None
    if size >= 2 and (x or 2) != (y or 2):
        return (x or 2) > (y or 2)
    return x != 0 if size >= 2 else x > y


def density(a, b, d):
    x, y, own = a["density"], b["density"], d["density"]
    if x == y:
        return None
    x, y = x or 160, y or 160
    if 65534 in (x, y):
        return x == 65534
    low, high = min(x, y), max(x, y)
    if own >= high:
        larger_is_better = True
    elif own <= low:
        larger_is_better = False
    else:
        larger_is_better = not (2 * low - own) * high > own * own
    return larger_is_better if x >= y else not larger_is_better


def keys_hidden(a, b, d):
    x, y, own = a["keysHidden"], b["keysHidden"], d["keysHidden"]
    if x == y or own == 0 or not (0 in (x, y) or own in (x, y)):
        return None
    return x != 0 if 0 in (x, y) else x == own


def nav_hidden(a, b, d):
    x, y = a["navHidden"], b["navHidden"]
    return None if x == y or d["navHidden"] == 0 or 0 not in (x, y) else x != 0


RULES = [
    specified("mcc"),
    specified("mnc"),
    more_specific_locale,
    larger("layoutDirection"),
    larger_smallest_width,
    less_unused("widthDp", "heightDp"),
    screen_size,
    specified("long"),
    specified("round"),
    specified("wideColor"),
    specified("hdr"),
    specified("orientation"),
    specified("uiType"),
    specified("night"),
    density,
    specified("touchscreen"),
    keys_hidden,
    nav_hidden,
    specified("keyboard"),
    specified("navigation"),
    less_unused("width", "height"),
    larger("sdk"),
    specified("minor"),
]
"""P1 to P23."""


def better(a, b, device, rules=RULES):
    """Whether the first row is better, and the number of the rule that decides, None where none does."""
    for number, rule in enumerate(rules, 1):
        answer = rule(a, b, device)
        if answer is not None:
            return answer, number
    return False, None


# ---- selection, and the way of an id


class Candidate:
    """A row of a layer. Its cell is `(kind, word)`, or a bag."""

    def __init__(self, layer, is_overlay, record, cell):
        self.layer = layer
        self.is_overlay = is_overlay
        self.record = record
        self.cell = cell


def takes_over(decided):
    return decided.startswith(("first", "took over"))


def step_of(decided):
    """What all devices of a leaf have to agree on."""
    if takes_over(decided):
        return "took over"
    return "kept out" if decided.startswith("kept out") else "no match"


def by_id(rows):
    """The rows of each id, of rows that are an id, a configuration and a cell."""
    found = {}
    for name, record, cell in rows:
        found.setdefault(name, []).append((record, cell))
    return found


class Layers:
    """The layers of a stack: each has the rows of its ids, and, for an overlay, which own id stands for a target."""

    mismatch = staticmethod(mismatch)
    better = staticmethod(better)

    def __init__(self, layers):
        self.layers = layers
        self.all_candidates = {}
        self.found = {}

    def candidates(self, name):
        if name not in self.all_candidates:
            found = self.all_candidates[name] = []
            for layer, (rows, own_of) in enumerate(self.layers):
                own = name if own_of is None else own_of.get(name)
                found += [Candidate(layer, own_of is not None, record, cell) for record, cell in rows.get(own, [])]
        return self.all_candidates[name]

    def set_aside(self):
        rows = [record for rows, _ in self.layers for of_id in rows.values() for record, _ in of_id]
        return sum(1 for record in rows if record.script or record.variant)

    def look_up(self, name, device):
        """What the candidates of an id do, and which of them it selects, None where it selects none. Each device is asked
        once."""
        asked = name, *device.values()
        if asked not in self.found:
            self.found[asked] = self.selection(name, device)
        return self.found[asked]

    def selection(self, name, device):
        best, decided = None, []
        for candidate in self.candidates(name):
            decided.append((candidate, self.decision(candidate, best, device)))
            if takes_over(decided[-1][1]):
                best = candidate
        return decided, best

    def decision(self, candidate, best, device):
        """What a candidate does to the best so far, as an explanation says it."""
        reason = self.mismatch(candidate.record, device)
        if reason is not None:
            return reason
        if best is None:
            return "first"
        is_better, rule = self.better(candidate.record, best.record, device)
        if is_better:
            return f"took over P{rule}"
        if candidate.is_overlay and candidate.record.is_same(best.record):
            return "took over equal"
        return f"kept out P{rule}" if rule else "kept out"

    def way(self, name, device, references=REFERENCES):
        """The look-ups of an id, each with its candidates and what they do, and the end."""
        look_ups = []
        for _ in range(references + 1):
            decided, best = self.look_up(name, device)
            look_ups.append((name, decided))
            if best is None:
                return look_ups, ("absent", name)
            if isinstance(best.cell, Bag):
                return look_ups, ("bag", name)
            kind, word = best.cell
            if kind != 1 or word == 0:
                return look_ups, ("value", best.layer, kind, word)
            name = word
        return look_ups, ("too long", name)

    def way_of_bag(self, name, device):
        """The look-ups of a bag and its parents, and its rows, as `look_up_bag` gives them."""
        look_ups = []

        def select(name):
            decided, best = self.look_up(name, device)
            look_ups.append((name, decided))
            return None if best is None else (best.layer, best.cell)

        rows = look_up_bag(select, name)
        return look_ups, rows

    def way_of_attribute(self, attr, styles, device):
        """The same of an attribute under styles: the bags of each, and then the reference that the attribute is."""
        look_ups, theme = [], {}
        for style in styles:
            more, rows = self.way_of_bag(style, device)
            look_ups += more
            if rows is None or rows == "too long":
                return look_ups, (rows or "absent", style)
            theme.update((name, (layer, value)) for name, layer, value in rows)
        target, end = slot_of(theme, attr)
        if target is None:
            return look_ups, end
        more, end = self.way(target, device, REFERENCES - 1)
        return look_ups + more, end

    def trace(self, goal, device):
        """What each candidate does, and the end."""
        if isinstance(goal, Attribute):
            look_ups, end = self.way_of_attribute(*goal, device)
        else:
            look_ups, end = self.way(goal, device)
        return tuple(step_of(decided) for _, told in look_ups for _, decided in told), end

    def explanation(self, name, device):
        """The lines that `restool explain` prints."""
        look_ups, end = self.way(name, device)
        lines = []
        for looked_up, told in look_ups:
            lines.append(f"lookup 0x{looked_up:08x}")
            for place, (candidate, decided) in enumerate(told):
                lines.append(f"candidate {place} layer {candidate.layer} {candidate.record.text()} {decided}")
        return lines + [f"end {end_text(end)}"]


# ---- texts

UNITS = {5: ("dimension", ("px", "dp", "sp", "pt", "in", "mm")), 6: ("fraction", ("%", "%p"))}


def complex_text(name, units, word):
    """A number of 24 bits with a sign, how many bits of it stand behind its point, and a unit."""
    number = (word >> 8) - ((word >> 31) << 24)
    unit = units[word & 15] if word & 15 < len(units) else f"unit {word & 15}"
    return f"{name} {number}/2^{(0, 7, 15, 23)[word >> 4 & 3]} {unit}"


def value_text(kind, word):
    if kind == 0:
        return {0: "null", 1: "empty"}.get(word, f"null 0x{word:08x}")
    if kind in (1, 2):
        return f"{'@' if kind == 1 else '?'}0x{word:08x}"
    if kind == 3:
        return f"string {word}"
    if kind in UNITS:
        return complex_text(*UNITS[kind], word)
    if kind == 0x10:
        return f"decimal {word - (1 << 32) if word >> 31 else word}"
    if kind == 0x12:
        return "true" if word else "false"
    named = {4: "float 0x", 7: "dynamic 0x", 0x11: "hex 0x", 0x1C: "argb8 #", 0x1D: "rgb8 #", 0x1E: "argb4 #", 0x1F: "rgb4 #"}
    return f"{named.get(kind, f'kind 0x{kind:02x} 0x')}{word:08x}"


def end_text(end):
    if end[0] == "value":
        return f"value layer {end[1]} {value_text(*end[2:])}"
    return f"{end[0]} 0x{end[1]:08x}"

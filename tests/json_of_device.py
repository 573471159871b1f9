"""What `restool query --json`, `explain --json`, `bag --json`, `attr --json` and `check --json` print, written as the lines that they
print as text. For the scripts beside it."""
import re

from check_notation import in_columns
from made_layers import joined_pairs
from plain_rules import COORDS, value_text

NOT_THERE = ("set aside", "no match")
REASONS = {"absent": "absent", "tooManyReferences": "too many references"}


def why_none(end):
    """Why an end is neither a value nor a bag, and of which resource."""
    return next((words, end[name]) for name, words in REASONS.items() if name in end)


# ---- raw


class Raw:
    """By ids and indexes, each value as its row holds it."""

    words = ()

    def value(self, value):
        return value_text(value["stored"]["kind"], value["stored"]["word"])

    def end(self, end):
        if "value" in end:
            return f"value layer {end['from']['layer']} {self.value(end['value'])}"
        if "bag" in end:
            return f"bag {end['bag']['id']}"
        words, resource = why_none(end)
        return f"{'absent' if words == 'absent' else 'too long'} {resource['id']}"

    def line(self, line):
        """With a string behind its index, as `as_read` has it."""
        return f"{line['id']} {self.end(line['end'])}{string_behind(line['end'].get('value', {}))}"

    def look_up(self, line, candidates):
        return [f"lookup {line['id']}", *(self.candidate(*it) for it in enumerate(candidates))]

    def candidate(self, place, line):
        why = "".join(f" {line['decision'][name]}" for name in ("rule", "qualifier") if name in line["decision"])
        return f"candidate {place} layer {line['from']['layer']} {record_text(line['from']['config'])} {line['decision']['did']}{why}"

    def last(self, line):
        return f"end {self.end(line['end'])}"

    def as_read(self, printed):
        return [QUOTED.sub(lambda parts: f'{parts[1]}"{spelled(parts[2])}"', line) for line in printed]


def string_behind(value):
    if "broken" in value:
        return f" {value['broken'].partition(' ')[0]}"
    if "string" in value or "garbled" in value:
        return f' "{value["string"] if "string" in value else spelled(value["garbled"])}"'
    return ""


QUOTED = re.compile(r"^(0x[0-9a-f]{8} value layer [0-9]+ string [0-9]+ )(\".*\")$")


def spelled(quoted):
    """The text that stands between quotes, with escapes of signs, of bytes or of units of UTF-16. Two surrogates that make a pair are the
    character."""
    some = b"".join(ESCAPED.sub(unescaped, part).encode("latin1") if part[0] == "\\" else part.encode() for part in PARTS.findall(quoted[1:-1]))
    return joined_pairs(some.decode("utf-8", "surrogatepass"))


PARTS = re.compile(r"\\u[0-9a-f]{4}|\\x[0-9a-f]{2}|\\.|[^\\]+")
ESCAPED = re.compile(r"\\(?:u([0-9a-f]{4})|x([0-9a-f]{2})|(.))")


def unescaped(parts):
    """The bytes of an escape, each as a character."""
    unit, byte, sign = parts.groups()
    return chr(int(unit, 16)).encode("utf-8", "surrogatepass").decode("latin1") if unit else chr(int(byte, 16)) if byte else sign


def record_text(config):
    said = config["qualifiers"]
    return f"[{','.join(f'{name}={said[name]}' for name in (*COORDS, 'script', 'variant') if name in said)}]"


# ---- in Android's notation


def path_of(place):
    return place.get("path", f"layer {place['layer']}")


class Notation:
    """By names. Of candidates that do not match there are lines where all are asked for."""

    def __init__(self, is_all):
        self.is_all = is_all
        self.words = ("--android", *["--all"] * is_all)

    def end(self, end):
        """Where a value or a bag is told without its row, no configuration stands behind it, or nothing."""
        if "value" in end or "bag" in end:
            place = end.get("from")
            return " ".join([held(end), *(["from", path_of(place)] if place else []), *([place["config"]["words"]] if "config" in (place or {}) else [])])
        words, resource = why_none(end)
        return f"{words} {resource['name']}"

    def line(self, line):
        return f"{line['name']} {self.end(line['end'])}"

    def look_up(self, line, candidates):
        shown = [it for it in candidates if self.is_all or it["decision"]["did"] not in NOT_THERE]
        hidden = len(candidates) - len(shown)
        rows = [(path_of(it["from"]), it["from"]["config"]["words"], held(it["holds"]), it["decision"]["words"]) for it in shown]
        more = [f"  {hidden}{' more' * bool(shown)} {'row does' if hidden == 1 else 'rows do'} not match"] if hidden else []
        return [line["name"], *in_columns(rows), *more]

    def last(self, line):
        return self.end(line["end"])

    def as_read(self, printed):
        return printed


def held(end):
    return end["value"]["xml"] if "value" in end else "bag"


# ---- all lines


def query_text(form, lines):
    return [form.line(line) if line["line"] == "end" else f"set-aside {line['count']}" for line in lines]


def explain_text(form, lines):
    """Those of look-ups with the candidates behind each, and that of the end."""
    text, places = [], [place for place, line in enumerate(lines) if line["line"] != "candidate"]
    for place, following in zip(places, [*places[1:], len(lines)]):
        line, candidates = lines[place], lines[place + 1 : following]
        text += form.look_up(line, candidates) if line["line"] == "look-up" else [form.last(line)]
    return text

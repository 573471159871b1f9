"""A plain reading of the JSON texts that restool takes: the first fault of each kind, as docs/FORMATS.md has them."""
import json
import re

from plain_rules import COORDS

MOST_DEPTH, MOST_NUMBER, MOST_DIGITS = 127, 2**64 - 1, 20
LAST_WORD, LAST_KIND, LAST_LAYER = 2**32 - 1, 255, 63
MOST_LAYERS, MOST_VALUES, MOST_STYLES, MOST_NODES = 64, 512, 64, 1_000_000
LEAST_DENSITY, MOST_DENSITY = 1, 32767
ID = re.compile("0x[0-9a-fA-F]{8}")
LOCALE = re.compile("([a-z]{2,3}(-([A-Z]{2}|[0-9]{3}))?)?")
REGION_ALONE = re.compile("-([A-Z]{2}|[0-9]{3})")


class Syntax(Exception):
    """The text is no JSON that serde_json reads."""


# ---- the value of a text: numbers that are digits alone are ints, all others floats


def whole(text):
    number = number_of(text)
    return int(text) if text.isdigit() and len(text) <= MOST_DIGITS and int(text) <= MOST_NUMBER else number


def number_of(text):
    number = float(text)
    if number in (float("inf"), float("-inf")):
        raise Syntax
    return number


def no_number(text):
    raise Syntax


def check_strings(value):
    """That no string has half of a pair of surrogates."""
    if isinstance(value, str):
        value.encode()
    elif isinstance(value, list):
        for item in value:
            check_strings(item)


def members(pairs):
    for name, value in pairs:
        check_strings(name)
        check_strings(value)
    return dict(pairs)


def depth_of(text):
    """How deep lists and objects nest."""
    depth = deepest = 0
    for mark in re.sub(r'"(\\.|[^"\\])*"', "", text, flags=re.DOTALL):
        depth += (mark in "[{") - (mark in "]}")
        deepest = max(deepest, depth)
    return deepest


def value_of(text):
    try:
        text = text.decode()
        if depth_of(text) > MOST_DEPTH:
            raise Syntax
        value = json.loads(text, parse_int=whole, parse_float=number_of, parse_constant=no_number, object_pairs_hook=members)
        check_strings(value)
        return value
    except (UnicodeError, json.JSONDecodeError) as fault:
        raise Syntax from fault


# ---- shapes


def has_only(value, *names):
    return isinstance(value, dict) and all(name in names for name in value)


def has_all(value, *names):
    return has_only(value, *names) and len(value) == len(names)


def is_number(value, most=MOST_NUMBER):
    return type(value) is int and value <= most


def is_list(value, is_item, most=None):
    return isinstance(value, list) and (most is None or len(value) <= most) and all(map(is_item, value))


def is_text(value):
    return isinstance(value, str)


def is_id(value):
    return is_text(value) and bool(ID.fullmatch(value))


def is_locale(value):
    return is_text(value) and bool(LOCALE.fullmatch(value))


# ---- layers and id maps


def fault_of_layers(value):
    if not is_list(value, lambda layer: has_only(layer, "table", "map") and "table" in layer and all(map(is_text, layer.values()))):
        return "Shape"
    return "TooManyLayers" if len(value) > MOST_LAYERS else None


def fault_of_map(value):
    if not is_list(value, lambda pair: is_list(pair, is_id) and len(pair) == 2):
        return "Shape"
    seen, first = set(), None
    for target in (int(pair[0], 16) for pair in value):
        first = target if first is None else first
        if target in seen:
            return f"Repeated 0x{target:08x}"
        if target >> 24 != first >> 24:
            return f"OtherPackage 0x{target:08x}"
        seen.add(target)
    return None


# ---- devices and boxes


def is_outside(name, number):
    return not LEAST_DENSITY <= number <= MOST_DENSITY if name == "density" else number > COORDS[name]


def outside(name):
    return "Density" if name == "density" else f"FieldRange {name}"


def fault_of_locales(texts):
    if not all(LOCALE.fullmatch(text) or REGION_ALONE.fullmatch(text) for text in texts):
        return "FieldRange locale"
    return None if all(map(is_locale, texts)) else "RegionAlone"


def fault_of_device(value):
    if not has_only(value, *COORDS) or not all(is_text(held) if name == "locale" else is_number(held) for name, held in value.items()):
        return "Shape"
    for name in COORDS:
        if name == "locale":
            fault = fault_of_locales([value.get(name, "")])
        else:
            fault = outside(name) if is_outside(name, value.get(name, 0)) else None
        if fault:
            return fault
    return None


def is_range(value):
    return has_all(value, "from", "to") and all(map(is_number, value.values()))


def fault_of_set(name, held):
    if isinstance(held, dict):
        if held["from"] > held["to"]:
            return f"Empty {name}"
        held = [held["from"], held["to"]]
    if not held:
        return f"Empty {name}"
    if len(held) > MOST_VALUES:
        return f"TooMany {name}"
    if name == "locale":
        return fault_of_locales(held)
    return outside(name) if any(is_outside(name, number) for number in held) else None


def fault_of_box(value):
    if not has_only(value, *COORDS) or not all(
        is_list(held, is_text) if name == "locale" else is_list(held, is_number) or is_range(held) for name, held in value.items()
    ):
        return "Shape"
    faults = (fault_of_set(name, value[name]) if name in value else outside(name) if name == "density" else None for name in COORDS)
    return next(filter(None, faults), None)


# ---- certificates


def is_node(value):
    if has_all(value, "coord", "atMost"):
        return is_text(value["coord"]) and value["coord"] in COORDS and is_number(value["atMost"], LAST_WORD)
    if has_all(value, "coord", "in"):
        is_value = is_locale if value["coord"] == "locale" else lambda number: is_number(number, LAST_WORD)
        return is_text(value["coord"]) and value["coord"] in COORDS and is_list(value["in"], is_value, MOST_VALUES)
    if has_all(value, "layer", "kind", "word"):
        return all(is_number(value[name], most) for name, most in (("layer", LAST_LAYER), ("kind", LAST_KIND), ("word", LAST_WORD)))
    return has_all(value, "bag") and is_id(value["bag"])


def is_goal(value, version):
    if has_all(value, "id", "nodes"):
        return is_id(value["id"]) and isinstance(value["nodes"], list)
    if version == 1 or not has_all(value, "attr", "styles", "nodes"):
        return False
    return is_id(value["attr"]) and is_list(value["styles"], is_id, MOST_STYLES) and isinstance(value["nodes"], list)


def fault_of_certificate(value):
    if not isinstance(value, dict):
        return "Shape 0 0"
    version = value.get("version")
    if not is_number(version) or version not in (1, 2):
        return "Version"
    if not has_only(value, "version", "goals") or not isinstance(value.get("goals"), list):
        return "Shape 0 0"
    count = 0
    for place, goal in enumerate(value["goals"]):
        if not is_goal(goal, version):
            return f"Shape {place} 0"
        count += len(goal["nodes"])
        if count > MOST_NODES:
            return "TooManyNodes"
        wrong = next((at for at, node in enumerate(goal["nodes"]) if not is_node(node)), None)
        if wrong is not None:
            return f"Shape {place} {wrong}"
    return None


FAULTS = {
    "layers": fault_of_layers,
    "id-map": fault_of_map,
    "device": fault_of_device,
    "box": fault_of_box,
    "certificate": fault_of_certificate,
}


def reading(kind, text):
    """The value of a text, and its first fault."""
    try:
        value = value_of(text)
    except Syntax:
        return None, "Syntax"
    return value, FAULTS[kind](value)

#!/usr/bin/env python3
"""Holds the JSON Schemas of the inputs against what restool reads and refuses, and those of lines that it prints against such lines:

    check_schemas.py PROGRAM [SCHEMA..]

for each schema, or for those that are named: layers, id-map, device, box, certificate, diff-line, values-line, query-line,
explain-line, check-line, bag-line, attr-line, unused-line, survey-line, map-line. Texts that a schema judges as restool does stand
in ALIKE with the fault that restool tells, none where the text is accepted. In BEYOND are texts that restool refuses for what a
schema can't say, and in AS_PHONE those of them that it reads with `--locales android`. In LINES are the lines, and what is none;
what restool prints of random cases check_json.py looks at. The last line is the number of texts."""
import json
import os
import re
import subprocess
import sys
import tempfile

from made_layers import table_bytes
from plain_rules import COORDS
from random_locales import LocaleFocus

SCHEMAS = os.path.join(os.path.dirname(os.path.abspath(__file__)), "..", "schemas")

GREATEST = {**COORDS, "density": 32767}

# ---- the rules of JSON Schema, as far as the schemas use them


def is_number(value):
    return isinstance(value, (int, float)) and not isinstance(value, bool)


def is_integer(value):
    """A number without a fraction, however it is written."""
    return is_number(value) and value == int(value)


TYPES = {
    "boolean": lambda value: isinstance(value, bool),
    "array": lambda value: isinstance(value, list),
    "object": lambda value: isinstance(value, dict),
    "string": lambda value: isinstance(value, str),
    "integer": is_integer,
}


def equals(value, wanted):
    return value == wanted and isinstance(value, bool) == isinstance(wanted, bool)


def rest_is_valid(root, said, schema, value):
    """The items after those that have a schema of their own. Of items that are alike one is judged."""
    others = value[len(schema.get("prefixItems", [])) :] if isinstance(value, list) else []
    return all(is_valid(root, said, item) for item in {repr(item): item for item in others}.values())


def has_no_others(schema, value):
    return not isinstance(value, dict) or all(name in schema["properties"] for name in value)


def members_are_valid(root, said, value):
    return not isinstance(value, dict) or all(is_valid(root, said[name], value[name]) for name in value if name in said)


def front_is_valid(root, said, value):
    return not isinstance(value, list) or all(is_valid(root, of, item) for of, item in zip(said, value))


def refers_to(root, path):
    for name in path.split("/")[1:]:
        root = root[name]
    return root


def has_pattern(value, pattern):
    """`$` is the end of a text there, and here a line feed may follow it."""
    return not isinstance(value, str) or bool(re.search(pattern.replace("$", r"\Z"), value))


RULES = {
    "$ref": lambda root, said, schema, value: is_valid(root, refers_to(root, said), value),
    "type": lambda root, said, schema, value: TYPES[said](value),
    "const": lambda root, said, schema, value: equals(value, said),
    "enum": lambda root, said, schema, value: any(equals(value, wanted) for wanted in said),
    "anyOf": lambda root, said, schema, value: any(is_valid(root, other, value) for other in said),
    "minimum": lambda root, said, schema, value: not is_number(value) or value >= said,
    "maximum": lambda root, said, schema, value: not is_number(value) or value <= said,
    "minItems": lambda root, said, schema, value: not isinstance(value, list) or len(value) >= said,
    "maxItems": lambda root, said, schema, value: not isinstance(value, list) or len(value) <= said,
    "pattern": lambda root, said, schema, value: has_pattern(value, said),
    "required": lambda root, said, schema, value: not isinstance(value, dict) or all(name in value for name in said),
    "properties": lambda root, said, schema, value: members_are_valid(root, said, value),
    "additionalProperties": lambda root, said, schema, value: said or has_no_others(schema, value),
    "prefixItems": lambda root, said, schema, value: front_is_valid(root, said, value),
    "items": lambda root, said, schema, value: rest_is_valid(root, said, schema, value),
}

WORDS_FOR_READERS = ("$schema", "$defs", "title", "description")


def is_valid(root, schema, value):
    return all(
        RULES[rule](root, said, schema, value) for rule, said in schema.items() if rule not in WORDS_FOR_READERS
    )


# ---- texts


def listed(item, count):
    return "[" + ",".join([item] * count) + "]"


def certificate(nodes):
    return '{"version":1,"goals":[{"id":"0x7f010000","nodes":[' + nodes + "]}]}"


def goals(text):
    return '{"version":1,"goals":' + text + "}"


def goals_2(text):
    """The same of version 2."""
    return '{"version":2,"goals":' + text + "}"


def attribute(styles):
    """A goal of an attribute under so many styles."""
    return '{"attr":"0x01010001","styles":' + listed('"0x7f010000"', styles) + ',"nodes":[]}'


def goal_of(count):
    """A goal of so many nodes."""
    return '{"id":"0x7f010000","nodes":' + listed(BAG, count) + "}"


def node(text, fault=None):
    return certificate(text), fault


LAYER = '{"table":"table"}'
BAG = '{"bag":"0x7f010000"}'
LEAF = '{"layer":0,"kind":16,"word":1}'
GOAL = '{"id":"0x7f010000","nodes":[]}'

ALIKE = {
    "layers": [
        ("[]", None),
        ('[{"table":"table"}]', None),
        ('[{"table":"table"},{"table":"table","map":"map"}]', None),
        ('[{"map":"map","table":"table"}]', None),
        (listed(LAYER, 64), None),
        (listed(LAYER, 65), "TooManyLayers"),
        ("{}", "Shape"),
        ("null", "Shape"),
        ('"table"', "Shape"),
        ('["table"]', "Shape"),
        ("[{}]", "Shape"),
        ('[{"map":"map"}]', "Shape"),
        ('[{"table":1}]', "Shape"),
        ('[{"table":"table","map":null}]', "Shape"),
        ('[{"table":"table","maps":"map"}]', "Shape"),
        ('[{"table":"table"},[]]', "Shape"),
    ],
    "id-map": [
        ("[]", None),
        ('[["0x7f010000","0x7f020000"]]', None),
        ('[["0x7F01ABCD","0x7f01abcd"],["0x7f010000","0x02010000"]]', None),
        ("{}", "Shape"),
        ('["0x7f010000","0x7f020000"]', "Shape"),
        ('[["0x7f010000"]]', "Shape"),
        ('[["0x7f010000","0x7f020000","0x7f030000"]]', "Shape"),
        ('[["0x7f01","0x7f020000"]]', "Shape"),
        ('[["7f010000","0x7f020000"]]', "Shape"),
        ('[["0X7f010000","0x7f020000"]]', "Shape"),
        ('[["0x7f010000\\n","0x7f020000"]]', "Shape"),
        ('[["0x7g010000","0x7f020000"]]', "Shape"),
        ("[[2130771968,2130837504]]", "Shape"),
        ("[[]]", "Shape"),
    ],
    "device": [
        ('{"density":160}', None),
        ('{"density":1,"locale":""}', None),
        ('{"density":320,"locale":"de-DE","sdk":27}', None),
        ('{"density":320,"locale":"es-419"}', None),
        ('{"density":320,"locale":"fil"}', None),
        ("{}", "Density"),
        ('{"density":0}', "Density"),
        ('{"night":2}', "Density"),
        ("[]", "Shape"),
        ("160", "Shape"),
        ('{"density":"160"}', "Shape"),
        ('{"density":-1}', "Shape"),
        ('{"density":160.5}', "Shape"),
        ('{"density":null}', "Shape"),
        ('{"density":true}', "Shape"),
        ('{"density":[160]}', "Shape"),
        ('{"density":18446744073709551616}', "Shape"),
        ('{"density":160,"dpi":1}', "Shape"),
        ('{"density":160,"locale":5}', "Shape"),
        ('{"density":160,"locale":"DE"}', "FieldRange locale"),
        ('{"density":160,"locale":"de-de"}', "FieldRange locale"),
        ('{"density":160,"locale":"de_DE"}', "FieldRange locale"),
        ('{"density":160,"locale":"de-DEU"}', "FieldRange locale"),
        ('{"density":160,"locale":"d"}', "FieldRange locale"),
        ('{"density":160,"locale":"de\\n"}', "FieldRange locale"),
        ('{"density":160,"locale":"-DE"}', "RegionAlone"),
        ('{"density":160,"locale":"-Latn-DE"}', "FieldRange locale"),
        ('{"density":160,"locale":"de-latn"}', "FieldRange locale"),
        ('{"density":160,"locale":"de-DE-Latn"}', "FieldRange locale"),
    ],
    "box": [
        ('{"density":[160]}', None),
        ('{"density":{"from":1,"to":32767}}', None),
        ('{"density":{"from":160,"to":160}}', None),
        ('{"density":[640,160,320,160]}', None),
        ('{"density":[160],"locale":["de","","fr-CA","de"]}', None),
        ('{"density":[160],"night":' + listed("1", 512) + "}", None),
        ("{}", "Density"),
        ('{"locale":["fr"]}', "Density"),
        ('{"density":[0]}', "Density"),
        ('{"density":[160,32768]}', "Density"),
        ('{"density":{"from":0,"to":160}}', "Density"),
        ('{"density":{"from":160,"to":32768}}', "Density"),
        ('{"density":[]}', "Empty density"),
        ('{"density":[160],"locale":[]}', "Empty locale"),
        ('{"density":' + listed("160", 513) + "}", "TooMany density"),
        ('{"density":[160],"locale":' + listed('"de"', 513) + "}", "TooMany locale"),
        ('{"density":[160],"locale":["de","DE"]}', "FieldRange locale"),
        ('{"density":[160],"locale":["-FR"]}', "RegionAlone"),
        ('{"density":[160],"locale":["fr-Latin"]}', "FieldRange locale"),
        ('{"night":[4]}', "FieldRange night"),
        ('{"touchscreen":[256]}', "Density"),
        ("[]", "Shape"),
        ('{"density":160}', "Shape"),
        ('{"density":"160"}', "Shape"),
        ('{"density":[160],"locale":"de"}', "Shape"),
        ('{"density":[160],"locale":{"from":"de","to":"fr"}}', "Shape"),
        ('{"density":[160],"locale":[5]}', "Shape"),
        ('{"density":["160"]}', "Shape"),
        ('{"density":[-1]}', "Shape"),
        ('{"density":{"from":160}}', "Shape"),
        ('{"density":{"from":160,"to":320,"step":1}}', "Shape"),
        ('{"density":{"from":160,"to":"320"}}', "Shape"),
        ('{"density":[160],"dpi":[1]}', "Shape"),
    ],
    "certificate": [
        (goals("[]"), None),
        (goals("[" + GOAL + "]"), None),
        (goals("[" + GOAL + "," + GOAL + "]"), None),
        ('{"goals":[],"version":1}', None),
        ("{}", "Version"),
        ('{"goals":[]}', "Version"),
        ('{"version":0,"goals":[]}', "Version"),
        ('{"version":3,"goals":[]}', "Version"),
        ('{"version":"1","goals":[]}', "Version"),
        ('{"version":true,"goals":[]}', "Version"),
        ('{"version":null,"goals":[]}', "Version"),
        ('{"version":3,"goals":[],"more":0}', "Version"),
        ("[]", "Shape 0 0"),
        ("null", "Shape 0 0"),
        ('{"version":1}', "Shape 0 0"),
        ('{"version":1,"goals":{}}', "Shape 0 0"),
        ('{"version":1,"goals":[],"more":0}', "Shape 0 0"),
        (goals("[5]"), "Shape 0 0"),
        (goals("[" + GOAL + ",{}]"), "Shape 1 0"),
        (goals("[" + GOAL + ',{"id":"0x7f010000"}]'), "Shape 1 0"),
        (goals('[{"id":"0x7f01","nodes":[]}]'), "Shape 0 0"),
        (goals('[{"id":2130771968,"nodes":[]}]'), "Shape 0 0"),
        (goals('[{"id":"0x7f010000","nodes":{}}]'), "Shape 0 0"),
        (goals('[{"id":"0x7f010000","nodes":[],"more":0}]'), "Shape 0 0"),
        (goals_2("[]"), None),
        (goals_2("[" + GOAL + "," + attribute(1) + "," + GOAL + "]"), None),
        (goals_2("[" + attribute(0) + "]"), None),
        (goals_2("[" + attribute(64) + "]"), None),
        (goals_2("[" + GOAL + "," + attribute(65) + "]"), "Shape 1 0"),
        (goals("[" + GOAL + "," + attribute(1) + "]"), "Shape 1 0"),
        (goals_2('[{"attr":"0x01010001","nodes":[]}]'), "Shape 0 0"),
        (goals_2('[{"styles":[],"nodes":[]}]'), "Shape 0 0"),
        (goals_2('[{"attr":"0x01010001","styles":[]}]'), "Shape 0 0"),
        (goals_2('[{"attr":"0x01010001","styles":"0x7f010000","nodes":[]}]'), "Shape 0 0"),
        (goals_2('[{"attr":"0x01010001","styles":["0x7f01"],"nodes":[]}]'), "Shape 0 0"),
        (goals_2('[{"attr":16842753,"styles":[],"nodes":[]}]'), "Shape 0 0"),
        (goals_2('[{"attr":"0x01010001","styles":[],"nodes":{}}]'), "Shape 0 0"),
        (goals_2('[{"id":"0x7f010000","attr":"0x01010001","styles":[],"nodes":[]}]'), "Shape 0 0"),
        (goals_2('[{"attr":"0x01010001","styles":[],"nodes":[5]}]'), "Shape 0 0"),
        (goals_2("[" + GOAL + ',{"attr":"0x01010001","styles":[],"nodes":[' + LEAF + ',5]}]'), "Shape 1 1"),
        node(LEAF),
        node('{"word":4294967295,"kind":255,"layer":63}'),
        node('{"bag":"0x7f010000"}'),
        node('{"coord":"density","atMost":4294967295}'),
        node('{"coord":"locale","atMost":0}'),
        node('{"coord":"locale","in":["","de","es-419","de"]}'),
        node('{"coord":"night","in":[2,1,2,4294967295]}'),
        node('{"coord":"night","in":[]}'),
        node('{"coord":"locale","in":[]}'),
        node('{"coord":"night","in":' + listed("1", 512) + "}"),
        node('{"coord":"night","in":' + listed("1", 513) + "}", "Shape 0 0"),
        node('{"coord":"locale","in":' + listed('"de"', 513) + "}", "Shape 0 0"),
        node("5", "Shape 0 0"),
        node("{}", "Shape 0 0"),
        node(LEAF + ',{"bag":5}', "Shape 0 1"),
        node('{"bag":"7f010000"}', "Shape 0 0"),
        node('{"layer":64,"kind":16,"word":1}', "Shape 0 0"),
        node('{"layer":0,"kind":256,"word":1}', "Shape 0 0"),
        node('{"layer":0,"kind":16,"word":4294967296}', "Shape 0 0"),
        node('{"layer":0,"kind":16,"word":-1}', "Shape 0 0"),
        node('{"layer":0,"kind":16}', "Shape 0 0"),
        node('{"layer":0,"kind":16,"word":1,"bag":"0x7f010000"}', "Shape 0 0"),
        node('{"coord":"dpi","atMost":1}', "Shape 0 0"),
        node('{"coord":"density"}', "Shape 0 0"),
        node('{"coord":"density","atMost":4294967296}', "Shape 0 0"),
        node('{"coord":"density","atMost":1,"in":[1]}', "Shape 0 0"),
        node('{"coord":"density","in":[4294967296]}', "Shape 0 0"),
        node('{"coord":"density","in":["de"]}', "Shape 0 0"),
        node('{"coord":"density","in":1}', "Shape 0 0"),
        node('{"coord":"locale","in":[0]}', "Shape 0 0"),
        node('{"coord":"locale","in":["DE"]}', "Shape 0 0"),
        node('{"coord":"locale","in":["-DE"]}', "Shape 0 0"),
        node('{"coord":"locale","in":["Latn"]}', "Shape 0 0"),
        (goals(f"[{goal_of(1000001)}]"), "TooManyNodes"),
    ],
}

# A number with a fraction of 0 or an exponent, sums over lists, and a member that is compared with others.
BEYOND = {
    "layers": [],
    "id-map": [
        ('[["0x7f010000","0x7f020000"],["0x7f010000","0x7f020001"]]', "Repeated 0x7f010000"),
        ('[["0x7f01000a","0x7f020000"],["0x7F01000A","0x7f020001"]]', "Repeated 0x7f01000a"),
        ('[["0x7f010000","0x7f020000"],["0x01010000","0x7f020001"]]', "OtherPackage 0x01010000"),
    ],
    "device": [
        ('{"density":160.0}', "Shape"),
        ('{"density":1e2}', "Shape"),
        ('{"density":160,"night":-0}', "Shape"),
    ],
    "box": [
        ('{"density":{"from":320,"to":160}}', "Empty density"),
        ('{"density":[160],"sdk":{"from":27,"to":21}}', "Empty sdk"),
        ('{"density":[160.0]}', "Shape"),
        ('{"density":{"from":1e2,"to":160}}', "Shape"),
    ],
    "certificate": [
        ('{"version":1.0,"goals":[]}', "Version"),
        ('{"version":2.0,"goals":[]}', "Version"),
        node('{"layer":0.0,"kind":16,"word":1}', "Shape 0 0"),
        node('{"coord":"density","atMost":1e2}', "Shape 0 0"),
        (goals(f"[{goal_of(600000)},{goal_of(400001)}]"), "TooManyNodes"),
    ],
}


AS_PHONE = {
    "device": [
        ('{"density":160,"locale":"zh-Hant"}', "FieldRange locale"),
        ('{"density":160,"locale":"sr-Latn-RS"}', "FieldRange locale"),
        ('{"density":160,"locale":"fil-Latn-419"}', "FieldRange locale"),
    ],
    "box": [('{"density":[160],"locale":["","sr-RS","sr-Latn-RS"]}', "FieldRange locale")],
    "certificate": [node('{"coord":"locale","in":["","sr-RS","sr-Latn-RS"]}', "Shape 0 0")],
}


def at_the_limits():
    """Texts of devices and boxes with the greatest number of each coordinate, and with the one above it."""
    for name, greatest in GREATEST.items():
        if greatest is None:
            continue
        fault = "Density" if name == "density" else f"FieldRange {name}"
        for number, told in ((greatest, None), (greatest + 1, fault)):
            yield "device", (json.dumps({"density": 160, name: number}), told)
            yield "box", (json.dumps({"density": [160], name: [number]}), told)
            yield "box", (json.dumps({"density": [160], name: {"from": 1, "to": number}}), told)


# ---- lines that restool prints

SAME = '{"count":14,"line":"same"}'
LIMIT = '{"line":"node limit"}'
DIMENSION = '{"kind":5,"word":3329,"xml":"13dp"}'
STRING = r'{"string":"say \"hi\"","xml":"\"say \\\"hi\\\"\""}'
GARBLED = r'{"garbled":"\"half \\ud83d\"","xml":"\"half \\ud83d\""}'
BROKEN = '{"broken":"!NoSuch 12","xml":"!NoSuch 12"}'
REFERENCE = '{"reference":"color/ink","xml":"@color/ink"}'
ATTRIBUTE = '{"attribute":"android:attr/tint","xml":"?android:attr/tint"}'


def said(content, devices="{}", on=""):
    """A line of `values`."""
    says = f'{{"content":{content},"devices":{devices},"on":"{on}"}}'
    return f'{{"line":"value","name":"dimen/handle","says":{says}}}'


def valued(value):
    return said(f'{{"value":{value}}}')


def bag(*items):
    """A line of `values` of a bag, whose rows have these keys and values."""
    listed = ",".join(f'{{"key":{key},"value":{value}}}' for key, value in items)
    return said(f'{{"bag":[{listed}]}}')


DEVICES = '"devices":{"density":{"from":120,"to":197}},"on":"<198dpi"'


def changed(members):
    """A line of `diff` that says this."""
    return f'{{"line":"changed","name":"style/Card","says":{{{members}}}}}'


def contents(members):
    """The same on some devices."""
    return changed(f"{members},{DEVICES}")


def rows(listed):
    """The same of rows that differ."""
    return changed(f'{DEVICES},"rows":[{listed}]')


def stored(value):
    """A value with what its row holds."""
    return value[:-1] + ',"stored":{"kind":5,"word":3329}}'


ROW = '{"config":{"qualifiers":{"density":320,"sdk":4},"words":"xhdpi-v4"},"layer":0,"path":"app.apk"}'
TOLD_LAYER = '{"layer":1,"path":"theme.apk"}'
RESOURCE = '{"id":"0x7f010000","name":"dimen/handle"}'
HELD = stored(DIMENSION)
CLAIMED = f'{{"from":{TOLD_LAYER},"value":{HELD}}}'


def rejected(before="", between=""):
    """A line of `check` that says this too."""
    return f'{{{before}"line":"rejected",{between}"node":0,"place":0,"rule":"N8","ruleName":"OtherValue"}}'


def shown(*ends):
    """Devices with these ends."""
    listed = ",".join(f'{{"device":{{"density":160,"locale":"de"}},"end":{end}}}' for end in ends)
    return f'"devices":[{listed}],'


def styled(did, words, members=""):
    """The line of a style that does this."""
    return f'{{"decision":{{"did":"{did}","words":"{words}"}},"id":"0x7f010000",{members}"line":"style","name":"style/A"}}'


def bag_row(key, value):
    """A line of `bag` that says this."""
    return f'{{"from":{TOLD_LAYER},"id":"0x7f010000","key":{key},"line":"row","value":{value}}}'


def row(members, line="unused"):
    """A line of `unused` of a row that has this."""
    return f'{{"from":{ROW},"id":"0x7f010000","line":"{line}","name":"dimen/handle","overlay":true,{members}}}'


def placed(qualifiers):
    """A line of `query` whose row has these qualifiers."""
    return ended(f'"from":{{"config":{{"qualifiers":{qualifiers},"words":"xhdpi-v4"}},"layer":0}},"value":{HELD}')


def ended(members):
    """A line of `query` with an end that says this."""
    return f'{{"end":{{{members}}},"id":"0x7f010000","line":"end","name":"dimen/handle"}}'


def decided(decision, held=f'{{"value":{stored(REFERENCE)}}}'):
    """A line of `explain` of a candidate that does this."""
    return f'{{"decision":{{{decision}}},"from":{ROW},"holds":{held},"line":"candidate"}}'


LOOK_UP = '{"id":"0x7f010000","line":"look-up","name":"dimen/handle"}'


LAYER_0 = '{"layer":0,"path":"app.apk"}'


def found(name, first, warning, layer=LAYER_0):
    """A finding of a survey, and where the first is."""
    return f'{{"count":1,"finding":"{name}","first":{first},"from":{layer},"line":"finding","warning":{warning}}}'


def spread(greatest, least, name):
    return f'{{"greatest":{greatest},"least":{least},"line":"qualifier","qualifier":"{name}","rows":2}}'


LINES = {
    "diff-line": [
        (contents(f'"after":{{"value":{DIMENSION}}},"before":{{"value":{STRING}}}'), True),
        (contents(f'"after":{{"absent":"0x7f010000"}},"before":{{"bag":[{{"key":0,"value":{STRING}}}]}}'), True),
        (rows(f'{{"after":{ATTRIBUTE},"before":{REFERENCE},"key":"attr/tint"}}'), True),
        (rows(f'{{"after":{BROKEN},"key":"other"}},{{"before":{GARBLED},"key":3}}'), True),
        ('{"line":"added","name":"string/\\"a b\\""}', True),
        ('{"line":"removed","name":"android:color/white"}', True),
        ('{"line":"shared-names","new":0,"old":1}', True),
        ('{"line":"set-aside","new":1,"old":1}', True),
        (SAME, True),
        (LIMIT, True),
        ("{}", False),
        ("[]", False),
        ('"same"', False),
        (contents(f'"after":{{"value":{DIMENSION}}}'), False),
        (contents(f'"after":{{"value":{DIMENSION}}},"before":{DIMENSION}'), False),
        (contents(f'"after":{{"value":{DIMENSION}}},"before":{{"value":{DIMENSION}}},"rows":[]'), False),
        (contents(f'"content":{{"value":{DIMENSION}}}'), False),
        (rows(""), False),
        (rows('{"key":0}'), False),
        (rows(f'{{"after":{DIMENSION},"before":{DIMENSION}}}'), False),
        (rows(f'{{"key":0,"value":{DIMENSION}}}'), False),
        (rows(f'{{"after":{DIMENSION},"key":0,"row":0}}'), False),
        ('{"line":"changed","name":"style/Card"}', False),
        ('{"line":"added","name":"handle"}', False),
        ('{"line":"added","name":"dimen/handle","says":{}}', False),
        ('{"line":"added"}', False),
        ('{"line":"set-aside","new":1}', False),
        ('{"line":"set-aside","new":-1,"old":1}', False),
        ('{"count":1,"line":"set-aside"}', False),
        ('{"count":"14","line":"same"}', False),
        ('{"line":"same"}', False),
        ('{"count":0,"line":"node limit"}', False),
        ('{"count":14,"line":"resources"}', False),
        (valued(DIMENSION), False),
    ],
    "values-line": [
        *((valued(value), True) for value in (DIMENSION, STRING, GARBLED, BROKEN, REFERENCE, ATTRIBUTE)),
        (said(f'{{"value":{DIMENSION}}}', '{"locale":["","de-AT","sr-Latn-RS"],"orientation":[2]}', "land"), True),
        (said(f'{{"value":{DIMENSION}}}', '{"sdk":{"from":21,"to":21}}', "v21"), True),
        *((said(f'{{"{why}":"dimen/handle"}}'), True) for why in ("absent", "tooManyReferences", "tooManyParents")),
        (bag(), True),
        (bag((0, STRING), (1, REFERENCE)), True),
        (bag(('"format"', DIMENSION), ('"0x01010098"', ATTRIBUTE)), True),
        ('{"count":1,"line":"shared-names"}', True),
        ('{"count":2,"line":"set-aside"}', True),
        ('{"count":0,"line":"resources"}', True),
        (LIMIT, True),
        (valued('{"string":"Teapot"}'), False),
        (valued('{"string":"Teapot","xml":"Teapot"}'), False),
        (valued('{"kind":5,"xml":"13dp"}'), False),
        (valued('{"kind":256,"word":0,"xml":"0"}'), False),
        (valued('{"kind":5,"word":4294967296,"xml":"13dp"}'), False),
        (valued('{"kind":5,"word":3329,"xml":""}'), False),
        (valued('{"broken":"!Gone 12","xml":"!Gone 12"}'), False),
        (valued('{"reference":"color/ink","xml":"color/ink"}'), False),
        (valued('{"attribute":"attr/tint","xml":"@attr/tint"}'), False),
        (valued('{"kind":5,"reference":"color/ink","word":3329,"xml":"@color/ink"}'), False),
        (said(DIMENSION), False),
        (said("{}"), False),
        (said('{"absent":"dimen/handle","tooManyParents":"dimen/handle"}'), False),
        (said('{"absent":"0x7f01"}'), False),
        (bag((-1, STRING)), False),
        (bag(('"[0]"', STRING)), False),
        (said(f'{{"value":{DIMENSION}}}', '{"dpi":[160]}'), False),
        (said(f'{{"value":{DIMENSION}}}', '{"density":160}'), False),
        (said(f'{{"value":{DIMENSION}}}', '{"density":[]}'), False),
        (said(f'{{"value":{DIMENSION}}}', '{"locale":["DE"]}'), False),
        (said(f'{{"value":{DIMENSION}}}', '{"locale":["no-locale"]}'), False),
        ('{"line":"value","name":"dimen/handle","says":{"content":{"bag":[]},"devices":{}}}', False),
        ('{"count":0,"line":"shared-names"}', False),
        ('{"line":"set-aside","new":1,"old":1}', False),
        (SAME, False),
        (rows(f'{{"after":{DIMENSION},"key":0}}'), False),
    ],
    "query-line": [
        *((ended(f'"from":{ROW},"value":{stored(value)}'), True) for value in (DIMENSION, STRING, GARBLED, BROKEN, ATTRIBUTE)),
        (ended(f'"bag":{RESOURCE},"from":{ROW}'), True),
        (ended(f'"absent":{RESOURCE}'), True),
        (ended(f'"tooManyReferences":{RESOURCE}'), True),
        (placed("{}"), True),
        (placed('{"locale":"de-AT","script":"4c61746e","variant":"706f6c79746f6e69"}'), True),
        (placed('{"locale":"x80ff0000"}'), True),
        ('{"count":0,"line":"set-aside"}', True),
        (ended(f'"value":{HELD}'), False),
        (ended(f'"from":{ROW},"value":{DIMENSION}'), False),
        (ended(f'"from":{ROW}'), False),
        (ended('"absent":"dimen/handle"'), False),
        (ended(f'"absent":{RESOURCE},"from":{ROW}'), False),
        (ended(f'"from":{{"layer":0}},"value":{HELD}'), False),
        (ended(f'"from":{ROW.replace("words", "word")},"value":{HELD}'), False),
        (placed('{"density":0}'), False),
        (placed('{"density":"320"}'), False),
        (placed('{"dpi":320}'), False),
        (placed('{"locale":"deutsch"}'), False),
        (placed('{"script":"Latn"}'), False),
        (f'{{"end":{{"absent":{RESOURCE}}},"id":"dimen/handle","line":"end","name":"dimen/handle"}}', False),
        (f'{{"end":{{"absent":{RESOURCE}}},"id":"0x7f010000","line":"end"}}', False),
        ('{"line":"set-aside"}', False),
        (LOOK_UP, False),
    ],
    "explain-line": [
        (LOOK_UP, True),
        *((decided(f'"did":"{did}","words":"{did}"'), True) for did in ("set aside", "first", "took over equal", "kept out")),
        (decided('"did":"no match","qualifier":"density","words":"no match: density"'), True),
        (decided('"did":"took over","rule":"P15","words":"took over: density (P15)"'), True),
        (decided('"did":"first","words":"first"', f'{{"bag":{RESOURCE}}}'), True),
        (f'{{"end":{{"from":{ROW},"value":{HELD}}},"line":"end"}}', True),
        (decided('"did":"first"'), False),
        (decided('"did":"lost","words":"lost"'), False),
        (decided('"did":"no match","words":"no match: density"'), False),
        (decided('"did":"no match","qualifier":"dpi","words":"no match: dpi"'), False),
        (decided('"did":"first","rule":"P15","words":"first"'), False),
        (decided('"did":"kept out","rule":"P24","words":"kept out"'), False),
        (decided('"did":"kept out","rule":15,"words":"kept out"'), False),
        (decided('"did":"first","words":"first"', "{}"), False),
        (decided('"did":"first","words":"first"', f'{{"absent":{RESOURCE}}}'), False),
        ('{"id":"0x7f010000","line":"look-up"}', False),
        (ended(f'"absent":{RESOURCE}'), False),
        ('{"count":0,"line":"set-aside"}', False),
    ],
    "check-line": [
        ('{"goals":1,"line":"accepted","nodes":3}', True),
        ('{"failed":1,"goals":2,"line":"failed"}', True),
        ('{"count":0,"line":"set-aside"}', True),
        (rejected(), True),
        (rejected(f'"claimed":{CLAIMED},"devices":[],"goal":{RESOURCE},'), True),
        (rejected(f'"claimed":{{"bag":{RESOURCE}}},"goal":{RESOURCE[:-1]},"styles":[{RESOURCE}]}},'), True),
        (rejected(shown(f'{{"from":{ROW},"value":{HELD}}}', f'{{"bag":{RESOURCE},"from":{ROW}}}')), True),
        (rejected(shown(f'{{"absent":{RESOURCE}}}')), True),
        (rejected(shown(f'{{"tooManyReferences":{RESOURCE}}}')), True),
        (rejected(shown(CLAIMED)), True),
        ('{"goals":1,"line":"accepted"}', False),
        ('{"failed":0,"goals":2,"line":"failed"}', False),
        ('{"count":-1,"line":"set-aside"}', False),
        (rejected(f'"claimed":{{"absent":{RESOURCE}}},'), False),
        (rejected(f'"claimed":{{"from":{ROW},"value":{HELD}}},'), False),
        (rejected('"goal":0,'), False),
        (rejected('"goal":"dimen/handle",'), False),
        (rejected(shown("{}")), False),
        (rejected(shown(f'{{"value":{HELD}}}')), False),
        (rejected(shown(CLAIMED, CLAIMED, CLAIMED)), False),
        (rejected(f'"devices":[{{"end":{{"absent":{RESOURCE}}}}}],'), False),
        (rejected(f'"devices":[{{"device":{{"density":160,"night":0}},"end":{{"absent":{RESOURCE}}}}}],'), False),
        ('{"line":"rejected","node":0,"place":0,"rule":"N9","ruleName":"OtherValue"}', False),
        ('{"line":"rejected","node":0,"rule":"N8","ruleName":"OtherValue"}', False),
        (SAME, False),
    ],
    "attr-line": [
        ('{"id":"0x7f010000","line":"attribute","name":"attr/tint"}', True),
        (styled("not set", "not set"), True),
        (styled("first", "first", f'"from":{TOLD_LAYER},"value":{HELD},'), True),
        (styled("kept out", "kept out: set already", f'"from":{TOLD_LAYER},"value":{HELD},'), True),
        ('{"id":"0x7f010000","line":"look-up","name":"color/ink"}', True),
        (f'{{"end":{CLAIMED},"line":"end"}}', True),
        (f'{{"end":{{"absent":{RESOURCE}}},"line":"end"}}', True),
        (f'{{"end":{{"bag":{RESOURCE},"from":{ROW}}},"line":"end"}}', True),
        ('{"fault":"Plain","line":"no bag"}', True),
        (styled("first", "first"), False),
        (styled("lost", "lost"), False),
        (styled("not set", "not set", f'"from":{TOLD_LAYER},"value":{HELD},'), False),
        ('{"decision":"not set","id":"0x7f010000","line":"style","name":"style/A"}', False),
        (f'{{"end":{HELD},"line":"end"}}', False),
        (f'{{"end":{{"bag":{RESOURCE}}},"line":"end"}}', False),
        (SAME, False),
    ],
    "bag-line": [
        (bag_row("0", HELD), True),
        (bag_row('"other"', stored(STRING)), True),
        (bag_row('"attr/tint"', stored(REFERENCE)), True),
        (bag_row('"0x01010098"', stored(ATTRIBUTE)), True),
        *((f'{{"fault":"{fault}","line":"no bag"}}', True) for fault in ("Absent", "Plain", "BagDepth")),
        (bag_row("-1", HELD), False),
        (bag_row('"[0]"', HELD), False),
        (bag_row("0", "{}"), False),
        (bag_row("0", STRING), False),
        ('{"fault":"OutOfMemory","line":"no bag"}', False),
        ('{"line":"no bag"}', False),
        (f'{{"id":"0x7f010000","key":0,"line":"row","value":{HELD}}}', False),
        (SAME, False),
    ],
    "unused-line": [
        *((row(f'"value":{HELD}', line), True) for line in ("unused", "overlaid", "unmapped")),
        (row(f'"bag":{{"parent":{RESOURCE},"rows":2}}'), True),
        (row('"bag":{"rows":0}'), True),
        ('{"bytes":48,"count":11,"line":"rows","overlaid":4,"unmapped":0,"unused":3}', True),
        (LIMIT, True),
        (row(f'"value":{HELD}', "loaded"), False),
        (row(f'"value":{STRING}'), False),
        (row(f'"bag":{RESOURCE}'), False),
        (row(f'"bag":{{"rows":0}},"value":{HELD}'), False),
        (f'{{"from":{ROW},"id":"0x7f010000","line":"unused","name":"dimen/handle","value":{HELD}}}', False),
        ('{"count":11,"line":"rows"}', False),
        (SAME, False),
    ],
    "survey-line": [
        (found("compact-entry", '{"place":348}', "true"), True),
        (found("locale", '{"id":"0x7f010000"}', "false"), True),
        ('{"count":1,"first":{"id":"0x7f010000"},"line":"shared-names","warning":true}', True),
        (spread("320", "160", "density"), True),
        (spread('"fr-CA"', '"de"', "locale"), True),
        ('{"line":"lacks","qualifier":"night","warning":true}', True),
        (f'{{"fault":"Chunk Truncated 0","from":{LAYER_0},"line":"refused"}}', True),
        (f'{{"fault":"NotTable","from":{LAYER_0},"line":"refused"}}', True),
        (found("compact-entry", '{"place":348}', "false"), False),
        (found("locale", '{"id":"0x7f010000"}', "true"), False),
        (found("gender", "348", "true"), False),
        (found("of-no-kind", '{"place":348}', "true"), False),
        (found("gender", '{"place":348}', "true", "{}"), False),
        (spread('"fr-CA"', '"de"', "density"), False),
        (spread("320", "160", "locale"), False),
        (spread("320", "0", "density"), False),
        ('{"line":"lacks","qualifier":"dpi","warning":true}', False),
        ('{"line":"lacks","qualifier":"night"}', False),
        ('{"fault":"NotTable","line":"refused"}', False),
        (SAME, False),
    ],
    "map-line": [
        ('{"line":"pair","name":"dimen/handle","own":"0x7f010000","target":"0x7f020000"}', True),
        ('{"line":"pair","own":"0x7f010000","target":"0x7f020000"}', True),
        ('{"id":"0x7f010000","line":"unmapped","name":"dimen/handel"}', True),
        ('{"from":{"id":"0x7f010000"},"line":"astray","to":{"id":"0x7f010001","name":"s/b"}}', True),
        ('{"line":"pair","name":"dimen/handle","own":"0x7f010000"}', False),
        ('{"line":"pair","name":"dimen/handle","own":"7f010000","target":"0x7f020000"}', False),
        ('{"id":"0x7f010000","line":"unmapped","name":"handel"}', False),
        ('{"from":"0x7f010000","line":"astray","to":{"id":"0x7f010001"}}', False),
        ('{"from":{"id":"0x7f010000"},"line":"astray"}', False),
        (SAME, False),
    ],
}


# ---- what restool says

FILES = {
    "layers": LAYER.join("[]"),
    "id-map": "[]",
    "device": '{"density":160}',
    "box": '{"density":[160]}',
    "certificate": goals("[]"),
}

PARTS = {"id-map": "layer 1 map"}


def fault_told(program, options, name, text):
    """What restool refuses the text for, None where it is read."""
    files = {**FILES, name: text}
    if name == "id-map":
        files["layers"] = '[{"table":"table"},{"table":"table","map":"id-map"}]'
    for path, content in files.items():
        with open(path, "wb") as out:
            out.write(content if isinstance(content, bytes) else content.encode())
    inputs = ["box", "certificate"] if name in ("box", "certificate") else ["device"]
    command = "query" if inputs == ["device"] else "check"
    done = subprocess.run([program, command, *options, "layers", *inputs, "0x7f010000"], capture_output=True, text=True)
    start = f"refused: {PARTS.get(name, name)}: "
    if done.returncode == 3 and done.stderr.startswith(start):
        return done.stderr[len(start) : -1]
    return None if done.returncode in (0, 1) else f"status {done.returncode}: {done.stderr}"


def is_text_valid(schema, text):
    return is_valid(schema, schema, json.loads(text))


def check(program, name, schema, text, fault, is_schema_valid, options=()):
    told = fault_told(program, options, name, text)
    valid = is_text_valid(schema, text)
    if told == fault and valid == is_schema_valid:
        return []
    return [f"{name} {text[:120]}: told {told}, not {fault}; {'valid' if valid else 'not valid'} by the schema"]


def check_lines(name, schema):
    """The lines that a schema judges otherwise than it should."""
    wrong = [(text, is_line) for text, is_line in LINES[name] if is_text_valid(schema, text) != is_line]
    return [f"{name} {text}: {'not ' * is_line}valid by the schema" for text, is_line in wrong]


def main():
    program = os.path.abspath(sys.argv[1])
    named = sys.argv[2:] or [*ALIKE, *LINES]
    schemas = {name: json.load(open(os.path.join(SCHEMAS, f"{name}.json"))) for name in named}
    names, lines = ([name for name in named if name in texts] for texts in (ALIKE, LINES))
    texts = [(name, text, fault, fault is None) for name in names for text, fault in ALIKE[name]]
    texts += [(name, text, fault, fault is None) for name, (text, fault) in at_the_limits() if name in names]
    for name in names:
        as_phone = AS_PHONE.get(name, [])
        texts += [(name, text, fault, True) for text, fault in BEYOND[name] + as_phone]
        texts += [(name, text, None, True, LocaleFocus.options) for text, _ in as_phone]
    with tempfile.TemporaryDirectory() as folder:
        os.chdir(folder)
        with open("table", "wb") as table:
            table.write(table_bytes([]))
        with open("map", "w") as empty:
            empty.write("[]")
        faults = [fault for name, *text in texts for fault in check(program, name, schemas[name], *text)]
    faults += [fault for name in lines for fault in check_lines(name, schemas[name])]
    for fault in faults:
        print(fault)
    print(f"{len(texts) + sum(len(LINES[name]) for name in lines)} texts")
    sys.exit(bool(faults))


if __name__ == "__main__":
    main()

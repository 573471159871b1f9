#!/usr/bin/env python3
"""Asks the program, with its standard error on a terminal, about what it refuses or says no to: the hint that stands there behind
all else was written by hand.

    worked_hints.py PROGRAM [JOBS]

The cases are such as worked_rows.py has. Of each the message is to be the same where standard error is no terminal, and there is
no hint."""
import os
import subprocess

import on_terminal
from small_tables import TABLE_A, TABLE_B
from worked_rows import ID, MEDIUM, MEDIUM_BOX, Case, bytes_of, check_groups, files_of, named_table
from worked_words import APK, COMPRESSED


class Hinted(Case):
    """Words, and the hint; where there is none, that."""

    def __init__(self, words, hint=None, **files):
        super().__init__(words, "" if hint is None else f"hint: {hint}\n", **files)

    def answer(self, program, folder):
        for name, said in self.files.items():
            path = os.path.join(folder, name)
            os.makedirs(os.path.dirname(path), exist_ok=True)
            with open(path, "wb") as out:
                out.write(bytes_of(said))
        elsewhere = subprocess.run([program, *self.words], cwd=folder, capture_output=True, stdin=subprocess.DEVNULL)
        told, status = on_terminal.run([program, *self.words], cwd=folder, stdout=subprocess.DEVNULL)
        message = elsewhere.stderr.decode()
        is_idle = status == 0 and self.due[0] == ""
        if not told.startswith(message) or elsewhere.returncode != status or is_idle:
            return told, message, elsewhere.returncode
        return told[len(message) :].replace(folder, "FOLDER"), "", 0


LISTED = [{"table": "table"}]
FILES = {"layers": LISTED, "table": TABLE_A, "device": MEDIUM, "box": MEDIUM_BOX}


def asked(words, hint=None, **files):
    return Hinted(words, hint, **{**FILES, **files})


# ---- members of devices and boxes

DEVICES = [
    # A device, and what is said of it.
    ({"density": "xhdpi"}, '"xhdpi" is 320 at "density"'),
    ({"density": "320"}, 'write 320 without quotes at "density"'),
    ({"density": 160.5}, '"density" takes a whole number: 1 to 32767, as 320 for xhdpi'),
    ({"density": 160, "night": [1]}, '"night" has one value in a device; lists and ranges are for boxes'),
    ({"density": 160, "orientation": "land"}, '"land" is 2 at "orientation"'),
    ({"density": 160, "night": "yes"}, '"night" takes a number: 1 no, 2 yes'),
    ({"density": 160, "night": True}, '"night" takes a whole number: 1 no, 2 yes'),
    ({"density": 160, "Night": 2}, '"Night" is no qualifier: did you mean night?'),
    ({"density": 160, "nigth": 2}, '"nigth" is no qualifier: did you mean night?'),
    ({"density": 160, "screensize": 2}, '"screensize" is no qualifier: did you mean screenSize?'),
    ({"density": 160, "color": 2}, "\"color\" is no qualifier; restool device 'config: land-night-xhdpi' prints some"),
    ({"density": 160, "locale": 3}, '"locale" takes a text, as "es-MX"'),
    ({"density": 160, "screenSize": 360}, '"screenSize" is never 360: 1 small, 2 normal, 3 large, 4 xlarge'),
    ({"density": 160, "sdk": 65536}, '"sdk" is never 65536: the version of the platform, as 27'),
    ({"density": 0}, '"density" is never 0: 1 to 32767, as 320 for xhdpi'),
    ({"density": 65535}, '"density" is never 65535: 1 to 32767, as 320 for xhdpi'),
    ({"night": 2}, 'give the density, as "density":320 for xhdpi'),
    ({"density": 160, "locale": "es_MX"}, "write es-MX for es_MX"),
    ({"density": 160, "locale": "es-rMX"}, "write es-MX for es-rMX"),
    ({"density": 160, "locale": "ES-mx"}, "write es-MX for ES-mx"),
    ({"density": 160, "locale": "es-r419"}, "write es-419 for es-r419"),
    ({"density": 160, "locale": "sr-Latn"}, "sr-Latn has a script: give --locales android"),
    ({"density": 160, "locale": "zh_hans_CN"}, "write zh-Hans-CN for zh_hans_CN, and give --locales android"),
    ({"density": 160, "locale": "b+sr+Latn"}, "write sr-Latn for b+sr+Latn, and give --locales android"),
    ({"density": 160, "locale": "english"}, "locales are as es-MX or es-419, and with --locales android as sr-Latn-RS"),
    ({"density": 160, "locale": "-US"}, "locales are as es-MX or es-419, and with --locales android as sr-Latn-RS"),
    # One line, which no file can forge.
    ({"x\ny": 1}, '"\\"x\\x0ay\\" is no qualifier; restool device \'config: land-night-xhdpi\' prints some"'),
    ({"x" * 61: 1}, 'all but the locale are numbers: "density":320 for xhdpi, "orientation":2 for land, "night":2'),
]

BOXES = [
    # A box, and what is said of it.
    ({"density": [160, "xhdpi"]}, 'item 1: "xhdpi" is 320 at "density"'),
    ({"density": 160, "night": [1]}, '"density" takes a list in a box: [160]'),
    ({"density": {"from": 120, "to": "xhdpi"}}, 'to: "xhdpi" is 320 at "density"'),
    ({"density": {"from": 120, "to": 160, "by": 1}}, 'a range at "density" has from and to, and nothing else'),
    ({"density": [160], "night": {"from": 1}}, '"night" takes a list or a range, {"from":1,"to":2}: 1 no, 2 yes'),
    ({"density": [160], "nights": [1]}, '"nights" is no qualifier: did you mean night?'),
    ({"density": [160], "locale": "de"}, '"locale" takes a list of texts, as ["es-MX","de"]'),
    ({"density": [160], "locale": ["de", 1]}, '"locale" takes a list of texts, as ["es-MX","de"]'),
    ({"density": [160], "locale": ["de", "es_MX"]}, "write es-MX for es_MX"),
    ({"density": [160], "locale": ["de", "sr-Latn"]}, "sr-Latn has a script: give --locales android"),
    ({"density": [160], "night": [1, 2, 4]}, '"night" is never 4: 1 no, 2 yes'),
    ({"density": [160], "night": {"from": 1, "to": 4}}, '"night" is never 4: 1 no, 2 yes'),
    ({"density": [160, 40000]}, '"density" is never 40000: 1 to 32767, as 320 for xhdpi'),
    ({"night": [1]}, 'give the densities, as "density":[160,320] or "density":{"from":120,"to":640}'),
]

PARTS = [
    # Words, and what is said of them.
    ("config: b+sr+Latn-mdpi", "b+sr+Latn has a script: give --locales android"),
    ("config: land-medium", "the words are those of resource folders, each kind once, as en-rUS-sw411dp-land-night-xhdpi-v27"),
    ("config: land", "add the density, as xhdpi or 560dpi"),
    ("land-mdpi", "write 'config: land-mdpi' for a device as Android writes it"),
    ("land-medium", None),
    ("", "a word is empty: did the command fail that was to print it?"),
    ("config: b+x+y-mdpi", "the words are those of resource folders, each kind once, as en-rUS-sw411dp-land-night-xhdpi-v27"),
]


def of_devices():
    for device, hint in DEVICES:
        yield asked(f"query layers device {ID}", hint, device=device)
        yield Hinted("device device", hint, device=device)
    for word, hint in PARTS:
        yield Hinted(["device", word], hint)
    unsaid = 'give "uiType":1, which a line means that names no kind of device'
    yield Hinted("device --config device", unsaid, device=MEDIUM)
    yield Hinted("device --config device", device={"density": 160, "uiType": 1, "night": 3})
    phone = {"density": 160, "locale": "zh_hans_CN"}
    yield Hinted("device --locales android device", "write zh-Hans-CN for zh_hans_CN", device=phone)


def of_boxes():
    for box, hint in BOXES:
        yield asked(f"make layers box {ID}", hint, box=box)
        yield asked("diff layers layers box", hint, box=box)
    yield asked("survey layers box", '"nights" is no qualifier: did you mean night?', box={"density": [160], "nights": [1]})


# ---- other files than were expected

A_LIST = "a list is [{\"table\":\"PATH\"},{\"table\":\"PATH\",\"map\":\"PATH\"}]"
A_WORD = "LAYERS is a JSON list unless it ends in .apk or .arsc, as app.apk,split.apk+overlay.apk"
A_DEVICE = "a device is {\"density\":320,\"locale\":\"de-DE\",..}, or \"$(adb shell am get-config)\""
A_TABLE = "an apk is read where its path ends in .apk; restool survey tells more"
ZIP = "odd is a zip file; an apk is read where its path ends in .apk"
XML = b"\3\0\x08\0"


def of_files():
    for said, hint in [
        (b"", "odd is empty"), (b" \n", "odd is empty"), (APK, ZIP), (b"{", A_WORD),
        (TABLE_A, "odd is a table; one is read where its path ends in .arsc"),
        (XML, "odd is a binary XML file, and no JSON text"),
    ]:
        yield asked("ids odd", hint, odd=said)
        yield asked("diff layers odd box", hint, odd=said)
    for said, hint in [
        (b"", "odd is empty"), (APK, "odd is a zip file, and no JSON text"), (b"{", A_DEVICE),
        (TABLE_A, "odd is a table, and no JSON text"),
        (b"config: land-mdpi\n", 'give what am get-config printed itself: "$(cat odd)"'),
    ]:
        yield asked("device odd", hint, odd=said)
        yield asked(f"query layers odd {ID}", hint, odd=said)
    for said, hint in [
        (b"", "odd is empty"), (APK, ZIP), (b"[]", "odd is a JSON text, and no table"), (b"x", A_TABLE),
        (XML, "odd is a binary XML file; the table of an apk is its resources.arsc"),
    ]:
        yield asked("rows odd", hint, odd=said)
        yield asked("map odd table", hint, odd=said)
        yield asked("map table odd", hint, odd=said)
        yield asked("ids layers", hint, odd=said, layers=[{"table": "table"}, {"table": "odd"}])
    for said, hint in [
        (b"", "odd.apk is empty"), (b"{}", "odd.apk is a JSON text, and no table"),
        (TABLE_A, "odd.apk is a table; one is read where its path ends in .arsc"),
        (COMPRESSED, "unpack its table: unzip -p odd.apk resources.arsc >a.arsc"),
    ]:
        for words in ("rows odd.apk", "ids odd.apk", "ids table.arsc,odd.apk", "map table odd.apk", "diff layers odd.apk box"):
            yield asked(words, hint, **{"odd.apk": said, "table.arsc": TABLE_A})
    mapped = [{"table": "table"}, {"table": "table", "map": "odd"}]
    yield asked("ids layers", "odd is a table, and no JSON text", odd=TABLE_A, layers=mapped)
    # Standard input is not read once more, nor is a pipe.
    yield Hinted("rows -", A_TABLE)
    yield asked("device /dev/stdin", A_DEVICE)


CERTIFICATES = [
    (b"counter goal 1\ndevice density=160\n", "make printed no certificate into odd but: counter goal 1"),
    (b"node limit\n", "make printed no certificate into odd but: node limit"),
    (b"", "odd is empty"),
    (b"{", "where make finds a device without a value, or reaches its node limit, it prints no certificate"),
]


OTHER_BUILD = "maybe it is of another build, whose ids differ; its own: restool show layers made"
OTHER_ORDER = "the same goals stand there in another order: restool show layers made"


def of_certificates():
    for said, hint in CERTIFICATES:
        yield asked("show layers odd", hint, odd=said)
        yield asked(f"check layers box odd {ID}", hint, odd=said)
    leaf = [{"kind": 16, "layer": 0, "word": 5}]
    first, second = ({"id": name, "nodes": leaf} for name in (ID, "0x7f010001"))
    for goals, words, hint in [
        ([], [ID], f"made has no goal 0, for which {ID} is asked; {OTHER_BUILD}"),
        ([first], ["0x7f010002"], f"goal 0 of made is {ID}, and 0x7f010002 is asked for; {OTHER_BUILD}"),
        ([first, second], [ID], f"made has more goals, goal 1 is 0x7f010001; {OTHER_BUILD}"),
        ([first, second], ["0x7f010001", ID], f"goal 0 of made is {ID}, and 0x7f010001 is asked for; {OTHER_ORDER}"),
    ]:
        yield asked(["check", "layers", "box", "made", *words], hint, made={"version": 1, "goals": goals})
    named = named_table({"dimen/margin": 1})
    certified = {"version": 1, "goals": [second]}
    hint = f"goal 0 of made is 0x7f010001, and {ID} dimen/margin is asked for; {OTHER_BUILD}"
    for options in ("", "--android ", "--json "):
        yield asked(f"check {options}layers box made dimen/margin", hint, made=certified, table=named)
    yield asked("check layers box made @none", made=certified)


SERBIAN = "0 [] 1\n0 [locale=sr] 2\n0 [locale=sr,script=4c61746e] 3"


def of_rules():
    """Certificates that are true by the other rule of locales."""
    box = {"density": [160], "locale": ["sr-ME", "sr-RS"]}
    leaves = {word: {"kind": 16, "layer": 0, "word": word} for word in (2, 3, 7)}
    split = [{"coord": "locale", "in": ["sr-RS"]}, leaves[2], leaves[3]]
    as_phone, by_region, wrong = ({"version": 1, "goals": [{"id": ID, "nodes": nodes}]} for nodes in (split, [leaves[2]], [leaves[7]]))
    files = {**files_of([SERBIAN]), "box": box}
    for options, made, hint in [
        ("", as_phone, "it is true with --locales android: was it made so?"),
        ("--locales android ", by_region, "it is true without --locales android: was it made so?"),
    ]:
        yield Hinted(f"check {options}layers box made {ID}", hint, made=made, **files)
    for options in ("", "--locales android "):
        yield Hinted(f"check {options}layers box made {ID}", made=wrong, **files)
    yield Hinted("device --locales Android device", "write --locales android, or leave it out")


def of_lists():
    for listed, hint in [
        ([{"tabel": "table"}], 'item 0: "tabel": did you mean table?'),
        ([{"table": "table"}, {"table": 1}], 'item 1: "table" takes a text, the path of a file'),
        (["table"], 'item 0 is no object, as {"table":"PATH"}'),
        ([{}], 'item 0 has no "table"'),
        ([{"table": "table", "overlay": "x"}], 'item 0: "overlay" is neither table nor map'),
        ({}, A_LIST),
    ]:
        yield asked("ids layers", hint, layers=listed)
        yield asked("diff table.arsc layers box", hint, layers=listed, **{"table.arsc": TABLE_A})
    begins = "where paths begin in FOLDER"
    for words in ("ids lists/layers", "diff layers lists/layers box"):
        there = {"lists/layers": [{"table": "a.arsc"}]}
        yield asked(words, f"lists/layers names it, {begins}", **there)
        yield asked(words, f"lists/layers names it, {begins}: write lists/a.arsc", **there, **{"lists/a.arsc": TABLE_A})
    yield asked("ids layers", f"layers names it, {begins}", layers=[{"table": "table", "map": "none"}])
    yield asked("ids a.apk,b.apk", f"a.apk,b.apk names it, {begins}", **{"a.apk": APK})
    # A path of the words is not of a list.
    yield asked("ids none")
    yield asked("rows none")


# ---- answers that say no

def of_answers():
    more = "--max-nodes 10 allows more, fewer {} or a smaller box need less"
    split = {**files_of(["0 [] 1\n0 [density=160] 2\n0 [density=320] 3"]), "box": {"density": {"from": 120, "to": 640}}}
    for options, goals, hint in [
        ("--max-nodes 1", ID, f"0 of 1 goals were done with at most 1 nodes; {more.format('goals')}"),
        ("--omit --max-nodes 1", ID, f"0 of 1 goals were done with at most 1 nodes; {more.format('goals')}"),
        ("--max-nodes 1", f"{ID} {ID}", f"there are more goals than 1, the limit of nodes; {more.format('goals')}"),
        ("--max-nodes 9", f"{ID} {ID}", f"1 of 2 goals were done with at most 9 nodes; {more.format('goals').replace('10', '90')}"),
    ]:
        yield Hinted(f"make {options} layers box {goals}", hint, **split)
    old = {"old0": TABLE_A, "old": [{"table": "old0"}]}
    done = f"0 of 1 names were done with at most 1 nodes; {more.format('names')}"
    yield Hinted(f"diff --max-nodes 1 old layers box {ID}", done, **split, **old)
    yield Hinted(f"unused --max-nodes 1 layers box {ID}", more.format("names"), **split)
    yield asked("make layers box 0x7f010001", "--omit leaves out goals without a value on some device, and tells them")
    # Of an absent id and of what differs nothing is said, nor where --omit leaves no goal.
    yield asked("make --omit layers box 0x7f010001")
    yield asked("query layers device 0x7f010001")
    yield Hinted("diff old layers box", **split, **old)


def of_overlays():
    app, other = named_table({"dimen/margin": 1}), named_table({"dimen/none": 2})
    files = {"app.arsc": app, "rro.arsc": other, "both.arsc": named_table({"dimen/margin": 3, "dimen/none": 2}), "device": MEDIUM}
    hint = "nothing of layer {}, rro.arsc, maps to app.arsc: does it stand behind the right base?"
    yield Hinted(f"query app.arsc+rro.arsc device {ID}", hint.format(1), **files)
    yield Hinted(f"query app.arsc+both.arsc+rro.arsc device 0x7f010007", hint.format(2), **files)
    yield Hinted("diff app.arsc app.arsc+rro.arsc box", hint.format(1), box=MEDIUM_BOX, **files)
    yield Hinted("diff app.arsc app.arsc+both.arsc box", None, box=MEDIUM_BOX, **files)
    yield Hinted("map app.arsc rro.arsc", "nothing of the overlay maps: is it made for this target?", **files)
    yield Hinted("map app.arsc both.arsc", **files)
    # Another hint comes first.
    yield Hinted("query app.arsc+rro.arsc device dimen/margn", "did you mean dimen/margin?", **files)


NAMED = named_table({"dimen/margin": 1, "dimen/margin_small": 2, "color/clay": 3})
MISSING = [
    ("dimen/margn", "did you mean dimen/margin?"),
    ("dimen/marginsmall", "did you mean dimen/margin_small?"),
    ("dimens/margin", "did you mean dimen/margin?"),
    ("@dimen/margn", "did you mean dimen/margin?"),
    ("android:dimen/margin", "did you mean dimen/margin?"),
    (f"{ID} dimen/margin", f"a word has an id or a name, and not both: write {ID}"),
    ("string/title", "restool ids LAYERS prints all names"),
]

BAD_IDS = [
    # A word that asks for nothing, and what is said of it.
    ("R.dimen.margin", "write dimen/margin"),
    ("android.R.string.ok", "write android:string/ok"),
    ("7f010000", f"write {ID}"),
    (f"@{ID}", f"write {ID}"),
    (f"?{ID}", f"write {ID}"),
    ("?dimens/margin", "did you mean dimen/margin?"),
    ("margin", "a name has its type before it: did you mean dimen/margin?"),
    ("margn", "a name has its type before it: did you mean dimen/margin?"),
    ("nothing_near", None),
]

FRAMEWORK = named_table({"string/cancel": 1, "string/power_off": 2, "color/gl@ze": 3}, 0x01, name="android")
APP = named_table({"string/cancel": 4, "string/title": 5}, name="org.example.app")

NEAR = [
    # A word over the framework and an app, and the name that is near.
    ("string/titel", "org.example.app:string/title"),
    ("string/cancl", "org.example.app:string/cancel"),
    ("string/powr_off", "android:string/power_off"),
    ("android:string/cancl", "android:string/cancel"),
    ("0x01:string/cancl", "android:string/cancel"),
    ("org.example.app:string/power_off", "android:string/power_off"),
    ("0x7f:strings/*", "org.example.app:string/*"),
    ("strings/*", "string/*"),
]


def of_names():
    for word, hint in MISSING:
        yield asked(["query", "layers", "device", word], hint, table=NAMED)
        yield asked(["make", "layers", "box", word], hint, table=NAMED)
        yield asked(["diff", "layers", "layers", "box", word], hint, table=NAMED)
    yield asked(["query", "layers", "device", "colr/*"], "did you mean color/*?", table=NAMED)
    both = {"layers": [{"table": "framework"}, {"table": "app"}], "framework": FRAMEWORK, "app": APP}
    for word, name in NEAR:
        yield asked(["query", "layers", "device", word], f"did you mean {name}?", **both)
    # What no word asks for is not proposed.
    yield asked("query layers device color/glaze", "restool ids LAYERS prints all names", **both)
    for word, hint in BAD_IDS:
        yield asked(["query", "layers", "device", word], hint, table=NAMED)
        yield asked(["make", "layers", "box", word], hint, table=NAMED)
        yield asked(["explain", "layers", "device", word], hint, table=NAMED)
    no_file = "a word with @ before it names a file of words; for the resource write {}"
    yield asked("query layers device @+dimen/margin", no_file.format("dimen/margin"), table=NAMED)
    yield asked("query layers device @dimens/margin", no_file.format("dimens/margin"), table=NAMED)
    yield asked("explain layers device @+dimen/margin", "write dimen/margin", table=NAMED)
    yield asked("query layers device @words")
    yield asked(["diff", "layers", "layers", "box", "0x7f010001"], "restool ids LAYERS prints all names", table=TABLE_B)


WORDS = [
    # The text of a file of words, and what is said of it.
    (f"{ID} dimen/margin\n", f"goals, line 1: a word has an id or a name, and not both: write {ID}"),
    (f"# ids\n\n{ID}\n  R.dimen.margin\n", "goals, line 4: write dimen/margin"),
    (f"{ID}\ndimen/margn\n", "goals, line 2: did you mean dimen/margin?"),
    ("\ufeffmargin\r\n", "goals, line 1"),
]


def of_words():
    for text, hint in WORDS:
        for words in ("query layers device @goals", "make layers box @goals", "diff layers layers box @none @goals"):
            yield asked(words, hint, goals=text, none=ID, table=NAMED)


KINDS = {"list": LISTED, "phone": MEDIUM, "phones": MEDIUM_BOX, "made": {"version": 1, "goals": []}}
KIND_NAMES = {"list": "a list of layers", "phone": "a device", "phones": "a box", "made": "a certificate"}
SETS = 'a box has a list or a range for each qualifier, as "density":[160,320]; '
ONE_VALUE = 'a device has one value for each qualifier, as "density":320; '

MANY_GOALS = 2000
"""So many that the text is longer than those that are kept as a whole."""

EXCHANGED = [
    # Words with a * for a file, what that should be, and in which order files are given.
    (f"query list * {ID}", "device", "query takes LAYERS DEVICE ID.."),
    (f"explain list * {ID}", "device", "explain takes LAYERS DEVICE ID"),
    (f"make list * {ID}", "box", "make takes LAYERS BOX GOAL.."),
    (f"check list * made {ID}", "box", "check takes LAYERS BOX CERT GOAL.."),
    (f"check list phones * {ID}", "certificate", "check takes LAYERS BOX CERT GOAL.."),
    ("show list *", "certificate", "show takes LAYERS CERT"),
    ("diff list list *", "box", "diff takes OLD NEW BOX NAME.."),
    ("survey list *", "box", "survey takes LAYERS BOX"),
    (f"query * phone {ID}", "list of layers", "query takes LAYERS DEVICE ID.."),
]


def of_kinds():
    for words, expected, order in EXCHANGED:
        for path, name in KIND_NAMES.items():
            if not name.endswith(expected):
                form = {("phone", "box"): SETS, ("phones", "device"): ONE_VALUE}.get((path, expected), "")
                hint = f"{path} is {name}, and no {expected}; {form}{order}"
                yield Hinted(words.replace("*", path), hint, table=TABLE_A, **KINDS)
    for path in "list", "made":
        yield Hinted(f"device {path}", f"{path} is {KIND_NAMES[path]}, and no device", **KINDS)
    goals = [{"id": ID, "nodes": [{"layer": 0, "kind": 16, "word": 1}]}] * MANY_GOALS
    yield Hinted("device made", f"made is {KIND_NAMES['made']}, and no device", made={"version": 1, "goals": goals})


GROUPS = (
    of_devices, of_boxes, of_files, of_certificates, of_rules, of_lists, of_answers, of_overlays, of_names, of_words, of_kinds,
)

if __name__ == "__main__":
    check_groups(GROUPS)

"""Random apps with overlays, changes of them, and boxes. For check_diff.py."""
import math
from collections import namedtuple

from made_layers import Broken, NamedTable, Resource, Text, ids_of
from plain_bags import Bag
from plain_map import made_map
from plain_rules import COORDS, Record
from random_cases import NUMBERS, Focus

FRAMEWORK, APP = 0x01, 0x7F
COUNTS = {"string": 3, "color": 2, "dimen": 2, "attr": 3, "style": 3, "array": 1, "plurals": 1}
"""How many resources of each type an app has, at most."""
ENTRY_NAMES = ("title", "card", "größe", "a b", "Theme.Dark", "*", "a\u2028b", "\ud83d\ude00")
TEXTS = ("Cancel", "Cancel!", "OK", "日本", "", 'say "hi"', "one\ntwo", "😀", "\ud83d\ude00", "half \ud83d", "\udc00", " on sdk=26")
TEXTS += ("a -> b", "a\u0085", "\u202e\u2069", "\x1b[2K\t\\", Broken("Cut", 0), Broken("NotEnded", 0), Broken("NotEnded", 1))
VALUES = ((5, 0x401), (5, 0x301), (5, 0x101), (0x1C, 0xFF402000), (0x1D, 0xFF402000), (0x1D, 0xFF102030), (0x10, 1), (0x11, 1))
VALUES += ((0x10, 2), (0x12, 1), (0x12, 1), (0x12, 0xFFFFFFFF), (0x12, 0))
"""Some of which are told apart, though a device reads them alike."""
OTHERS = ((1, 0), (0, 0), (0, 1), (3, 99), (3, 98), (7, 0x7F010000), (1, 0x7F090000), (2, 0x01010001))
FIRST_OF = {"array": (0x02000000, 0x01000001), "plurals": (0x01000004, 0x01000006, 0x01000003)}
"""The first keys of rows: of an array as either packaging tool writes them."""
SIZES = (1, 4, 12, 12, 30, 60, 100)
MOST_MEMBERS = 200

App = namedtuple("App", "resources package_id is_overlay strings is_utf16 is_sparse own_first lost")
"""A table before it is built: its resources, the strings that its pool has first, whether its own ids come first where it names
resources, and the names that its id map loses."""


def layers_of(apps):
    """The layers that apps are built to: a table each, with the id map of an overlay. Names stand for resources of bases."""
    ids, target, layers = {}, None, []
    for app in reversed([app for app in apps if not app.is_overlay]):
        ids.update(ids_of(app.resources, app.package_id))
    for app in apps:
        own = ids_of(app.resources, app.package_id)
        known = {**ids, **own} if app.own_first else {**own, **ids}
        table = NamedTable(app.resources, known, app.package_id, app.strings, app.is_utf16, app.is_sparse)
        if not app.is_overlay and app.package_id == APP:
            target = target or table
        layers.append((table, map_of(target, table, app) if app.is_overlay else None))
    return layers


def map_of(target, table, app):
    own_of = made_map(target.rows, table.rows) if target and target.rows else {}
    lost = {table.ids.get(name) for name in app.lost}
    return {name: own for name, own in own_of.items() if name not in lost}


class Apps(Focus):
    """Apps over one another before a change and after it, and a box."""

    def __init__(self, chance):
        super().__init__(chance)
        self.often = 1.2 / len(self.focus)
        self.numbers = {**NUMBERS, **{name: self.two_numbers(name) for name in self.focus}}
        self.records = [Record({})] + [self.record() for _ in range(chance.randint(1, 4))]
        self.before = [self.app(False)]
        if chance.random() < 0.2:
            self.before.insert(0, self.app(False, FRAMEWORK))
        if chance.random() < 0.1:
            self.before.append(self.app(False))
        self.before += [self.app(True) for _ in range(chance.choice((0, 0, 1, 1, 2)))]
        self.after = self.before
        for _ in range(chance.choice((0, 1, 2, 4, 6, 9))):
            change = chance.choice(CHANGES)
            self.after = change(self, self.after) if self.after else [self.app(False)]
        self.box = self.small_box()

    def small_box(self):
        """A box of few devices, of which mostly some differ at a number that rows have."""
        while True:
            box = self.random_box(SIZES)
            if self.chance.random() < 0.2:
                box = self.narrowed(box, self.chance.choice(SIZES))
            if self.chance.random() < 0.8:
                box = self.widened(box)
            if math.prod(map(len, box.sets.values())) <= MOST_MEMBERS:
                return box

    def two_numbers(self, name):
        """Two numbers for rows; the last two densities are those of no device, so that the first is another."""
        numbers = NUMBERS[name]
        return self.chance.choice(numbers[:-2] or numbers), self.chance.choice(numbers)

    def widened(self, box):
        """The box with both devices that have the first number of some coordinates and devices that do not."""
        said = dict(box.said)
        for name in self.chance.sample(self.focus, min(len(self.focus), self.chance.choice((1, 2, 2, 3)))):
            number = self.numbers[name][0]
            if name == "locale" or self.chance.random() < 0.5:
                said[name] = [number, *self.random_choice(name, 2)]
            else:
                low = max(number - self.chance.randint(1, 3), 1 if name == "density" else 0)
                said[name] = low, number + (number < COORDS[name] and self.chance.random() < 0.5)
        return self.box_of(said)

    # ---- apps

    def app(self, is_overlay, package_id=APP):
        resources = []
        for type_name in self.chance.sample(list(COUNTS), len(COUNTS)):
            count = self.chance.randint(0, COUNTS[type_name]) if is_overlay or package_id == FRAMEWORK else COUNTS[type_name]
            names = self.chance.sample(ENTRY_NAMES, count)
            names += self.chance.sample(names, min(count, self.chance.random() < 0.03))
            resources += [self.resource(type_name, name, is_overlay) for name in names]
        return App(
            resources,
            package_id,
            is_overlay,
            self.strings(),
            self.chance.random() < 0.4,
            self.chance.random() < 0.2,
            not is_overlay or self.chance.random() < 0.2,
            self.chance.sample(sorted(ids_of(resources)), min(len(resources), self.chance.choice((0, 0, 0, 1, 2)))),
        )

    def strings(self):
        return self.chance.sample(TEXTS, self.chance.randint(0, 3))

    def resource(self, type_name, entry_name, is_overlay):
        default = 0.4 if is_overlay else 0.95
        has_row = lambda place: self.chance.random() < (0.5 if place else default)
        rows = [self.row(type_name, record) for place, record in enumerate(self.records) if has_row(place)]
        if self.chance.random() < 0.05:
            rows.append(self.row(type_name, self.chance.choice(self.records + [self.record()])))
        return Resource(type_name, entry_name, rows)

    def row(self, type_name, record):
        return record, self.cell(type_name)

    def name(self, type_name):
        return f"{type_name}/{self.chance.choice(ENTRY_NAMES)}"

    # ---- cells

    def cell(self, type_name):
        if self.chance.random() < 0.03:
            type_name = self.chance.choice(list(COUNTS))
        if type_name not in ("style", "array", "plurals"):
            return self.value(type_name)
        if self.chance.random() < 0.05:
            return f"@{self.name(type_name)}"
        is_style, count = type_name == "style", self.chance.randint(0, 3)
        if is_style:
            names = sorted({self.row_name(True) for _ in range(count)})
        else:
            first = self.chance.choice(FIRST_OF[type_name])
            names = [first + place for place in range(count)]
        parent = self.name("style") if is_style and self.chance.random() < 0.4 else 0
        return Bag(parent, [(name, self.value(self.chance.choice(list(COUNTS)[:4]))) for name in names])

    def row_name(self, is_style):
        return self.name("attr") if is_style else self.chance.choice(sum(FIRST_OF.values(), ())) + self.chance.randrange(4)

    def value(self, type_name):
        draw = self.chance.random()
        if draw < 0.2:
            return f"@{self.name(type_name)}"
        if draw < 0.25:
            return f"?{self.name('attr')}"
        if draw < 0.3:
            return self.chance.choice(OTHERS)
        return Text(self.chance.choice(TEXTS)) if type_name == "string" else self.chance.choice(VALUES)

    def other_cell(self, type_name, cell):
        """Another cell of a resource, in which little changes."""
        if not isinstance(cell, Bag):
            return self.cell(type_name)
        rows = list(cell.rows)
        draw = self.chance.random()
        if draw < 0.2:
            return Bag(self.chance.choice((0, self.name("style"))), rows)
        if draw < 0.5 or not rows:
            rows.append((self.row_name(type_name == "style"), self.value("string")))
        elif draw < 0.7:
            del rows[self.chance.randrange(len(rows))]
        else:
            place = self.chance.randrange(len(rows))
            rows[place] = rows[place][0], self.value("string")
        return Bag(cell.parent, rows)

    # ---- changes

    def in_some_app(self, apps, change):
        """The apps with a change of one of them, of which this makes other resources."""
        place = self.chance.randrange(len(apps))
        resources = change(apps[place], list(apps[place].resources))
        return with_item(apps, place, apps[place]._replace(resources=resources))

    def in_some_resource(self, apps, change):
        """The same of one resource that has rows, of which this makes others."""

        def changed(app, resources):
            places = [place for place, resource in enumerate(resources) if resource.rows]
            if not places:
                return resources
            place = self.chance.choice(places)
            resource = resources[place]
            return with_item(resources, place, resource._replace(rows=change(resource.type_name, list(resource.rows))))

        return self.in_some_app(apps, changed)

    def change_row(self, apps):
        def changed(type_name, rows):
            place = self.chance.randrange(len(rows))
            record, cell = rows[place]
            return with_item(rows, place, (record, self.other_cell(type_name, cell)))

        return self.in_some_resource(apps, changed)

    def change_all_rows(self, apps):
        return self.in_some_resource(apps, lambda type_name, rows: [self.row(type_name, record) for record, _ in rows])

    def remove_row(self, apps):
        return self.in_some_resource(apps, lambda _, rows: without_item(rows, self.chance.randrange(len(rows))))

    def add_row(self, apps):
        record = self.chance.choice(self.records + [self.record()])
        return self.in_some_resource(apps, lambda type_name, rows: rows + [self.row(type_name, record)])

    def add_name(self, apps):
        def changed(app, resources):
            made = self.resource(self.chance.choice(list(COUNTS)), self.chance.choice(ENTRY_NAMES + ("new",)), app.is_overlay)
            place = self.chance.randint(0, len(resources))
            return resources[:place] + [made] + resources[place:]

        return self.in_some_app(apps, changed)

    def remove_name(self, apps):
        remove = lambda _, resources: without_item(resources, self.chance.randrange(len(resources))) if resources else resources
        return self.in_some_app(apps, remove)

    def move_names(self, apps):
        return self.in_some_app(apps, lambda _, resources: self.chance.sample(resources, len(resources)))

    def move_strings(self, apps):
        place = self.chance.randrange(len(apps))
        other = apps[place]._replace(strings=self.strings(), is_utf16=self.chance.random() < 0.5)
        return with_item(apps, place, other)

    def lay_over(self, apps):
        return apps + [self.app(True)]

    def remove_layer(self, apps):
        return without_item(apps, self.chance.randrange(len(apps)))

    def move_layers(self, apps):
        return self.chance.sample(apps, len(apps))


def with_item(items, place, item):
    return items[:place] + [item] + items[place + 1 :]


def without_item(items, place):
    return items[:place] + items[place + 1 :]


CHANGES = (
    [Apps.change_row] * 6
    + [Apps.change_all_rows] * 2
    + [Apps.remove_row, Apps.add_row, Apps.add_name, Apps.remove_name] * 2
    + [Apps.move_names, Apps.move_strings, Apps.lay_over, Apps.lay_over, Apps.remove_layer, Apps.move_layers]
)

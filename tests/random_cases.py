"""Random layers, boxes and certificates. For the scripts beside it."""
from made_layers import table_bytes
from plain_bags import Attribute, Bag
from plain_certificates import Box, leaf_of
from plain_rules import COORDS, Layers, Record, by_id

FIRST_ID = 0x7F010000
ENTRIES = 5
STYLES = 3
FIRST_ATTRIBUTE = 0x01010000
ATTRIBUTES = 4
MOST_STYLES = 3
MOST_MEMBERS = 1500
MOST_NODES = 40
GREATEST_DENSITY = 32767

NUMBERS = {
    "mcc": (310, 311),
    "mnc": (4, 65535),
    "locale": ("de", "de-DE", "fr", "fr-CA", "es-419", "fil", "en-US"),
    "layoutDirection": (1, 2),
    "smallestWidthDp": (320, 600, 720),
    "widthDp": (400, 600),
    "heightDp": (400, 600),
    "screenSize": (1, 2, 3, 4),
    "long": (1, 2),
    "round": (1, 2),
    "wideColor": (1, 2),
    "hdr": (1, 2),
    "orientation": (1, 2, 3),
    "uiType": (1, 3, 4, 7),
    "night": (1, 2),
    "density": (120, 160, 213, 240, 320, 480, 640, 65534, 65535),
    "touchscreen": (1, 2, 3),
    "keysHidden": (1, 2, 3),
    "navHidden": (1, 2),
    "keyboard": (1, 2, 3),
    "navigation": (1, 2, 3, 4),
    "width": (480, 800),
    "height": (480, 800),
    "sdk": (19, 21, 24),
    "minor": (1, 2),
}
"""What rows say of each coordinate."""


OTHER_CELLS = ((1, 0), (2, 0x01010001), (3, 0), (0, 0), (0, 1), (0x12, 0xFFFFFFFF), (0x1C, 0xFF102030))


class Focus:
    """A few coordinates that most rows and boxes are about. A row has each of them often, with one of these numbers."""

    options = ()
    """How the program is asked about them."""
    often = 0.6
    numbers = NUMBERS
    box_of = Box
    layers_of = Layers

    def __init__(self, chance):
        self.chance = chance
        self.focus = chance.sample(list(COORDS), chance.randint(1, 4))
        if chance.random() < 0.3 and "density" not in self.focus:
            self.focus.append("density")

    def record(self):
        given = {}
        for name in COORDS:
            if self.chance.random() < (self.often if name in self.focus else 0.02):
                given[name] = self.chance.choice(self.numbers[name])
        script = b"Latn" if self.chance.random() < 0.04 else b""
        variant = b"polytoni" if self.chance.random() < 0.02 else b""
        return Record(given, script, variant, int(self.chance.random() < 0.05))

    def random_range(self, name, size):
        greatest = GREATEST_DENSITY if name == "density" else COORDS[name]
        size = self.chance.randint(1, min(size, greatest))
        low = self.chance.choice((0,) + self.numbers[name]) - self.chance.randrange(size)
        low = max(low, 1 if name == "density" else 0)
        low = min(low, greatest - size + 1)
        return low, low + size - 1

    def random_choice(self, name, size):
        values = list(self.numbers[name]) + ["" if name == "locale" else 0, self.chance.choice(self.numbers[name])]
        if name == "locale":
            values += ["it", "de-AT"]
        else:
            values += [self.chance.choice(self.numbers[name]) + 1]
        most = GREATEST_DENSITY if name == "density" else COORDS[name]
        least = 1 if name == "density" else 0
        values = [value for value in values if name == "locale" or least <= value <= most]
        return self.chance.choices(values, k=self.chance.randint(1, size))

    def random_box(self, sizes):
        """A box of one of these sizes, or somewhat smaller."""
        said, left = {}, self.chance.choice(sizes)
        for name in self.chance.sample(self.focus, len(self.focus)):
            if name == "locale" or self.chance.random() < 0.4:
                said[name] = self.random_choice(name, min(left, 8))
                left //= len(set(said[name]))
            else:
                said[name] = self.random_range(name, left)
                left //= said[name][1] - said[name][0] + 1
        for name in COORDS:
            if name not in said and (name == "density" or self.chance.random() < 0.15):
                single = name == "locale" or self.chance.random() < 0.5
                said[name] = self.random_choice(name, 1) if single else self.random_range(name, 1)
        return self.box_of(said)

    def narrowed(self, box, size):
        """The box with one value of each coordinate but one, of which it has so many at most."""
        said = {}
        for name, values in box.said.items():
            value = self.chance.choice(box.sets[name])
            said[name] = (value, value) if isinstance(values, tuple) else [value]
        name = self.chance.choice(self.focus)
        is_choice = name == "locale" or self.chance.random() < 0.4
        said[name] = self.random_choice(name, min(size, 8)) if is_choice else self.random_range(name, size)
        return self.box_of(said)


class Case(Focus):
    """Layers, a box, and the goals that are asked: ids, and, where the case has styles, attributes too."""

    table_bytes = staticmethod(table_bytes)
    """The table of rows, of a layer."""

    def __init__(self, chance, has_styles=False):
        super().__init__(chance)
        self.has_styles = has_styles
        self.tables = [self.rows() for _ in range(chance.randint(1, 3))]
        self.maps = [None] + [self.id_map() for _ in self.tables[1:]]
        self.layers = self.layers_of([(by_id(rows), own) for rows, own in zip(self.tables, self.maps)])
        self.box = self.random_box((2, 30, 100, 300) if has_styles else (2, 30, 300, MOST_MEMBERS))
        self.members = self.box.members()
        self.asked = [self.goal() for _ in range(chance.randint(1, 3))]

    def goal(self):
        if self.has_styles and self.chance.random() < 0.8:
            named = ENTRIES + 1 if self.chance.random() < 0.1 else STYLES
            styles = self.chance.choices(range(FIRST_ID, FIRST_ID + named), k=self.chance.randint(1, MOST_STYLES))
            return Attribute(self.attribute(), tuple(styles))
        return FIRST_ID + self.chance.randrange(ENTRIES)

    def attribute(self):
        return FIRST_ATTRIBUTE + self.chance.randrange(ATTRIBUTES)

    # ---- layers

    def value_of_row(self):
        draw = self.chance.random()
        if draw < 0.1:
            return 2, self.attribute()
        if draw < 0.3:
            return 1, FIRST_ID + self.chance.randrange(STYLES, ENTRIES)
        if draw < 0.38:
            return self.chance.choice(OTHER_CELLS)
        return 0x10, self.chance.choice((1, 1, 2))

    def style(self, name):
        """A bag, whose parent seldom leads back to it."""
        draw = self.chance.random()
        parent = 0
        if draw < 0.4 and name > FIRST_ID:
            parent = self.chance.randrange(FIRST_ID, name)
        elif draw < 0.45:
            parent = FIRST_ID + self.chance.randint(0, ENTRIES)
        rows = [(self.attribute(), self.value_of_row()) for _ in range(self.chance.randint(3, ATTRIBUTES + 3))]
        return Bag(parent, rows)

    def cell_of(self, name):
        is_style = self.has_styles and name < FIRST_ID + STYLES
        return self.style(name) if is_style and self.chance.random() < 0.99 else self.cell()

    def cell(self):
        draw = self.chance.random()
        if draw < 0.2:
            return 1, FIRST_ID + self.chance.randint(0, ENTRIES)
        if draw < 0.3:
            return Bag(rows=[(FIRST_ATTRIBUTE, (0x10, 0))])
        if draw < 0.4:
            return self.chance.choice(OTHER_CELLS)
        return 0x10, self.chance.choice((1, 1, 2, 0xFFFFFFFF))

    def rows(self):
        rows = []
        for name in range(FIRST_ID, FIRST_ID + ENTRIES):
            if self.chance.random() < 0.95:
                rows.append((name, Record({}), self.cell_of(name)))
            rows += [(name, self.record(), self.cell_of(name)) for _ in range(self.chance.randint(0, 5))]
        self.chance.shuffle(rows)
        return rows

    def id_map(self):
        """None for a further base."""
        if self.chance.random() < 0.3:
            return None
        targets = self.chance.sample(range(FIRST_ID, FIRST_ID + ENTRIES), self.chance.randint(0, ENTRIES))
        return {target: FIRST_ID + self.chance.randrange(ENTRIES) for target in targets}

    def narrow(self):
        """Leaves one value of each coordinate but one."""
        self.box = self.narrowed(self.box, 300)
        self.members = self.box.members()


class CertifiedCase(Case):
    """A case with a certificate: a list of goals with their nodes."""

    def __init__(self, chance, has_styles=False):
        super().__init__(chance, has_styles)
        self.goals = [(goal, self.tree(goal)) for goal in self.asked]
        for _ in range(chance.choice((0, 0, 1, 1, 2))):
            self.mutate()

    # ---- true certificates

    def any_leaf(self):
        if self.chance.random() < 0.2:
            return {"bag": f"0x{FIRST_ID + self.chance.randrange(ENTRIES):08x}"}
        return {"layer": self.chance.randrange(3), "kind": 0x10, "word": self.chance.randint(0, 3)}

    def any_test(self):
        name = self.chance.choice(self.focus)
        if self.chance.random() < 0.5:
            return {"coord": name, "in": self.random_choice(name, 3)}
        most = 3 if name == "locale" else self.chance.choice(NUMBERS[name]) + self.chance.randint(-1, 1)
        return {"coord": name, "atMost": most}

    def tree(self, goal):
        """Nodes of which most are true: while devices with different traces are left, a test that parts two of them."""
        traces = {tuple(device.values()): self.layers.trace(goal, device) for device in self.members}
        nodes, waiting = [], [self.members]
        while waiting:
            members = waiting.pop()
            found = {traces[tuple(device.values())] for device in members}
            if not members or len(found) == 1 or len(nodes) > MOST_NODES or self.chance.random() < 0.03:
                end = found.pop()[1] if found else ("absent",)
                nodes.append(leaf_of(end) if end[0] in ("value", "bag") else self.any_leaf())
                continue
            test = self.parting(members, traces)
            values = test.get("in") or [value for value in self.box.sets[test["coord"]] if value <= test["atMost"]]
            nodes.append(test)
            for wanted in (False, True):
                waiting.append([device for device in members if (device[test["coord"]] in values) == wanted])
        return nodes

    def parting(self, members, traces):
        """A test on the coordinate in which two neighbours differ that have different traces."""
        first = self.chance.choice(members)
        own = traces[tuple(first.values())]
        second = self.chance.choice([device for device in members if traces[tuple(device.values())] != own])
        for name in self.chance.sample(list(COORDS), len(COORDS)):
            values = [device[name] for device in members]
            changed = {**first, name: second[name]}
            if traces[tuple(changed.values())] != own:
                break
            first = changed
        keeping = [value for value in dict.fromkeys(values) if traces[tuple({**first, name: value}.values())] == own]
        if not self.box.is_range(name) and (name == "locale" or self.chance.random() < 0.7):
            return {"coord": name, "in": self.chance.sample(keeping, len(keeping))}
        among = [value for value in self.box.sets[name] if value in values]
        turns = [low for low, high in zip(among, among[1:]) if (low in keeping) != (high in keeping)]
        return {"coord": name, "atMost": self.chance.choice(turns)}

    # ---- wrong certificates

    def mutate(self):
        wrong = (self.wrong_leaf, self.wrong_test, self.wrong_list, self.wrong_goals)
        self.chance.choices(wrong, weights=(3, 6, 4, 1))[0]()

    def wrong_node(self, is_test):
        nodes = self.chance.choice(self.goals)[1] if self.goals else []
        places = [place for place, node in enumerate(nodes) if ("coord" in node) == is_test]
        return (nodes, self.chance.choice(places)) if places else (None, None)

    def wrong_leaf(self):
        nodes, place = self.wrong_node(False)
        if nodes is None:
            return
        leaf = dict(nodes[place])
        if "bag" in leaf or self.chance.random() < 0.3:
            leaf = self.any_leaf()
        else:
            part = self.chance.choice(("layer", "kind", "word"))
            leaf[part] = (leaf[part] + 1) % 64
        nodes[place] = leaf

    def wrong_test(self):
        nodes, place = self.wrong_node(True)
        if nodes is None:
            return
        test = dict(nodes[place])
        draw = self.chance.random()
        if draw < 0.3:
            test = self.any_test()
        elif "atMost" in test and draw < 0.8:
            test["atMost"] = max(0, test["atMost"] + self.chance.choice((-1, 1, 200)))
        elif "in" in test and draw < 0.8:
            test["in"] = test["in"][1:] + self.random_choice(test["coord"], 2)
        else:
            test = self.other_kind(test)
        nodes[place] = test

    @staticmethod
    def other_kind(test):
        """`in` in place of `atMost`, and the other way round."""
        name = test["coord"]
        if "atMost" in test:
            return {"coord": name, "in": [""] if name == "locale" else [test["atMost"]]}
        return {"coord": name, "atMost": 0 if name == "locale" else max(test["in"], default=0)}

    def wrong_list(self):
        nodes = self.chance.choice(self.goals)[1] if self.goals else []
        place = self.chance.randint(0, len(nodes))
        draw = self.chance.randrange(6)
        if draw == 0:
            del nodes[place:]
        elif draw == 1:
            del nodes[place : place + 1]
        elif draw == 2:
            nodes.insert(place, self.any_leaf())
        elif draw == 3:
            nodes.insert(place, self.any_test())
        elif draw == 4:
            nodes[place : place + 2] = reversed(nodes[place : place + 2])
        else:
            nodes += nodes[place:]

    def wrong_goals(self):
        place = self.chance.randrange(len(self.goals)) if self.goals else 0
        draw = self.chance.randrange(4)
        if draw == 0:
            del self.goals[place:]
        elif draw == 1:
            self.goals.append((FIRST_ID, [self.any_leaf()]))
        elif draw == 2:
            self.goals.reverse()
        elif self.goals:
            goal, nodes = self.goals[place]
            self.goals[place] = (self.other_goal(goal), nodes)

    def other_goal(self, goal):
        if not isinstance(goal, Attribute):
            return goal + 1
        attr, styles = goal
        others = [(attr + 1, styles), (attr, styles + (FIRST_ID,)), (attr, styles[1:]), (attr, styles[::-1])]
        return Attribute(*self.chance.choice(others))

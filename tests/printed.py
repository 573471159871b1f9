"""What restool prints of the layers of a stack, read. For the scripts beside it."""
import json
import re
import subprocess
import sys

CANDIDATE = re.compile(r"candidate (\d+) layer (\d+) (\[[^\]]*\]) (.*)")
TAKES_OVER = ("first", "took over")
IDS_IN_A_QUERY = 5000


class Row:
    """A row of a table: its configuration, its value, and at a bag its parent and the rows of it."""

    def __init__(self, record, value):
        self.record = record
        self.value = value
        self.parent = None
        self.rows = []
        if value.startswith("bag "):
            self.value = "bag"
            self.parent = value.split(" ")[2]


class Restool:
    """The program, asked about layers and a device. It is run from the folder that paths are relative to."""

    def __init__(self, program, layers, device):
        self.program = program
        self.of_device = [layers, device]
        with open(layers) as text:
            listed = json.load(text)
        self.layers = [(self.table_rows(layer["table"]), read_map(layer)) for layer in listed]

    def run(self, *words):
        """The lines that are printed, and the status."""
        done = subprocess.run([self.program, *words], capture_output=True, text=True)
        if done.returncode > 1:
            sys.exit(f"status {done.returncode}: {' '.join(words[:4])}: {done.stderr}")
        return done.stdout.splitlines(), done.returncode

    def ask(self, command, *words):
        return self.run(command, *self.of_device, *words)

    def table_rows(self, table):
        """The rows of each id of a table."""
        rows = {}
        for line in self.run("rows", table)[0]:
            if line.startswith("row "):
                _, name, record, value = line.split(" ", 3)
                row = Row(record, value)
                rows.setdefault(name, []).append(row)
            elif line.startswith("  "):
                name, value = line[2:].split(" ", 1)
                row.rows.append((name, value))
        return rows

    def ids(self):
        """All ids of the bases, sorted."""
        return sorted({name for rows, target_of in self.layers if target_of is None for name in rows})

    def candidates(self, name):
        """The candidates of an id, each with the place of its layer."""
        found = []
        for place, (rows, target_of) in enumerate(self.layers):
            own = name if target_of is None else target_of.get(name)
            found += [(place, row) for row in rows.get(own, [])]
        return found

    def ends(self, names):
        """What `query` says of each id, without the text after a string."""
        ends = {}
        for start in range(0, len(names), IDS_IN_A_QUERY):
            for line in self.ask("query", *names[start : start + IDS_IN_A_QUERY])[0]:
                if line.startswith("0x"):
                    name, end = line.split(" ", 1)
                    ends[name] = re.sub(r"^(value layer \d+ string \d+) .*", r"\1", end)
        return ends


def read_map(layer):
    """Which own id stands for each target of an overlay, None at a base."""
    if "map" not in layer:
        return None
    with open(layer["map"]) as text:
        return {target.lower(): own.lower() for target, own in json.load(text)}

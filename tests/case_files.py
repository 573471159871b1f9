"""The files of a random case, and the program asked about them. For the scripts beside it."""
import json
import os
import subprocess

from plain_bags import Attribute
from plain_certificates import id_text
from plain_rules import COORDS


def device_of(words):
    """The device that is printed so."""
    device = {name: "" if name == "locale" else 0 for name in COORDS}
    for word in words.split():
        name, _, value = word.partition("=")
        device[name] = value if name == "locale" else int(value)
    return device


class Files:
    """The layers and the box of a case, in a folder of their own."""

    def __init__(self, program, folder, case):
        self.program = program
        self.options = case.options
        self.folder = folder
        self.write("box", case.box.json())
        layers = []
        for place, (rows, own_of) in enumerate(zip(case.tables, case.maps)):
            layers.append({"table": f"table{place}"})
            with open(os.path.join(folder, f"table{place}"), "wb") as table:
                table.write(case.table_bytes(rows))
            if own_of is not None:
                layers[-1]["map"] = f"map{place}"
                self.write(f"map{place}", [[id_text(target), id_text(own)] for target, own in own_of.items()])
        self.write("layers", layers)

    def write(self, name, said):
        with open(os.path.join(self.folder, name), "w") as text:
            json.dump(said, text)

    def streams(self, command, *words):
        """What is printed, what is said on the standard error, and the status."""
        words = [self.program, command, *self.options, *words]
        done = subprocess.run(words, cwd=self.folder, capture_output=True, text=True)
        return done.stdout, done.stderr, done.returncode

    def printed(self, *words):
        """What is printed, messages after it, and the status."""
        printed, messages, status = self.streams(*words)
        return printed + messages, status

    def run(self, *words):
        """The lines that are printed, and the status. A message is a line too."""
        printed, status = self.printed(*words)
        return printed.splitlines(), status

    def answer(self, command, device, *names):
        """The lines that a command prints of a device, and the status."""
        self.write("device", {coord: value for coord, value in device.items() if value})
        return self.run(command, "layers", "device", *map(id_text, names))

    def ask(self, command, device, *names):
        """The lines alone."""
        return self.answer(command, device, *names)[0]

    def explain(self, name, device):
        return self.ask("explain", device, name)

    def end(self, goal, device):
        """Where a goal ends, as `query` or `attr` says it."""
        if not isinstance(goal, Attribute):
            return self.ask("query", device, goal)[0].split(" ", 1)[1]
        line = self.ask("attr", device, goal.attr, *goal.styles)[0]
        return self.end_at_style(goal, device) if line.startswith("no bag") else line.split(" ", 1)[1]

    def end_at_style(self, goal, device):
        """The same at the first style that is no bag or has too many parents, which `attr` does not name."""
        for style in goal.styles:
            line = self.ask("bag", device, style)[:1]
            if line and line[0].startswith("no bag"):
                return f"{'too long' if line[0] == 'no bag BagDepth' else 'absent'} {id_text(style)}"
        return "no such style"

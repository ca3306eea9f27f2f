"""Files of cases that scripts write."""

import base64
import json
import os

from forms import OBJECTS, Reader
from judge import Run, ends_of

FOLDER = os.path.dirname(os.path.abspath(__file__))


def values_of(*files):
    """The values that these files of the folder name."""
    reader = Reader()
    for file in files:
        reader.cases(os.path.join(FOLDER, file))
    return reader.values


def case_of(values, *lines):
    """The case that the lines write, over these values."""
    reader = Reader()
    reader.values = values
    found = []
    for line in lines:
        reader.line(line, found)
    return found[0]


def calls_of(values, settings):
    """How many calls of each object the run of these settings makes, and of the plugs' shelves."""
    run = Run(case_of(values, "case counted", *settings))
    plugs = list(run.plugs)
    run.ended()
    calls = {name: getattr(run, name).calls for name in OBJECTS}
    calls["plug"] = sum(plug.shelf.calls for plug in plugs)
    return calls


def failing_line(name, *numbers):
    """The setting by which these calls of an object, or of the last plug's shelf, fail."""
    calls = " ".join(map(str, numbers))
    return f"plug-fail {calls}" if name == "plug" else f"fail {name} {calls}"


def raw_node(name, key, retired=False):
    """The node of a keyring file for a key of the namespace `ns`."""
    node = {"namespace": "ns", "name": name, "key": base64.b64encode(key).decode()}
    return {"raw": {**node, "retired": True} if retired else node}


def multi_node(generator, *children):
    return {"multi": {**({"generator": generator} if generator else {}), "children": list(children)}}


def tree_text(node, version=1):
    """A keyring file, as a value of a case."""
    return json_line({"version": version, "ring": node})


def json_line(value):
    return "text " + json.dumps(value, separators=(",", ":"), ensure_ascii=False)


def hex_lines(setting, bytes_):
    """Lines of a setting whose bytes these are."""
    return [f"{setting} hex {bytes_[at : at + 100].hex()}" for at in range(0, len(bytes_), 100)] or [f"{setting} hex "]


def up_to(end, piece, size):
    """How many bytes of an input of this size are taken, in pieces of so many, where what comes last ends at this offset."""
    return min(-(-end // piece) * piece, size)


class Table:
    """A file of cases while it is written."""

    def __init__(self, script, name, head, values):
        self.path = os.path.join(FOLDER, f"{name}.cases")
        self.values = values
        self.lines = [f"# {line}" for line in head]
        self.lines += [f"# This file was written by `{script}`; don't change it by hand.", ""]

    def remark(self, *lines):
        self.lines += [f"# {line}" for line in lines]

    def value(self, name, bytes_):
        """Names bytes, for the cases that come later."""
        self.lines += [*hex_lines(f"value {name}", bytes_), ""]
        self.values.name(name, bytes_)

    def add(self, name, *settings, want=None):
        """A case, whose `ends` line is the judge's, and as wanted where it was worked out by hand; answers that line."""
        ends = ends_of(case_of(self.values, f"case {name}", *settings))
        assert want in (None, ends), f"{name}\n  by hand: {want}\n  judged:  {ends}"
        self.lines += [f"case {name}", *settings, f"ends {ends}", ""]
        return ends

    def save(self):
        with open(self.path, "w", encoding="utf-8", newline="\n") as file:
            file.write("\n".join(self.lines).rstrip("\n") + "\n")

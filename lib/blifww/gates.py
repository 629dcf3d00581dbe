"""The gates of docs/GATES.md, and the lines of a pattern that name its gates and wires (docs/FORMATS.md)."""
import re
from dataclasses import dataclass

from .program import ROOT
from .rle import STEPS, lines_of, read_header

SECTION = re.compile(r"^## (\S+)\n(.*?)```text\n(.*?)\n```", re.M | re.S)
PORT = re.compile(r"^\| `(\w)` \| (\d+) \| (.*?) ?\|$", re.M)
TURNS = {  # where a cell of a turned drawing is in the one whose signals run east, with that one's last column and row
    "E": lambda x, y, right, low: (x, y),
    "e": lambda x, y, right, low: (x, low - y),
    "S": lambda x, y, right, low: (y, low - x),
    "s": lambda x, y, right, low: (y, x),
    "W": lambda x, y, right, low: (right - x, low - y),
    "w": lambda x, y, right, low: (right - x, y),
    "N": lambda x, y, right, low: (right - y, x),
    "n": lambda x, y, right, low: (right - y, low - x),
}
GATE_LINE = re.compile(r"#C gate ([A-Z0-9-]+)-([EeSsWwNn]) ([0-9]{1,9}) ([0-9]{1,9}) [0-9]{1,9}(?: [0-9]{1,9})?")
WIRE_LINE = re.compile(r"#C wire ([0-9]{1,9}) ([0-9]{1,9}) ([NESW]{1,2}) ([0-9]{1,9}) ([0-9]{1,9}) (-|[01]+)")


@dataclass
class Gate:
    """A gate with its signals running east. A port's letter gives the generation at which it is lit; an output's also
    gives its bit, as the page says it."""

    word: str
    rows: list
    inputs: dict
    outputs: dict
    time: int
    is_apart: bool

    def places(self):
        """Returns the cell of each port."""
        return {letter: (x, y) for y, row in enumerate(self.rows) for x, letter in enumerate(row) if letter.islower()}

    def copies(self):
        """Returns which input's bit an output has, if it is one input's; an output that is an input's cell has its
        letter."""
        cells = self.places()
        found = {letter: bit for letter, (_, bit) in self.outputs.items() if bit in self.inputs}
        return {letter if letter in cells else bit: bit for letter, bit in found.items()}


def library():
    """Returns the gates of docs/GATES.md by their words."""
    page = (ROOT / "docs/GATES.md").read_text()
    found = {}
    for word, facts, drawing in SECTION.findall(page):
        ports = [(letter, int(lit), bit) for letter, lit, bit in PORT.findall(facts)]
        inputs = {letter: lit for letter, lit, bit in ports if not bit}
        outputs = {letter: (lit, bit) for letter, lit, bit in ports if bit}
        time = int(re.search(r"Time (\d+)", facts)[1])
        found[word] = Gate(word, drawing.split("\n"), inputs, outputs, time, "inputs apart" in facts)
    return found


def turned(rows, turn):
    """Returns the rows of a drawing in a turn."""
    right, low = len(rows[0]) - 1, len(rows) - 1
    wide, high = (low, right) if turn in "SsNn" else (right, low)
    places = [[TURNS[turn](x, y, right, low) for x in range(wide + 1)] for y in range(high + 1)]
    return ["".join(rows[v][u] for u, v in row) for row in places]


def named_in(text):
    """Returns the gates and the wires that the lines before a pattern's header name, as (kind, x, y, wide, high) and as
    (x, y, step, u, v, start bits). A line of another form counts for nothing."""
    lines, kinds = lines_of(text), library()
    comments = lines[: read_header(lines)[0]]
    gates, wires = [], []
    for line in comments:
        gate, wire = GATE_LINE.fullmatch(line), WIRE_LINE.fullmatch(line)
        if gate and gate[1] in kinds:
            rows = turned(kinds[gate[1]].rows, gate[2])
            gates.append((f"{gate[1]}-{gate[2]}", int(gate[3]), int(gate[4]), len(rows[0]), len(rows)))
        if wire and wire[3] in STEPS:
            starts = wire[6].replace("-", "")
            wires.append((int(wire[1]), int(wire[2]), wire[3], int(wire[4]), int(wire[5]), starts))
    return gates, wires

"""The crates by crates.txt and by their files; the processor minutes of each by dev/minutes.txt."""
import re
from dataclasses import dataclass, field

from .program import ROOT

FILE, MINUTES = ROOT / "crates.txt", ROOT / "dev/minutes.txt"


@dataclass
class Layer:
    """A layer: its crates, what they may stand on below it (None: all of it), and this in words."""

    name: str
    crates: list
    allowed: list = None
    words: str = ""


@dataclass
class Crates:
    """The libraries that each crate names, those of the kit among them; and the layers, the lowest first."""

    uses: dict = field(default_factory=dict)
    layers: list = field(default_factory=list)

    def below(self):
        """Returns the crates of the repository that each crate uses itself."""
        return {crate: {it for it in uses if it in self.uses} for crate, uses in self.uses.items()}


def read(file=FILE):
    """Returns the crates of a file."""
    crates = Crates()
    for line in file.read_text().splitlines():
        layer = re.match(r"# layer (.+?): (.+)", line)
        limit = re.match(r"#   stands on (.+?): (.+)", line)
        crate = re.match(r"([a-z]\w*)[^:#]*:([^#]*)", line)
        if layer:
            crates.layers.append(Layer(layer[1], layer[2].split()))
        elif limit:
            crates.layers[-1].allowed, crates.layers[-1].words = limit[1].split(), limit[2]
        elif crate:
            crates.uses[crate[1]] = crate[2].split()
    return crates


def all_below(below, crate):
    """Returns every crate that a crate stands on."""
    found, next_ones = set(), set(below[crate])
    while next_ones:
        found |= next_ones
        next_ones = set().union(*(below[it] for it in next_ones)) - found
    return found


def minutes():
    """Returns the minutes of each crate: those of its proof, of its tests, and of its edits, as texts."""
    rows = [line.split() for line in MINUTES.read_text().splitlines() if not line.startswith("#")]
    return {row[0]: row[1:] for row in rows if len(row) == 4}

#!/usr/bin/env python3
"""Prints examples/gates.rle: each gate of docs/GATES.md, driven by rings of wire, with its name above it.

dev/driven_gates.py [--bare]

With --bare there are no names, and all of it is a routed circuit of gates and wires. dev/stored writes the file.
An input is fed by a ring that is four periods long, through a fork. On the ring are electrons for the bits 0, 1, 0, 1
of the first input and 0, 0, 1, 1 of the second, so each output shows its gate's table, cycle by cycle.
"""
import sys
from dataclasses import dataclass, field
from pathlib import Path

sys.path.insert(0, str(Path(__file__).resolve().parents[1] / "lib"))
from blifww import command, gates, lettering, rle

PERIOD, BEATS = 12, 4
RING = PERIOD * BEATS  # the steps around a ring
LATENCY = 34  # the generation at which all outputs show the bits of cycle 0
LIT = 10  # the generation at which a gate's first use begins
LATER = 6  # how much later the second input comes where the inputs come apart
NEAR = 6  # the steps from a ring's fork to an input
BITS = {"a": "0101", "b": "0011"}
SHOWN = ["FORK", "OR", "XOR", "XOR2", "ANDNOT", "ANDNOT-LEVEL", "CROSS", "TAP", "TAP2"]
ACROSS, WIDE, HIGH = 3, 84, 44  # gates in a row, and the columns and rows that each has
EDGE, RIGHT, MIDDLE = 2, 24, 25  # of the first gate: the edge, the column of its rings' forks, its middle row
DIAGONAL = (  # of XOR2, whose wires go on diagonally: the legs of its inputs' wires, the first steps of its outputs'
    {"a": [(1, 0, NEAR - 1), (1, 1, 1)], "b": [(1, 0, NEAR + 6), (1, -1, 1), (0, -1, 1), (-1, -1, 1)]},
    {"y": (1, -1), "z": (-1, 1)},
)


@dataclass
class Park:
    """What is drawn: the letter of each cell, and the lines of gates, wires and ports."""

    cells: dict = field(default_factory=dict)
    gates: list = field(default_factory=list)
    wires: list = field(default_factory=list)
    outputs: list = field(default_factory=list)
    nets: list = field(default_factory=list)

    def gate(self, word, turn, corner, first, later=0):
        """Draws a gate with its north-west corner there. Returns the cell of each port."""
        x, y = corner
        rows = gates.turned(gates.library()[word].rows, turn)
        letters = (((x + dx, y + dy), it) for dy, row in enumerate(rows) for dx, it in enumerate(row))
        found = {cell: letter for cell, letter in letters if letter != "."}
        self.cells.update(dict.fromkeys(found, "C"))
        self.gates.append(f"#C gate {word}-{turn} {x} {y} {first}" + (f" {later}" if later else ""))
        return {letter: cell for cell, letter in found.items() if letter.islower()}

    def wire(self, path, starts=""):
        """Draws a wire along a path from a port's cell to an input's."""
        (x, y), (u, v), end = path[0], path[1], path[-1]
        step = next(name for name, (dx, dy) in rle.STEPS.items() if (dx, dy) == (u - x, v - y))
        self.cells.update(dict.fromkeys(path[1:-1], "C"))
        self.wires.append(f"#C wire {x} {y} {step} {end[0]} {end[1]} {starts or '-'}")

    def electron(self, head, tail):
        self.cells.update({head: "A", tail: "B"})

    def name(self, text, corner):
        """Writes a name in cells that no wire is beside."""
        for dy, row in enumerate(lettering.masks_of(text, 1)):
            self.cells.update({(corner[0] + dx, corner[1] + dy): "C" for dx, it in enumerate(row) if it})

    def text(self):
        right, low = max(x for x, _ in self.cells) + 1 + EDGE, max(y for _, y in self.cells) + 1 + EDGE
        table = rle.table_lines(PERIOD, LATENCY, 1, [], self.outputs, self.nets)
        runs = [(x, y, 1, letter) for (x, y), letter in self.cells.items()]
        return rle.text_of([*self.gates, *self.wires, *table], right, low, joined(runs))


def joined(runs):
    """Joins runs that follow one another."""
    found = []
    for x, y, length, letter in sorted(runs, key=lambda it: (it[1], it[0])):
        if found and found[-1][1] == y and found[-1][0] + found[-1][2] == x and found[-1][3] == letter:
            found[-1] = (found[-1][0], y, found[-1][2] + length, letter)
        else:
            found.append((x, y, length, letter))
    return found


def line(cell, dx, dy, steps):
    """Returns the cells of so many steps from a cell on, without it."""
    return [(cell[0] + dx * k, cell[1] + dy * k) for k in range(1, steps + 1)]


def path_of(cell, *legs):
    """Returns the path from a cell along legs (dx, dy, steps)."""
    path = [cell]
    for leg in legs:
        path += line(path[-1], *leg)
    return path


def ring(park, fork, is_above, bits, lit):
    """Draws a ring through a fork, from whose other exit an electron leaves for each bit 1: the first bit's, if it is
    one, at generation `lit`. The ring is above or below that exit's row. Returns the exit."""
    x, y = fork
    down = -1 if is_above else 1  # from the exit to the ring's far side
    first = (lit - 2) % PERIOD
    ports = park.gate("FORK", "e" if is_above else "E", (x, y - 4 if is_above else y), first)
    own, far = ports["y"], ports["z"]
    far_side = [(-1, down, 2), (-1, 0, 20), (-1, -down, 1), (0, -down, 2), (1, -down, 1)]
    path = path_of(far, *far_side)
    path += line(path[-1], 1, 0, ports["a"][0] - path[-1][0])
    assert path[-1] == ports["a"] and len(path) + 1 == RING, (path[-1], ports, len(path))
    late = (first - (lit - 2)) // PERIOD  # the bits that are on their way already
    arriving = [bits[(late + k) % BEATS] for k in range(BEATS)]
    park.wire(path, "".join(arriving))
    for k, bit in enumerate(arriving):
        if bit == "1":
            place = len(path) - 1 - first - PERIOD * k
            park.electron(path[place], path[place - 1])
    return own


def output(park, name, port, lit, way):
    """Leads an output by a first step to a cell of its own in the east or west, which shows it at the latency."""
    path = path_of(port, (*way, 1), (way[0], 0, LATENCY - lit - 1))
    park.wire(path)
    park.gate("LONE", "E", path[-1], LATENCY)
    park.outputs.append((name, path[-1]))


def feed(park, word, kind, ports, near):
    """Draws the rings for the inputs of a gate."""
    for letter, cell in ports.items():
        if letter in kind.inputs:
            lit = LIT + kind.inputs[letter] + (LATER if kind.is_apart and letter == "b" else 0)
            park.nets.append((*cell, lit, f"{word}.{letter}", "-"))
            legs = near.get(letter, [(1, 0, NEAR)])
            steps = sum(it[2] for it in legs)
            start = (cell[0] - sum(dx * n for dx, _, n in legs), cell[1] - sum(dy * n for _, dy, n in legs))
            is_above = letter == "a"
            fork = (start[0] - 2, start[1])
            own = ring(park, fork, is_above, BITS[letter], lit - steps)
            path = path_of(own, *legs)
            assert own == start and path[-1] == cell
            late = ((lit - steps - 2) % PERIOD - (lit - steps - 2)) // PERIOD
            park.wire(path, BITS[letter][:late])


def panel(park, word, x, y):
    """Draws a gate, its rings, its wires and its name."""
    kind = gates.library()[word]
    high = len(kind.rows)
    corner = (x + RIGHT + NEAR, y + MIDDLE - high // 2)
    ports = park.gate(word, "E", corner, LIT, LATER if kind.is_apart else 0)
    ins = {it: cell for it, cell in ports.items() if it in kind.inputs}
    near, ways = DIAGONAL if word == "XOR2" else ({}, {})
    feed(park, word, kind, ins, near)
    for letter, (delay, bit) in kind.outputs.items():
        lit = LIT + delay + (LATER if kind.is_apart and bit == "b" else 0)
        name = word if len(kind.outputs) == 1 else f"{word}.{letter}"
        output(park, name, ports[letter], lit, ways.get(letter, (1, 0)))


def park(has_names):
    """Draws all of it."""
    made = Park()
    for place, word in enumerate(SHOWN):
        x, y = EDGE + WIDE * (place % ACROSS), EDGE + HIGH * (place // ACROSS)
        panel(made, word, x, y)
        if has_names:
            made.name(word, (x, y))
    return made


def text_of(has_names=True):
    """Returns the text of examples/gates.rle."""
    return park(has_names).text()


def main():
    options = command.parser(__doc__)
    options.add_argument("--bare", action="store_true")
    command.write(text_of(not options.parse_args().bare))


if __name__ == "__main__":
    command.run(main)

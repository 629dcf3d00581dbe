"""The tiles, as docs/TILES.md draws them, and the drawing of a circuit (docs/FORMATS.md, 'Lifted netlists')."""
import functools
import re

from . import plane
from .program import ROOT
from .rle import LANE, TILE

PAGE = ROOT / "docs/TILES.md"
EMPTY = [b"." * TILE] * LANE
OUTPUT = [*EMPTY[:8], b"C".ljust(TILE, b"."), *EMPTY[9:]]
GATES = ("Swap", "Fork", "Xor", "Or", "AndNot")


def drawing_of(kind):
    """Returns the rows of a tile's drawing: letters of cells, and `.`."""
    return re.search(rf"^## {kind}$.*?```text\n(.*?)```", PAGE.read_text(), re.M | re.S)[1].split()


@functools.cache
def cells_of(kind):
    """Returns the rows of a tile as cells: its ports are conductors."""
    return [re.sub("[a-z]", "C", it).encode() for it in drawing_of(kind)]


class Circuit:
    """A pattern that has the box and the latency of a circuit, and what is drawn beside the body of such a circuit."""

    def __init__(self, pattern):
        self.rows = plane.rows_of(pattern)
        self.columns = pattern.latency // TILE
        self.loops = (pattern.width // TILE - self.columns) // 2
        self.lanes = pattern.height // LANE - self.loops
        self.outputs = {y // LANE for _, y in pattern.outputs.values()}

    def turn(self, away, off, along, corner, across):
        """Returns a tile of the turns of the loops."""
        if away >= self.loops or off >= self.loops:
            return EMPTY
        return cells_of(along if away < off else corner if away == off else across)

    def way_back(self, back, off):
        """Returns a tile of the loops' way back, or a half of one."""
        swaps = back < self.loops
        if swaps and off % 2 == back % 2 and off + 1 < self.loops:
            return cells_of("WestSwap")[:LANE]
        return cells_of("WestSwap")[LANE:] if swaps and off % 2 != back % 2 and off else cells_of("West")

    def beside(self, column, lane):
        """Returns the cells of a lane in a column that lies west or east of the body, or of a lane below it."""
        is_upper, east = lane < self.lanes, column - self.loops - self.columns
        off = self.lanes - 1 - lane if is_upper else lane - self.lanes
        along, across = "East" if is_upper else "West", "North" if east < 0 else "South"
        if column < self.loops:
            corner = "NorthEast" if is_upper else "WestNorth"
            return self.turn(self.loops - 1 - column, off, along, corner, across)
        if east < 0:
            return self.way_back(-1 - east, off)
        if east == 0 and lane in self.outputs:
            return OUTPUT
        return self.turn(east, off, along, "EastSouth" if is_upper else "SouthWest", across)

    def differing(self, tile, x, y):
        """Returns in how many rows the pattern differs from a tile there."""
        return sum(self.rows[y + at][x : x + TILE] != row for at, row in enumerate(tile))

    def body(self, column):
        """Returns the cells of a column of the body: of the tiles from which the pattern's differ the least."""
        cells = []
        while len(cells) < LANE * self.lanes:
            kinds = ("East", *GATES) if len(cells) < LANE * (self.lanes - 1) else ("East",)
            cells += min(map(cells_of, kinds), key=lambda it: self.differing(it, TILE * column, len(cells)))
        return cells

    def drawn(self):
        """Returns the rows of the circuit's drawing. A loop starts with 1 where a head is at its entry."""
        columns = []
        for column in range(2 * self.loops + self.columns + 1):
            is_body = 0 <= column - self.loops < self.columns
            cells = self.body(column) if is_body else []
            for lane in range(self.lanes if is_body else 0, self.lanes + self.loops):
                cells = cells + self.beside(column, lane)
            columns.append(cells)
        rows = [bytearray().join(it)[: len(own)] for it, own in zip(zip(*columns), self.rows)]
        entry = TILE * self.loops
        for lane in range(self.lanes - self.loops, self.lanes):
            if self.rows[LANE * lane + 8][entry] == ord("A"):
                rows[LANE * lane + 8][entry - 1 : entry + 1] = b"BA"
        return rows


def first_other_cell(pattern):
    """Says at which cell a pattern first differs from a circuit's drawing whose tiles are nearest to it, or ''."""
    circuit = Circuit(pattern)
    return plane.first_difference(circuit.rows, circuit.drawn())

"""The plane: cells that are drawn, and a pattern that runs by Wireworld's rule."""
import itertools
import re

from . import rle

ROOM = 1024  # columns by which a plane grows to the west
RUN = re.compile(rb"C+|A+|B+")
WORDS = dict(zip(b"ABC.", ("a head", "a tail", "a conductor", "empty")))


class Plane:
    """Cells, as bytes of letters for each row, of which the first is in column `first`; columns and rows may be
    negative until the text is made."""

    def __init__(self):
        self.rows, self.first = {}, 0

    def row(self, x, y, length):
        """Returns a row's bytes, after making room for these columns, and the place of the first of these in it."""
        if x < self.first:
            more = self.first - x + ROOM
            self.rows = {y: bytearray(b"." * more) + it for y, it in self.rows.items()}
            self.first -= more
        row = self.rows.setdefault(y, bytearray())
        at = x - self.first
        if at + length > len(row):
            row.extend(b"." * (at + length - len(row)))
        return row, at

    def put(self, x, y, letter="C"):
        row, at = self.row(x, y, 1)
        row[at] = ord(letter)

    def run(self, x, y, length):
        row, at = self.row(x, y, length)
        row[at : at + length] = b"C" * length

    def has(self, x, y):
        """Returns whether a cell is drawn."""
        at = x - self.first
        return 0 <= at < len(self.rows.get(y, b"")) and self.rows[y][at] != ord(".")

    def box(self):
        """Returns the first column and row of what is drawn, and the last ones."""
        left = self.first + min(len(it) - len(it.lstrip(b".")) for it in self.rows.values())
        right = self.first + max(len(it.rstrip(b".")) for it in self.rows.values()) - 1
        return left, min(self.rows), right, max(self.rows)

    def runs(self):
        """Gives what is drawn as runs of a pattern."""
        for y, row in self.rows.items():
            yield from ((self.first + it.start(), y, len(it[0]), chr(it[0][0])) for it in RUN.finditer(row))

    def text(self, table):
        """Returns the pattern's text; `table` gives its first lines, from what is to be added to columns and rows."""
        left, top, right, bottom = self.box()
        runs = [(x - left, y - top, length, letter) for x, y, length, letter in self.runs()]
        return rle.text_of(table(-left, -top), right - left + 1, bottom - top + 1, runs)


def rows_of(pattern):
    """Returns the rows of a pattern's cells, letters or `.`."""
    rows = [bytearray(b"." * pattern.width) for _ in range(pattern.height)]
    for x, y, length, letter in pattern.runs:
        rows[y][x : x + length] = letter.encode() * length
    return rows


def first_difference(rows, wanted):
    """Says at which cell rows first differ from those wanted, or ''. What lies beyond either is empty."""
    for y, pair in enumerate(itertools.zip_longest(rows, wanted, fillvalue=b"")):
        if pair[0] != pair[1]:
            for x, (cell, wish) in enumerate(itertools.zip_longest(*pair, fillvalue=ord("."))):
                if cell != wish:
                    return f"({x}, {y}): it is {WORDS[cell]}, and there {WORDS[wish]}"
    return ""


class World:
    """A pattern that runs: of its cells only heads and tails are moved, {cell: mark}. A head's mark is that of a
    head before it."""

    def __init__(self, pattern):
        self.wide = pattern.width + 2
        self.wires = bytearray(self.wide * (pattern.height + 2))
        self.around = [dx + dy * self.wide for dx, dy in rle.STEPS.values()]
        self.heads, self.tails = {}, {}
        for x, y, length, letter in pattern.runs:
            first = self.cell(x, y)
            self.wires[first : first + length] = b"\1" * length
            if letter != "C":
                (self.heads if letter == "A" else self.tails).update((it, it) for it in range(first, first + length))
        for tail in self.tails:
            self.tails[tail] = next((tail + it for it in self.around if tail + it in self.heads), tail)

    def cell(self, x, y):
        """Returns the number of a cell."""
        return (y + 1) * self.wide + x + 1

    def place(self, cell):
        """Returns the column and row of a cell's number."""
        return cell % self.wide - 1, cell // self.wide - 1

    def step(self):
        """Goes on to the next generation: a conductor beside one head or two becomes one, a head a tail, and a tail
        a conductor."""
        near = {}
        for head, mark in self.heads.items():
            for it in self.around:
                if self.wires[head + it]:
                    near.setdefault(head + it, []).append(mark)
        heads = {
            it: marks[0]
            for it, marks in near.items()
            if len(marks) < 3 and it not in self.heads and it not in self.tails
        }
        self.heads, self.tails = heads, self.heads

    def enter(self, x, y, mark=None):
        """Puts a head on a conductor."""
        cell = self.cell(x, y)
        if not self.wires[cell] or cell in self.tails:
            raise ValueError(f"no conductor is at the input ({x}, {y})")
        self.heads[cell] = mark


def injections(pattern, streams):
    """Returns the heads that streams put into the plane, as {generation: [(cell, context)]}; a stream is (context,
    name, bits)."""
    due = {}
    for context, name, bits in streams:
        for cycle, bit in enumerate(bits):
            if bit == "1":
                due.setdefault(32 * context + cycle * pattern.period, []).append((pattern.inputs[name], context))
    return due


def seen_at(pattern, streams, cycles):
    """Returns the bits that the outputs show, {name: bits}; one that is a head at another generation has a `!` at
    its end."""
    world, due = World(pattern), injections(pattern, streams)
    asked = [pattern.latency + t * pattern.period for t in range(cycles)]
    cells = {name: world.cell(*cell) for name, cell in pattern.outputs.items()}
    seen = {name: set() for name in cells}
    for generation in range(pattern.latency + cycles * pattern.period):
        if generation:
            world.step()
        for cell, _ in due.get(generation, ()):
            world.enter(*cell)
        for name, cell in cells.items():
            if cell in world.heads:
                seen[name].add(generation)
    return {
        name: "".join("01"[it in lit] for it in asked) + "!" * bool(lit.difference(asked)) for name, lit in seen.items()
    }


def coloured(pattern, streams, generation):
    """Returns the heads and tails of a generation, as {cell: (letter, context)}.

    An electron of an input belongs to the context whose stream put it there. One that stands in the plane at
    generation 0 belongs to context c if it comes to the column of the inputs at generation 32 c: so the plane is run
    on until all of these have come.
    """
    entry = min(
        [x for x, _, offset, _, _ in pattern.nets if offset == 0] + [x for x, _ in pattern.inputs.values()], default=0
    )
    world, due = World(pattern), injections(pattern, streams)
    world.heads = {cell: ("first", cell) for cell in world.heads}
    world.tails = {cell: ("first", mark) for cell, mark in world.tails.items()}
    contexts, seen = {}, {}
    for now in range(max(generation, 32 * pattern.contexts) + 1):
        if now:
            world.step()
        for cell, context in due.get(now, ()):
            world.enter(*cell, ("input", context))
        if now % 32 == 0:
            for cell, mark in world.heads.items():
                if world.place(cell)[0] == entry:
                    contexts.setdefault(mark, now // 32)
        if now == generation:
            seen = {
                **{cell: ("B", it) for cell, it in world.tails.items()},
                **{cell: ("A", it) for cell, it in world.heads.items()},
            }
    return {
        world.place(cell): (letter, it[1] if it[0] == "input" else contexts.get(it, 0))
        for cell, (letter, it) in seen.items()
    }

"""Joins the processor with the display: wires lead from the processor's outputs around its east to the display's gates,
which stand below it and run west, and from these to the lamps below them."""
from blifww import rle
from lamps import LANE, Plane, box_of, evened, lamps, ordered, steps_of

APART = 2  # columns from a wire to the next one
BUMPS = 8  # how many bumps a wire has at most that waits for others on the way to the display
EAST, WEST = 1, -1


def copy(plane, runs, place):
    """Draws runs of cells; place(x, y) says where each cell is."""
    for x, y, length, letter in runs:
        for k in range(length):
            plane.put(*place(x + k, y), letter)


def even(number):
    """Returns the least even number that is not less."""
    return number + number % 2


def turned_back(ends, column, way, top):
    """Returns the corners of wires that lead on from ends, which are from north to south, into columns of their own
    from this one on, to rows from `top` on, and back; the last wire is the first there. `top` is even, and a wire whose
    end is in an odd row comes into an odd row: so the wires' lengths differ by even numbers."""
    made = []
    for i, (x, y) in enumerate(reversed(ends)):
        far, row = column + way * APART * i, top + LANE * i + y % 2
        made.append([(x, y), (far, y), (far, row), (column - way * APART, row)])
    return made


class Below:
    """A plane that is drawn below what is drawn, from wires on that lead there and turn back: they come in `rows`, just
    west of column 0 of this plane, and so late after their ends."""

    def __init__(self, cells, ends, column, way):
        self.cells, self.ends, self.column, self.way = cells, ends, column, way
        self.plane, self.top = Plane(), even(cells.box()[3] + 2)
        made = turned_back(ends, column, way, self.top)
        self.rows, self.late = [it[-1][1] - self.top for it in made], [steps_of(it) for it in made]

    def place(self, x, y):
        """Returns where a cell of the plane is."""
        return self.column - self.way * (APART + 1 + x), self.top + y

    def draw(self):
        """Draws the wires and the plane below what is drawn; returns how many generations later all wires come there
        than `late` says."""
        self.top += even(-min(0, self.plane.box()[1]))
        made = turned_back(self.ends, self.column, self.way, self.top)
        for corners in made:
            self.cells.wire(corners)
        copy(self.cells, self.plane.runs(), self.place)
        return steps_of(made[0]) - self.late[0]


def is_free(cells, cell, width):
    """Returns whether nothing is drawn east of a cell, in these columns, beside a wire that leads straight on."""
    x, y = cell
    return not any(cells.has(u, y + k) for u in range(x + 2, width) for k in (-1, 0, 1))


def draw_gates(strip, names, pattern):
    """Draws the gates of the display behind wires of these names. Returns how many generations later than the wires'
    ends its outputs are lit, and where they are, as {lamp: cell}."""
    plane, wanted = strip.plane, sorted(pattern.inputs, key=lambda it: pattern.inputs[it][1])
    x, lanes, later, wait = ordered(plane, 0, strip.rows, strip.late, names, wanted, BUMPS)
    most = max(later.values())
    extras, rows = [most - later[it] for it in wanted], [pattern.inputs[it][1] for it in wanted]
    x, below = evened(plane, x, lanes, extras, rows, BUMPS)
    copy(plane, pattern.runs, lambda u, v: (x + u, v + below))
    steps = x + 1 + wait + most + pattern.latency + strip.draw()
    return steps, {int(name[5:-1]): strip.place(x + u, v + below) for name, (u, v) in pattern.outputs.items()}


def joined(processor, display, is_bare):
    """Returns the plane of a processor with the display, given as patterns; the latency; and the first cells of the
    lamps' combs."""
    cells = Plane()
    copy(cells, processor.runs, lambda x, y: (x, y))
    outs = sorted(processor.outputs, key=lambda it: processor.outputs[it][1])
    if not all(is_free(cells, cell, processor.width) for cell in processor.outputs.values()):
        raise ValueError("no wires can lead to the display: the outputs stand between other wires")
    strip = Below(cells, [processor.outputs[it] for it in outs], processor.width + 1, EAST)
    steps, ends = draw_gates(strip, [it.replace("_out", "") for it in reversed(outs)], display)
    order = sorted(ends, key=lambda it: ends[it][1])
    strip = Below(cells, [ends[it] for it in order], ends[order[0]][0] - APART, WEST)
    rows, late = (dict(zip(reversed(order), it)) for it in (strip.rows, strip.late))
    made = lamps(strip.plane, 0, rows, late, is_bare)
    latency = processor.latency + steps + made.steps + strip.draw()
    return cells, latency, {lamp: strip.place(*cell) for lamp, cell in made.ends.items()}


def text_of(processor, display, is_bare, about):
    """Returns the text of a processor with the display, given as patterns; about(latency) gives its first lines."""
    cells, latency, ends = joined(processor, display, is_bare)

    def table(dx, dy):
        yield from about(latency)
        found = {lamp: (x + dx, y + dy) for lamp, (x, y) in sorted(ends.items())}
        for lamp, end in () if is_bare else found.items():
            yield " ".join(map(str, ["#C lamp", lamp, *box_of(lamp, end)]))
        outputs = [(f"lamp[{lamp}]", end) for lamp, end in found.items()]
        nets = [(x + dx, y + dy, *it) for x, y, *it in processor.nets]
        yield from rle.table_lines(processor.period, latency, 1, [], outputs, nets)

    return cells.text(table)

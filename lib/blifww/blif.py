"""Netlists in BLIF: their lines, their models, one level of them, and what they show.

Only netlists that `blifww` takes are meant: of the faults that it reports, those are found here that would keep a
netlist from being evaluated.
"""
import re
from dataclasses import dataclass, field

SKIPPED = {
    ".area",
    ".delay",
    ".wire_load_slope",
    ".wire",
    ".input_arrival",
    ".output_required",
    ".input_drive",
    ".output_load",
}
SKIPPED |= {".max_input_load", ".cname", ".attr", ".param"}
MOST_NETS = 1 << 20
MOST_SHOWN = 8  # names in a line
BLANKS = "\t\v\f\r "
SPACES = str.maketrans(BLANKS, " " * len(BLANKS))
GROUP = 40  # operands in one expression: Python's compiler is recursive


@dataclass
class Cover:
    """A net's rows over the nets that it reads: the net is `on` where one of the rows holds."""

    inputs: list
    output: object = ""
    rows: list = field(default_factory=list)
    on: bool = True

    def weight(self):
        return len(self.rows) + sum(len(it) - it.count("-") for it in self.rows)

    def needs_no_constant(self):
        return self.on and all("1" in it for it in self.rows)

    def lines(self):
        yield [".names", *self.inputs, self.output]
        for row in self.rows:
            yield [row, str(int(self.on))] if row else [str(int(self.on))]


@dataclass
class Latch:
    """A latch; its control is a type and a net, or nothing, and its start is `0` to `3`, or nothing."""

    data: object
    output: object
    control: list = field(default_factory=list)
    start: str = ""

    def starts_as_one(self):
        return self.start == "1"

    def clock(self):
        return self.control[1] if self.control and self.control[1] != "NIL" else None

    def line(self):
        return [".latch", self.data, self.output, *self.control, *self.start]


@dataclass
class Model:
    """A model as its lines say it. A place is (model, pins)."""

    name: str
    inputs: list = field(default_factory=list)
    clocks: list = field(default_factory=list)
    outputs: list = field(default_factory=list)
    covers: list = field(default_factory=list)
    latches: list = field(default_factory=list)
    places: list = field(default_factory=list)
    nets: dict = field(default_factory=dict)  # each name of a net, in the order in which they first stand

    def lines(self):
        """Gives the lines of a model, each as its words."""
        yield [".model", self.name]
        yield [".inputs", *self.inputs]
        yield [".outputs", *self.outputs]
        if self.clocks:
            yield [".clock", *self.clocks]
        yield from (it.line() for it in self.latches)
        for it in self.covers:
            yield from it.lines()
        yield from (
            [".subckt", name, *(f"{formal}={actual}" for formal, actual in pins.items())] for name, pins in self.places
        )
        yield [".end"]

    def weight(self):
        """Returns the weight of a model without places, as docs/FORMATS.md has it."""
        ports = {*self.inputs, *self.clocks}, {*self.outputs}
        return sum(map(len, ports)) + 2 * len(self.latches) + sum(1 + it.weight() for it in self.covers)

    def text(self):
        return "".join(" ".join(words) + "\n" for words in self.lines())


@dataclass
class Flat:
    """A netlist of one level. Nets are numbers; `names` has (path, name, net) of each net of each place, but for
    clocks."""

    model: str
    inputs: dict = field(default_factory=dict)  # name: net, without the clock
    outputs: dict = field(default_factory=dict)  # name: net
    covers: list = field(default_factory=list)
    latches: list = field(default_factory=list)
    names: list = field(default_factory=list)
    clock: str = ""
    falls: bool = False  # whether the clock's edge is the falling one

    def named(self, nets):
        """Returns the first few names of nets, on one line."""
        names = {net: name for _, name, net in reversed(self.names)}
        return some(names[it] for it in nets if it in names)


def some(names):
    """Returns the first few names, on one line."""
    names = list(names)
    return " ".join(names[:MOST_SHOWN]) + (" .." if len(names) > MOST_SHOWN else "")


def logical_lines(text):
    """Gives the number of each logical line that has a word, and its words, as docs/FORMATS.md says."""
    start, joined = 1, ""
    for number, line in enumerate([*text.split("\n"), ""], 1):
        line = line.partition("#")[0].rstrip(BLANKS)
        if line.endswith("\\"):
            joined += line[:-1]
            continue
        words = [it for it in (joined + line).translate(SPACES).split(" ") if it]
        if words:
            yield start, words
        start, joined = number + 1, ""


def latch_of(operands):
    """Returns the latch that the words of a line say."""
    start = operands[-1] if len(operands) in (3, 5) else ""
    if start not in ("", "0", "1", "2", "3"):
        raise ValueError(f"{start} is no start of a latch")
    return Latch(operands[0], operands[1], operands[2:4] if len(operands) > 3 else [], start)


def add_line(model, words):
    """Adds what a line says to a model."""
    directive, operands = words[0], words[1:]
    lists = {".inputs": model.inputs, ".clock": model.clocks, ".outputs": model.outputs}
    seen = operands
    if directive in lists:
        lists[directive] += operands
    elif directive == ".names" and operands:
        model.covers.append(Cover(operands[:-1], operands[-1]))
    elif directive == ".latch" and 2 <= len(operands) <= 5:
        latch = latch_of(operands)
        model.latches.append(latch)
        seen = operands[:2] + ([latch.clock()] if latch.clock() else [])
    elif directive == ".subckt" and operands and all(re.fullmatch(r"[^=]+=.+", it) for it in operands[1:]):
        model.places.append((operands[0], dict(it.split("=", 1) for it in operands[1:])))
        seen = [it.split("=", 1)[1] for it in operands[1:]]
    elif directive in SKIPPED or directive.startswith(".default_"):
        seen = []
    else:
        raise ValueError(f"this is no line of a netlist: {' '.join(words)[:60]}")
    model.nets.update(dict.fromkeys(seen))


def add_row(cover, words):
    """Adds a row to a cover, or to None."""
    row, end = ("", *words) if len(words) == 1 else (words[0], words[-1])
    if (
        cover is None
        or len(words) > 2
        or len(row) != len(cover.inputs)
        or set(row) - set("01-")
        or end not in ("0", "1")
    ):
        raise ValueError(f"this is no row of a cover: {' '.join(words)[:60]}")
    if cover.rows and cover.on != (end == "1"):
        raise ValueError("the rows of a cover end in 0 and in 1")
    cover.on = end == "1"
    cover.rows.append(row)


class Reader:
    """Reads a netlist line by line."""

    def __init__(self):
        self.models, self.model, self.cover = {}, None, None

    def line(self, words):
        if words[0] == ".model":
            self.model = Model(" ".join(words[1:]))
            self.models.setdefault(self.model.name, self.model)
        elif self.model is None:
            raise ValueError(f"the text is no netlist: it begins with {' '.join(words)[:40]}")
        elif words[0] == ".end":
            self.cover = None
        elif words[0].startswith("."):
            add_line(self.model, words)
            self.cover = self.model.covers[-1] if words[0] == ".names" else None
        else:
            add_row(self.cover, words)


def models_of(text):
    """Returns the models of a netlist's text by their names, the main one first. Raises ValueError, with a line's
    number, where there is none."""
    reader = Reader()
    for number, words in logical_lines(text):
        try:
            reader.line(words)
        except ValueError as fault:
            raise ValueError(f"line {number}: {fault}") from None
    if not reader.models:
        raise ValueError("the text is empty")
    return reader.models


def add_model(flat, model, path, local, clocks):
    """Adds a model at a place to a flat netlist. `local` has its nets by their names; those that control latches are
    added to `clocks`."""
    flat.names += [(path, name, local[name]) for name in model.nets]
    flat.covers += [Cover([local[net] for net in it.inputs], local[it.output], it.rows, it.on) for it in model.covers]
    for it in model.latches:
        flat.latches.append(Latch(local[it.data], local[it.output], start=it.start))
        if it.clock():
            clocks.add(local[it.clock()])
            flat.falls = it.control[0] == "fe"


def clocks_of(flat, models, main):
    """Adds the models of all places to a flat netlist, the main one first. Returns the nets that control latches."""
    clocks, count = set(), 0
    waiting = [(main, (), {}, {main.name})]
    while waiting:
        model, path, local, above = waiting.pop()
        for name in model.nets:
            if name not in local:
                local[name], count = count, count + 1
        if count > MOST_NETS:
            raise ValueError(f"the netlist has more than {MOST_NETS} nets")
        add_model(flat, model, path, local, clocks)
        for number, (name, pins) in reversed(list(enumerate(model.places))):
            if name not in models or name in above:
                raise ValueError(
                    f"the model {model.name} places {name}, which "
                    + ("the text has not" if name not in models else "places it")
                )
            waiting.append(
                (
                    models[name],
                    (*path, number),
                    {formal: local[actual] for formal, actual in pins.items()},
                    {*above, name},
                )
            )
    return clocks


def flat_netlist(text):
    """Returns the flat netlist of a text. Raises ValueError where there is none."""
    return flattened(models_of(text))


def flattened(models):
    """Returns the flat netlist of models, the main one first."""
    main = next(iter(models.values()))
    flat = Flat(main.name)
    clocks = clocks_of(flat, models, main)
    flat.clock = next((name for path, name, net in flat.names if not path and net in clocks), "")
    idle = {*main.clocks} - {*main.inputs}  # clocks that may control no latch: no inputs either
    clocks |= {net for path, name, net in flat.names if not path and name in idle}
    flat.names = [it for it in flat.names if it[2] not in clocks]
    nets = {name: net for path, name, net in flat.names if not path}
    flat.inputs = {it: nets[it] for it in main.inputs if it in nets}
    flat.outputs = {it: nets[it] for it in main.outputs if it in nets}
    return flat


def check_drivers(flat):
    """Raises ValueError where a net has no driver, or two."""
    driven = [*flat.inputs.values(), *(it.output for it in flat.covers), *(it.output for it in flat.latches)]
    whole, seen = set(driven), set()
    none = next((name for _, name, net in flat.names if net not in whole), None)
    if none is not None:
        raise ValueError(f"nothing drives the net {none}")
    twice = next((it for it in driven if it in seen or seen.add(it)), None)
    if twice is not None:
        raise ValueError(f"two lines drive the net {flat.named([twice])}")


def ordered_covers(flat):
    """Returns the covers of a flat netlist in an order in which each stands after those that it reads."""
    cover_of = {it.output: it for it in flat.covers}
    missing, readers = {}, {}
    for it in flat.covers:
        below = {net for net in it.inputs if net in cover_of}
        missing[it.output] = len(below)
        for net in below:
            readers.setdefault(net, []).append(it.output)
    order = [net for net, count in missing.items() if count == 0]
    for net in order:
        for it in readers.get(net, ()):
            missing[it] -= 1
            if missing[it] == 0:
                order.append(it)
    if len(order) < len(cover_of):
        circle = flat.named(net for net, count in missing.items() if count)
        raise ValueError(f"covers read each other in a circle; among these or behind them: {circle}")
    return [cover_of[it] for it in order]


def joined(operands, sign):
    """Returns the expression that joins operands by a sign."""
    while len(operands) > GROUP:
        operands = ["(" + sign.join(operands[at : at + GROUP]) + ")" for at in range(0, len(operands), GROUP)]
    return sign.join(operands)


def cover_code(cover):
    """Returns the expression of a cover; `one` is a bit that is 1 for each run."""
    nets = [(f"n{net}", f"(n{net}^one)") for net in cover.inputs]
    products = [
        joined([its[bit == "0"] for its, bit in zip(nets, row) if bit != "-"], "&") or "one" for row in cover.rows
    ]
    value = joined([f"({it})" for it in products], "|") or "0"
    return f"one^({value})" if cover.rows and not cover.on else value


def machine_of(flat):
    """Returns a function of rows of the inputs' bits that gives for each row the bits of the nets in `names`, as a
    tuple.

    A bit may be a number whose bits are those of several runs side by side; `one` is then the number of which all
    these bits are 1. `starts` are the bits of the latches at first, if they are not to be those of the netlist."""
    check_drivers(flat)
    heads, states = ([f"n{net}" for net in flat.inputs.values()], [f"n{it.output}" for it in flat.latches])
    lines = ["def run(rows, one=1, starts=None):"]
    if states:
        lines.append(
            " "
            + "".join(f"{it}," for it in states)
            + " = starts or ("
            + "".join(f"one*{int(it.starts_as_one())}," for it in flat.latches)
            + ")"
        )
    lines.append(f" for {', '.join(heads) + ',' if heads else '_'} in rows:")
    lines += [f"  n{it.output} = {cover_code(it)}" for it in ordered_covers(flat)]
    lines.append("  yield (" + "".join(f"n{net}," for _, _, net in flat.names) + ")")
    if states:
        lines.append("  " + "".join(f"{it}," for it in states) + " = " + "".join(f"n{it.data}," for it in flat.latches))
    scope = {}
    exec(compile("\n".join(lines), "netlist", "exec"), scope)
    return scope["run"]


def evaluate(flat, streams, cycles):
    """Gives for each cycle the bits of the nets in `names`, as a tuple, under streams: texts of bits by the inputs'
    names."""
    rows = zip(*([int(bit) for bit in streams[name]] for name in flat.inputs)) if flat.inputs else range(cycles)
    return machine_of(flat)(rows)

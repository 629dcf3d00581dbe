"""Value change dumps: those of `blifww vcd`, and those that every reader takes.

A net is (context, path, name), where the path is the numbers of the placed models, as texts. A wave is one net, or
the nets of a bus.
"""
import re
from dataclasses import dataclass, field
from urllib.parse import unquote

from . import buses

CYCLE = 1000  # picoseconds that stand for a cycle: cycle t is at t ns
INNER = "inner"  # the scope of the nets that Yosys or ABC made, whose names begin with `$`
MOST_SHOWN = 40  # waves without a table of ports; cycles that a window shows at first


@dataclass
class Wave:
    """A wave: the number of each bit's net, by its place in the bus; place 0 of a net that is no bus."""

    scope: tuple
    name: str
    is_bus: bool
    nets: dict = field(default_factory=dict)
    bits: list = field(default_factory=list)  # as they are now, the highest first
    id: str = ""

    def range(self):
        """Returns the part of its name that says which bits it has."""
        high, low = max(self.nets), min(self.nets)
        return "" if not self.is_bus else f"[{high}]" if high == low else f"[{high}:{low}]"

    def value(self):
        """Returns the line that gives its bits."""
        return f"{self.bits[0]}{self.id}" if len(self.bits) == 1 else f"b{''.join(self.bits)} {self.id}"


@dataclass
class Waves:
    """All waves of a run: `places` has the wave and the place of each net's bit. The clock is a wave beside them."""

    top: str
    clock: str
    falls: bool
    waves: list
    places: list

    def path(self, wave):
        """Returns the name by which GTKWave shows a wave."""
        return ".".join((self.top, *wave.scope, wave.name)) + wave.range()


def read_dump(text):
    """Returns the references of a dump of `blifww vcd`, and for each cycle the bits that change, by the number of
    the variable."""
    if not text.strip():
        raise ValueError("the text is empty: what did `blifww vcd` say?")
    references, numbers, cycles, ended = [], {}, [], False
    for at, line in enumerate(text.removesuffix("\n").split("\n"), 1):
        words = line.split(" ")
        if not ended and words[:3] == ["$var", "wire", "1"] and len(words) == 6 and words[5] == "$end":
            numbers[words[3]] = len(references)
            references.append(words[4])
        elif not ended and line == "$enddefinitions $end":
            ended = True
        elif ended and line == f"#{len(cycles)}":
            cycles.append({})
        elif cycles and line[:1] in ("0", "1") and line[1:] in numbers:
            cycles[-1][numbers[line[1:]]] = line[0]
        else:
            raise ValueError(f"line {at} is no line of a dump of `blifww vcd`: {line[:40]}")
    if not cycles or cycles.pop():
        raise ValueError("the dump has no end")
    return references, cycles


def bits_of_dump(text):
    """Returns the bits of each variable of a dump, cycle after cycle."""
    references, cycles = read_dump(text)
    now, shown = ["x"] * len(references), []
    for changes in cycles:
        for number, bit in changes.items():
            now[number] = bit
        shown.append("".join(now))
    return ["".join(it) for it in zip(*shown)]


def reference_of(net, contexts):
    """Returns how a dump writes a net."""
    context, path, name = net
    escaped = "".join(it if "!" <= it <= "~" and it not in "%$" else f"%{ord(it):02X}" for it in name)
    return (f"{context}:" if contexts > 1 else "") + (".".join(path) + "/" if path else "") + escaped


def nets_of_pattern(references, pattern):
    """Returns the nets of a dump, by the table of its pattern."""
    listed = [(tuple(path.split(".")) if path != "-" else (), name) for _, _, _, name, path in pattern.nets]
    nets = [(context, path, name) for context in range(pattern.contexts) for path, name in listed]
    if references != [reference_of(it, pattern.contexts) for it in nets]:
        raise ValueError("the dump is of another pattern")
    return nets


def nets_of_references(references):
    """Returns the nets of a dump, by the variables' names alone; a net `0/a` of the main model is then taken for the
    net `a` of place 0."""
    fields = [it.partition(":") for it in references]
    contexts = int(fields[-1][0]) + 1 if fields and re.fullmatch(r"\d{1,9}", fields[-1][0]) else 1
    each = len(references) // contexts
    rests = [it[2] for it in fields]
    has_contexts = (
        1 < contexts <= len(references)
        and [it[0] for it in fields] == [str(it) for it in range(contexts) for _ in range(each)]
        and rests == rests[:each] * contexts
    )
    nets = []
    for reference, (context, _, rest) in zip(references, fields):
        path, _, name = re.fullmatch(r"(?:(\d+(\.\d+)*)/)?(.*)", rest if has_contexts else reference).groups()
        nets.append(
            (int(context) if has_contexts else 0, tuple(path.split(".")) if path else (), unquote(name, "latin-1"))
        )
    return nets


def identifier(text):
    """Returns a name that every reader takes: letters, digits and `_`, the first no digit."""
    name = re.sub("[^A-Za-z0-9_]", "_", text)
    return name if re.match("[A-Za-z_]", name) else "_" + name


def unique(name, taken):
    """Returns a name, with a number behind it if it is taken, and takes it."""
    if name in taken:
        number = taken[name]
        while f"{name}_{number}" in taken:
            number += 1
        taken[name] = number + 1
        name = f"{name}_{number}"
    taken[name] = 2
    return name


def place_of(context, path, name, several):
    """Returns the scope of a net or a bus, and its name in it."""
    scope = ((f"context{context}",) if several else ()) + tuple(f"place{it}" for it in path)
    *dotted, last = name.split(".")
    if name.startswith("$"):
        return (*scope, INNER), name
    return ((*scope, *dotted), last) if all(dotted) and last else (scope, name)


def groups_of(nets, plain):
    """Gives each bus, and each net that is in none: its scope, its name, whether it is a bus, and the numbers of its
    nets by their bits."""
    several, numbers = any(it[0] for it in nets), {}
    for number, (context, path, name) in enumerate(nets):
        numbers.setdefault((context, path), {})[name] = number
    for (context, path), number_of in numbers.items():
        for bus in buses.buses_of(number_of, plain, may_miss=True):
            yield *place_of(context, path, bus.name, several), bus.is_bus, {
                bit: number_of[name] for bit, name in bus.bits.items()
            }


def waves_of(nets, top, clock, falls=False, plain=False):
    """Returns the waves of nets: the user's before those in scopes INNER."""
    groups = sorted(groups_of(nets, plain), key=lambda it: INNER in it[0])
    taken, scopes = {(): {}}, {(): ()}
    waves, places = [], [None] * len(nets)
    for scope, name, is_bus, bits in groups:
        waves.append(Wave(scope, unique(identifier(name), taken.setdefault(scope, {})), is_bus, bits))
    clock = unique(identifier(clock), taken[()])
    for wave in waves:
        for depth in range(1, len(wave.scope) + 1):
            part = wave.scope[:depth]
            if part not in scopes:
                scopes[part] = (*scopes[part[:-1]], unique(identifier(part[-1]), taken.setdefault(part[:-1], {})))
        wave.scope = scopes[wave.scope]
        high = max(wave.nets)
        wave.bits = ["x"] * (high - min(wave.nets) + 1)
        for bit, number in wave.nets.items():
            places[number] = wave, high - bit
    waves.sort(key=lambda it: INNER in it.scope)
    for number, wave in enumerate(waves, 1):
        wave.id = short_name(number)
    return Waves(identifier(top), clock, falls, waves, places)


def short_name(number):
    """Returns the id of a variable."""
    digits = chr(33 + number % 94)
    while number >= 94:
        number //= 94
        digits += chr(33 + number % 94)
    return digits


def declarations(run):
    """Gives the lines before the first value."""
    yield from (
        "$timescale 1 ps $end",
        f"$scope module {run.top} $end",
        f"$var wire 1 {short_name(0)} {run.clock} $end",
    )
    tree = {}
    for wave in run.waves:
        node = tree
        for part in wave.scope:
            node = node.setdefault(part, {})
        node.setdefault(None, []).append(wave)
    yield from lines_of_scope(tree)
    yield from ("$upscope $end", "$enddefinitions $end")


def lines_of_scope(node):
    """Gives the lines of a scope's waves, and then of the scopes in it."""
    for wave in node.get(None, ()):
        place = wave.range()
        yield f"$var wire {len(wave.bits)} {wave.id} {wave.name}{' ' + place if place else ''} $end"
    for part, inside in node.items():
        if part is not None:
            yield f"$scope module {part} $end"
            yield from lines_of_scope(inside)
            yield "$upscope $end"


def lines_of_dump(run, cycles):
    """Gives the lines of the waves, for the bits that change in each cycle."""
    yield from declarations(run)
    clock, edge, back = short_name(0), "01"[not run.falls], "01"[run.falls]
    count = 0
    for changes in cycles:
        changed = {}
        for number, bit in changes.items():
            wave, place = run.places[number]
            wave.bits[place] = bit
            changed[wave.id] = wave
        yield f"#{count * CYCLE}"
        yield from ([] if count else ["$dumpvars"])
        yield edge + clock
        yield from (it.value() for it in changed.values())
        yield from ([] if count else ["$end"])
        yield from (f"#{count * CYCLE + CYCLE // 2}", back + clock)
        count += 1
    yield f"#{count * CYCLE}"

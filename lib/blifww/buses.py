"""What a bus is, for all scripts: docs/FORMATS.md, 'Buses', has the rule."""
import re
from dataclasses import dataclass, field

MOST_BITS = 4096
BRACKETS = re.compile(r"(.+)\[(0|[1-9][0-9]{0,8})\]", re.S)
PLAIN = re.compile(r"(.*[^0-9])(0|[1-9][0-9]{0,8})", re.S)


@dataclass
class Bus:
    """A bus: its name, whether its bits are named as `a[0]`, and its bits by their numbers. A name that is no bit is
    a bus of its own, `is_bus` not."""

    name: str
    is_bus: bool = False
    has_brackets: bool = False
    bits: dict = field(default_factory=dict)  # number: the whole name

    def low(self):
        return min(self.bits)

    def width(self):
        return max(self.bits) - min(self.bits) + 1


def bit_of(name):
    """Returns the bus of a name, whether it has brackets, and the number of its bit; None where it is no bit of a
    bus."""
    found = BRACKETS.fullmatch(name)
    if found:
        return found[1], True, int(found[2])
    found = PLAIN.fullmatch(name)
    return (found[1], False, int(found[2])) if found else None


def is_whole(bus, names, may_miss):
    """Returns whether bits are a bus among names: no other name is that of the bus, and there are two bits or more,
    with none missing between them. With `may_miss` one bit in brackets is a bus, too, and up to half of the bits may
    be missing, and eight more."""
    if bus.name in names or bus.width() > MOST_BITS:
        return False
    return len(bus.bits) == bus.width() > 1 or may_miss and bus.has_brackets and bus.width() <= 2 * len(bus.bits) + 8


def groups_of(names, plain):
    """Returns the bits of each bus that there may be, by its name and whether it has brackets."""
    groups = {}
    for name in names:
        base, has_brackets, bit = bit_of(name) or (name, False, 0)
        if base != name and (has_brackets or plain):
            groups.setdefault((base, has_brackets), Bus(base, True, has_brackets)).bits[bit] = name
    return groups


def buses_of(names, plain=True, may_miss=False):
    """Returns the buses of names, in the order of their first bits. Only with `plain` names such as `a0 a1` are a
    bus."""
    names = dict.fromkeys(names)
    bus_of = {}
    for (base, has_brackets), bus in sorted(groups_of(names, plain).items(), key=lambda it: not it[0][1]):
        if is_whole(bus, names, may_miss) and (
            has_brackets or not any(it.name == base for it in bus_of.values() if it.has_brackets)
        ):
            bus.bits = dict(sorted(bus.bits.items()))
            bus_of.update((name, bus) for name in bus.bits.values())
    found = (bus_of.get(name) or Bus(name, bits={0: name}) for name in names)
    return list({id(it): it for it in list(found)}.values())

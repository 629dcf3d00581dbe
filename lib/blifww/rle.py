"""Patterns in extended RLE, with their port tables; read as the program reads them (docs/FORMATS.md), and refused
with its words."""
import re
from dataclasses import dataclass, field

from . import command

TILE = 32  # a tile's columns; the generations that an electron needs for it
LANE = 16  # a lane's rows
WIDEST = 70  # letters of a line of cells
MOST_BYTES, MOST_BOX = 1 << 24, 1 << 28
STEPS = {
    "N": (0, -1),
    "NE": (1, -1),
    "E": (1, 0),
    "SE": (1, 1),
    "S": (0, 1),
    "SW": (-1, 1),
    "W": (-1, 0),
    "NW": (-1, -1),
}
TAGS = {".": ".", "b": ".", "A": "A", "o": "A", "B": "B", "C": "C", "$": "$", "!": "!"}
NUMBER = r"[ \t]*=[ \t]*([0-9]+)[ \t]*"
HEADER = re.compile(rf"[ \t]*x{NUMBER},[ \t]*y{NUMBER}(?:,[ \t]*rule[ \t]*=[ \t]*([^ \t].*?)[ \t]*)?", re.S)
ITEM = re.compile(r"[ \t]+|([0-9]*)(.?)", re.S)


@dataclass
class Pattern:
    """A pattern and its port table. A run is (x, y, length, letter), where the letter is A (heads), B (tails) or C
    (conductors)."""

    width: int = 0
    height: int = 0
    period: int = 32
    latency: int = 0
    contexts: int = 1
    runs: list = field(default_factory=list)
    inputs: dict = field(default_factory=dict)  # name: (x, y)
    outputs: dict = field(default_factory=dict)  # name: (x, y)
    nets: list = field(default_factory=list)  # (x, y, offset, name, path)
    version: int = 0  # of its table; 0 where it has none

    def cells(self):
        """Returns the number of its box's cells."""
        return self.width * self.height


class Refused(ValueError):
    """A text that is refused: the line with which the program refuses it, and what that means."""

    def __init__(self, refusal, means):
        super().__init__(f"{refusal}: {means}")
        self.refusal = refusal


def shown(text):
    """Returns the beginning of a text, fit for a line that people read."""
    return re.sub("[^ -~]", "?", text[:40])


def number_of(digits):
    """Returns a number of the formats, or None."""
    bare = digits.lstrip("0") or digits[:1]
    return int(bare) if re.fullmatch("[0-9]{1,20}", bare) and int(bare) < 1 << 64 else None


# The port table.


def escaped(name):
    """Returns a name as it is written in a table of version 2."""
    return "".join(it if "!" <= it <= "~" and it != "%" else f"%{ord(it):02X}" for it in name)


def unescaped(word):
    """Returns the name that a word with escapes says, or None."""
    if re.search("%(?![0-9A-Fa-f]{2})|%0[Aa]", word):
        return None
    return re.sub("%(..)", lambda it: chr(int(it[1], 16)), word)


def version_of(words):
    """Returns the version, period, latency and contexts that the words of a version line say, or None."""
    line = re.fullmatch(r"([12]) P ([0-9]+) L ([0-9]+)(?: C ([0-9]+))?", " ".join(words))
    if not line or line[1] == "2" and line[4] is None:
        return None
    period, latency, contexts = number_of(line[2]), number_of(line[3]), number_of(line[4] or "1")
    is_roomy = contexts == 1 or contexts and period is not None and 32 * contexts <= period
    return (int(line[1]), period, latency, contexts) if period and latency is not None and is_roomy else None


def port_of(words, version):
    """Returns the kind, name, path, cell and offset that the words of a port's line say, or None."""
    if len(words) != {"IN": 4, "OUT": 4, "NET": 6}.get(words[0]):
        return None
    word, path = (words[4], words[5]) if words[0] == "NET" else (words[3], "-")
    name = unescaped(word) if version == 2 else word
    numbers = [number_of(it) for it in words[1 : 4 if words[0] == "NET" else 3]]
    is_path = path == "-" or all(
        re.fullmatch("0|[1-9][0-9]*", it) and number_of(it) is not None for it in path.split(".")
    )
    return (words[0], name, path, numbers) if name and is_path and None not in numbers else None


def add_port(pattern, port, refuse):
    """Adds a port to a pattern's table."""
    kind, name, path, (x, y, *offset) = port
    if x >= pattern.width or y >= pattern.height:
        refuse("H3 CellOutside", f"({x}, {y}) is outside the box")
    if kind == "NET":
        pattern.nets.append((x, y, offset[0], name, path))
    else:
        (pattern.inputs if kind == "IN" else pattern.outputs)[name] = x, y


def read_ports(pattern, lines):
    """Reads the port table, which stands in the lines before the header."""
    seen = set()
    for number, line in enumerate(lines, 1):
        if not line.startswith("#C BLIFWW "):
            continue

        def refuse(kind, means):
            raise Refused(f"{kind} line {number}", means)

        words, is_first = line.split(" ")[2:], pattern.version == 0
        version = version_of(words)
        port = None if version else port_of(words, 1 if is_first and words[0] != "2" else pattern.version or 2)
        if not version and not port:
            refuse("H1 BadLine", f"this is no line of a port table: {shown(line)}")
        if bool(version) != is_first:
            refuse("H2 BadOrder", "the version line stands first, and only there")
        if version:
            pattern.version, pattern.period, pattern.latency, pattern.contexts = version
            continue
        if port[:3] in seen:
            refuse("H4 Twice", f"the name {port[1]} stands twice")
        add_port(pattern, port, refuse)
        seen.add(port[:3])


# Texts.


def lines_of(text):
    """Returns the lines of a text; one that ends before its first line break has a last line without one."""
    *lines, last = text.split("\n")
    return [it.removesuffix("\r") for it in lines] + ([last] if last else [])


def is_pattern(text):
    """Returns whether a text is meant as a pattern: whether its first line that is no comment and not blank is a
    header."""
    first = next((it for it in lines_of(text) if not it.startswith("#") and it.strip(" \t")), "")
    return first.lstrip(" \t").startswith("x") and "=" in first


def read_header(lines):
    """Returns where the header stands, and a pattern that has its box."""
    at = next((at for at, line in enumerate(lines) if not line.startswith("#") and line.strip(" \t")), None)
    number = max(1, len(lines)) if at is None else at + 1

    def refuse(kind, means):
        raise Refused(f"{kind} line {number}", means)

    if at is None:
        refuse("G1 NoHeader", "the text is empty")
    if not lines[at].lstrip(" \t").startswith("x"):
        refuse("G1 NoHeader", f"this is no pattern's header: {shown(lines[at])}")
    header = HEADER.fullmatch(lines[at])
    width, height = (number_of(it) for it in header.groups()[:2]) if header else (None, None)
    if width is None or height is None:
        refuse("G2 BadHeader", "it is not of the form x = .., y = .., rule = WireWorld")
    if (header[3] or "").lower() != "wireworld":
        refuse("G3 OtherRule", f"the rule is {shown(header[3])}" if header[3] else "no rule is named")
    if width * height > MOST_BOX:
        raise Refused(f"too large: grid {width} by {height}", f"the box has more than {MOST_BOX} cells")
    return at, Pattern(width, height)


def read_cells(pattern, lines, at, has_end_of_line):
    """Adds the runs that the lines after the header spell to a pattern."""
    x = y = 0
    for number, line in enumerate(lines[at + 1 :], at + 2):
        if line.startswith("#"):
            continue
        for digits, tag in ITEM.findall(line):
            if not tag and (not digits or number == len(lines) and not has_end_of_line):
                continue
            length, letter = number_of(digits) if digits else 1, TAGS.get(tag)
            if not length or not letter or letter == "!" and digits:
                raise Refused(f"G4 BadItem line {number}", f"this is no item of a pattern: {shown(digits + tag)}")
            if letter == "!":
                return
            if letter == "$":
                x, y = 0, y + length
                continue
            if letter != ".":
                if x + length > pattern.width or y >= pattern.height:
                    raise Refused(f"G5 CellOutside line {number}", "the header's box is smaller")
                pattern.runs.append((x, y, length, letter))
            x += length
    raise Refused(f"G6 NoEnd line {max(1, len(lines))}", "the text ends without `!`")


def read_table(text):
    """Returns a pattern that has the box and the port table of a text, and no cells."""
    lines = lines_of(text)
    at, pattern = read_header(lines)
    read_ports(pattern, lines[:at])
    return pattern


def read_pattern(text):
    """Returns the pattern that a text says. Raises Refused where there is none."""
    if len(text) > MOST_BYTES:
        raise Refused(f"too long: limit {MOST_BYTES}", "the text has more bytes")
    lines = lines_of(text)
    at, pattern = read_header(lines)
    read_cells(pattern, lines, at, text.endswith("\n"))
    read_ports(pattern, lines[:at])
    return pattern


def pattern_of(file, text=None):
    """Returns the pattern that a file has, whose text may be read already. Raises ValueError, with the file's name,
    where it has none."""
    text = command.read(file) if text is None else text
    try:
        return read_pattern(text)
    except ValueError as fault:
        raise ValueError(f"{file}: {fault}") from None


def read_window(text):
    """Returns a pattern of the lines that `window` prints, or None where they are none."""
    lines = lines_of(text)
    if not lines or not lines[0] or {len(it) for it in lines} != {len(lines[0])} or set().union(*lines) - set(".ABC"):
        return None
    pattern = Pattern(len(lines[0]), len(lines))
    for y, line in enumerate(lines):
        pattern.runs += [(it.start(), y, len(it[0]), it[0][0]) for it in re.finditer("A+|B+|C+", line)]
    return pattern


# Writing.


def table_lines(period, latency, contexts, inputs, outputs, nets):
    """Gives the lines of a port table. Ports are pairs of a name and a cell, nets (x, y, offset, name, path)."""
    yield f"#C BLIFWW 2 P {period} L {latency} C {contexts}"
    for kind, ports in (("IN", inputs), ("OUT", outputs)):
        yield from (f"#C BLIFWW {kind} {x} {y} {escaped(name)}" for name, (x, y) in ports)
    yield from (f"#C BLIFWW NET {x} {y} {offset} {escaped(name)} {path}" for x, y, offset, name, path in nets)


def items_of(runs):
    """Gives the items of runs, of which none lies on another."""
    at_x = at_y = 0
    for x, y, length, letter in sorted(runs, key=lambda it: (it[1], it[0])):
        for count, tag in ((y - at_y, "$"), (x - at_x * (y == at_y), "."), (length, letter)):
            if count:
                yield f"{count}{tag}" if count > 1 else tag
        at_x, at_y = x + length, y
    yield "!"


def text_of(comments, width, height, runs):
    """Returns the text of a pattern: its comments, its header, and its cells in lines as long as `compile` writes
    them."""
    lines, line = [*comments, f"x = {width}, y = {height}, rule = WireWorld"], ""
    for it in items_of(runs):
        if len(line) + len(it) > WIDEST:
            lines.append(line)
            line = ""
        line += it
    return "\n".join([*lines, line, ""])


# What other scripts ask of patterns.


def box_of_cells(pattern):
    """Returns the box of the cells that are not empty: its left, top, and what is right of it and below."""
    ends = [x + length for x, _, length, _ in pattern.runs], [y + 1 for _, y, _, _ in pattern.runs]
    return (
        min((it[0] for it in pattern.runs), default=0),
        min((it[1] for it in pattern.runs), default=0),
        *(max(it, default=0) for it in ends),
    )

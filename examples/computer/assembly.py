"""Reads programs of the computer, orders their steps and words for the memory, and does their steps."""
import itertools
import re
import sys
from dataclasses import dataclass, field
from pathlib import Path

sys.path.insert(0, str(Path(__file__).resolve().parents[2] / "lib"))
from blifww import blif, command

STEPS = {"": 0, "take": 1, "sub": 2, "add": 3, "end": 4, "show": 5, "if": 6, "unless": 7}  # the three bits of each step
WITH_WORD = {"take", "sub", "add", "show"}
MOST_WORDS, MOST_STEPS = 8, 256  # what a program may have
WIDTH = 6  # the bits of a word
LAMPS = 14  # of the display


class Mistake(ValueError):
    """What is wrong with a program, or with what is asked for."""


@dataclass
class Program:
    """A program as its text has it: its words with their first numbers, and its steps, each with its word or None."""

    file: str = ""
    words: dict = field(default_factory=dict)
    steps: list = field(default_factory=list)


@dataclass
class Memory:
    """What comes by in a turn, in order: the steps, and the words with their numbers."""

    steps: list
    words: list


class Reader:
    """Reads the lines of a program; a mistake names the file and the line."""

    def __init__(self, file, width):
        self.file, self.width, self.line, self.opened, self.program = file, width, 0, None, Program(file)

    def mistake(self, text, line=None):
        return Mistake(f"{self.file}, line {line or self.line}: {text}")

    def read_word(self, name, value):
        """Reads `a = 12`."""
        if name in self.program.words:
            raise self.mistake(f"there is a word {name} already")
        if not re.fullmatch(r"[A-Za-z_]\w*", name, re.A) or name in STEPS:
            raise self.mistake(f"{name} is no name of a word: letters, digits and _, not a digit first, and no step")
        if not value:
            raise self.mistake(f"{name} needs a number from 0 to {(1 << self.width) - 1}")
        if not re.fullmatch("0*[0-9]{1,9}", value, re.A) or int(value) >= 1 << self.width:
            raise self.mistake(f"{value} is not a number from 0 to {(1 << self.width) - 1}")
        if len(self.program.words) == MOST_WORDS:
            raise self.mistake(f"there are more than {MOST_WORDS} words")
        self.program.words[name] = int(value)

    def read_step(self, name, words):
        if name not in STEPS:
            raise self.mistake(f"there is no step {name}; the steps are {', '.join(list(STEPS)[1:])}")
        if len(words) != (name in WITH_WORD):
            raise self.mistake(f"{name} needs {'the name of a word' if name in WITH_WORD else 'no word'}")
        if words and words[0] not in self.program.words:
            raise self.mistake(f"there is no word {words[0]} yet; a line such as {words[0]} = 0 makes one")
        if name in ("if", "unless") and self.opened:
            raise self.mistake(f"what line {self.opened} begins has no end yet")
        if name == "end" and not self.opened:
            raise self.mistake("there is nothing to end")
        if name in ("if", "unless", "end"):
            self.opened = None if name == "end" else self.line
        self.program.steps.append((name, words[0] if words else None))

    def read(self, text):
        for self.line, line in enumerate(text.splitlines(), 1):
            line = line.partition(";")[0].strip()
            said = re.fullmatch(r"(\w+)\s*=\s*(\S*)", line)
            if said:
                self.read_word(*said.groups())
            elif line:
                name, *words = line.split()
                self.read_step(name, words)
        if self.opened:
            raise self.mistake("what it begins has no end", self.opened)
        if not self.program.steps:
            raise self.mistake("there are no steps", 1)
        return self.program


def read_program(file, width):
    """Returns the program that a file says, for words of so many bits."""
    text = command.read(file).removeprefix("\xef\xbb\xbf")
    if "\0" in text:
        raise Mistake(f"{file} is no text")
    return Reader(file, width).read(text)


def placed(steps, places, size, least):
    """Returns the steps of a turn in which the words come by at these places of so many: each step in the cycle in
    which its word comes by."""
    made = []
    for name, word in steps:
        while word and len(made) % size != places[word]:
            made.append(("", None))
        made.append((name, word))
    made += [("", None)] * max(0, least - len(made))
    return made + [("", None)] * (-len(made) % size)


def memory_of(program, least, sizes):
    """Returns the memory of a program, with at least so many steps: of all orders of the words, with as many words as
    may be, the shortest turn, and of these one that shows a number early."""
    best, least_rank = None, (1 << 20,)
    for size in sizes:
        for order in itertools.permutations(range(size), len(program.words)):
            places = dict(zip(program.words, order))
            steps = placed(program.steps, places, size, least)
            rank = len(steps), [name for name, _ in steps + [("show", None)]].index("show")
            if rank < least_rank:
                least_rank = rank
                names = {at: name for name, at in places.items()}
                best = Memory(
                    steps, [(names.get(i, f"({i})"), program.words.get(names.get(i), 0)) for i in range(size)]
                )
    if len(best.steps) > MOST_STEPS:
        taken = f"a turn takes {len(best.steps)} steps, with those that wait for words"
        raise Mistake(f"{program.file}: {taken}; the most are {MOST_STEPS}")
    return best


def memories_of(programs):
    """Returns the memories of programs that share a netlist: all are as long as the longest. One alone may have further
    words, if that makes its turn shorter."""
    count = max(2, *(len(it.words) for it in programs))
    sizes, least = [count] if programs[1:] else range(count, MOST_WORDS + 1), 0
    for _ in range(2):
        memories = [memory_of(it, least, sizes) for it in programs]
        least = max(len(it.steps) for it in memories)
    return memories


def listing(memory, width):
    """Gives the memory, a line for each word and then a line for each step."""
    for name, number in memory.words:
        yield f"{number:0{width}b}  {name} = {number}"
    for i, (name, word) in enumerate(memory.steps):
        yield f"{STEPS[name]:03b}  {i:3} {name} {word or ''}".rstrip()


def latches_of(memory, width):
    """Gives the latches that a memory is, as (data, output, first bit)."""
    columns = [
        ("step", 3, [STEPS[name] for name, _ in memory.steps]),
        ("word", width, [number for _, number in memory.words]),
    ]
    for name, bits, numbers in columns:
        for i in range(bits):
            nets = [f"{name}[{i}]", *(f"{name}[{i}].{k}" for k in range(1, len(numbers))), f"{name}_out[{i}]"]
            for k, number in enumerate(numbers):
                yield nets[k + 1], nets[k], number >> i & 1


def netlist(memory, width, core, display=""):
    """Returns the text of a netlist of the processor, whose text is `core`, with the memory as latches, and with the
    display behind it if its text is given: then the lamps are the outputs."""
    model = blif.Model("program", ["clk"], outputs=[*(f"word_out[{i}]" for i in range(width)), "show"])
    model.latches = [
        blif.Latch(data, output, ["re", "clk"], str(bit)) for data, output, bit in latches_of(memory, width)
    ]
    pins = [
        f"{name}{end}[{i}]"
        for name, bits in (("step", 3), ("word", width))
        for end in ("", "_out")
        for i in range(bits)
    ]
    model.places = [("computer", {it: it for it in ["clk", "show", *pins]})]
    if display:
        model.outputs = [f"lamp[{i}]" for i in range(LAMPS)]
        words = {f"word[{i}]": f"word_out[{i}]" for i in range(width)}
        model.places.append(("display", {"show": "show", **words, **{it: it for it in model.outputs}}))
    return f"{model.text()}{core}{display}"


@dataclass
class Machine:
    """The processor by its description: what a step does to the accumulator, the carry, and the words."""

    words: dict
    accumulator: int = 0
    carry: bool = False
    left_out: bool = False

    def shown_by(self, name, word):
        """Does a step; returns the number that it shows, or None."""
        if name == "end":
            self.left_out = False
        elif self.left_out:
            return None
        elif name in ("if", "unless"):
            self.left_out = self.carry == (name == "unless")
        elif name == "take":
            self.accumulator = self.words[word]
        elif name == "show":
            return self.words[word]
        else:
            made = self.words[word] + (self.accumulator if name == "add" else -self.accumulator)
            self.carry, self.words[word] = made not in range(1 << WIDTH), made % (1 << WIDTH)
        return None

"""Makes docs/player.html, one file, of dev/player/ and of the patterns listed here. dev/stored writes it."""
import json
from dataclasses import dataclass
from pathlib import Path

ROOT = Path(__file__).resolve().parent.parent
SOURCE = ROOT / "dev/player"
SCRIPTS = "reading streams wires gates machine plane chart page signals texts events".split()  # in this order


@dataclass
class Example:
    """A pattern of the page: examples/NAME.rle, if it is stored, what `route` makes of the netlist of NAME.small, or
    what `compile` makes of that of NAME. `made` has another file, or the words of a program and a netlist's file."""

    name: str
    title: str
    about: str
    made: str = ""
    words: str = ""  # the streams, if they are not those of examples/NAME.words
    nets: str = ""  # nets that the chart shows, with commas between them
    unfold: str = ""  # a bus whose bits the chart shows, as "OUT light"
    view: str = ""  # the part of the plane that is shown at first, as x,y,width,height, if the page is not to choose it


EXAMPLES = [
    Example(
        "toggle",
        "Toggle",
        "Each cycle in which en is 1 flips q, a bit that goes round the loop.",
        words="en=10011000",
        nets="n",
    ),
    Example(
        "or",
        "OR gate",
        "y is 1 if a or b is 1. Two diodes keep electrons from running back.",
        words="a=00110110 b=01011010",
    ),
    Example(
        "toggle.small",
        "Toggle, small",
        "The same netlist as wwroute draws it, with small gates and free wires.",
        words="en=10011000",
        nets="n",
    ),
    Example(
        "counters.small",
        "Counters, small",
        "Three counters of two bits in a row, drawn by wwroute: a whole machine on one screen.",
    ),
    Example(
        "traffic.small",
        "Traffic light with a timer, small",
        "A car that waits ends green early. Point at a gate or at a wire to see what it is.",
    ),
    Example(
        "cpu.small",
        "Processor with an input, small",
        "A toy processor in a box of 518 x 130 cells; compile draws it in 4,577 x 544.",
    ),
    Example(
        "gates",
        "All gates of small circuits",
        "Each gate is fed by rings, and shows its table again and again. Point at one to see what it is.",
        words="--cycles 40",
    ),
    Example(
        "ring", "Ring counter", "Four lights: one of them is on, and in each cycle the next one.", unfold="OUT light"
    ),
    Example(
        "lights", "Traffic light", "Green for three cycles, yellow for one, red for three, red and yellow for one."
    ),
    Example("noise", "Noise", "A shift register with feedback: its bits look random, and come again after 15 cycles."),
    Example("adder", "Adder", "s = a + b + ci in four bits, with a carry co. New numbers enter every 32 generations."),
    Example("counters", "Counters", "Three counters of two bits in a row count the cycles in which go is 1."),
    Example("gray", "Gray counter", "From each code to the next one bit changes.", unfold="OUT code"),
    Example("traffic", "Traffic light with a timer", "A car that waits ends green early."),
    Example("alu", "ALU", "a + b, a - b, a AND b or a XOR b, as f is 0, 1, 2 or 3."),
    Example("uart", "Serial transmitter", "Where start is 1 it takes a byte d, and sends it on tx bit by bit."),
    Example(
        "cpu",
        "Processor with an input",
        "Its program loads, adds and jumps; a is the accumulator, p the place in the program.",
    ),
    Example(
        "fibonacci",
        "Processor: Fibonacci",
        "A program of eight instructions: the accumulator a shows 1, 1, 2, 3, 5, 8, 13.",
        nets="p",
    ),
    Example(
        "gcd",
        "Computer: gcd of 48 and 36",
        "A processor, drawn by wwroute, whose memory is wire: where show is 1, word_out is 36, then 24, then 12.",
        made="examples/computer/gcd.rle",
        words="--cycles 31",
        nets="step,word",
    ),
    Example(
        "multiply",
        "Computer with lamps: 6 times 7",
        "Processor, memory and display in one pattern: the lamps are lit where show is 1: 7, 14, .. and 42.",
        made="examples/computer/multiply.rle",
        words="--cycles 71",
        nets="show,word_out",
    ),
    Example(
        "toggle.tape",
        "Toggle with a tape",
        "The bits of en lie on the wire in the west, and run in by themselves.",
        words="--cycles 8",
        view="2600,0,729,64",
    ),
    Example(
        "toggle.contexts",
        "Two toggles on the same wires",
        "The second machine runs 32 generations behind the first, with its own bits.",
        made="compile --contexts 2 1:q=1 examples/toggle.blif",
        words="0:en=11110111 1:en=00111101",
    ),
]


def made_by(example):
    """Returns the words of a program, none for a stored pattern, and last the file of a pattern or a netlist."""
    name = example.name
    if (ROOT / f"examples/{name}.rle").exists():
        return [f"examples/{name}.rle"]
    way = "route" if name.endswith(".small") else "compile"
    return example.made.split() or [way, f"examples/{name.removesuffix('.small')}.blif"]


def words_of(example):
    words = ROOT / f"examples/{example.name.removesuffix('.small')}.words"
    return example.words or (" ".join(words.read_text().split()) if words.exists() else "")


def facts_of(example, printed):
    """Returns what the page knows of an example; `printed(words, file)` is what the program prints of a netlist."""
    *words, file = made_by(example)
    pattern = printed(words, ROOT / file) if words else (ROOT / file).read_bytes()
    nets, unfold = ([it for it in [*names.split(",")] if it] for names in (example.nets, example.unfold))
    facts = {"name": example.name, "title": example.title, "about": example.about, "words": words_of(example)}
    view = {"view": [int(it) for it in example.view.split(",")]} if example.view else {}
    return {**facts, "nets": nets, "unfold": unfold, **view, "rle": pattern.decode("latin-1")}


def page_of(printed, examples=None):
    """Returns the page's bytes."""
    page = (SOURCE / "page.html").read_text()
    facts = ",\n".join(json.dumps(facts_of(it, printed)).replace("<", "\\u003c") for it in examples or EXAMPLES)
    script = "\n".join((SOURCE / f"{name}.js").read_text() for name in SCRIPTS)
    parts = {"STYLE\n": (SOURCE / "style.css").read_text(), "PATTERNS\n": f"[\n{facts}\n]\n", "SCRIPT\n": script}
    for mark, text in parts.items():
        before, found, after = page.partition(f"\n{mark}")
        if not found:
            raise ValueError(f"dev/player/page.html has no line {mark.strip()}")
        page = f"{before}\n{text}{after}"
    return page.encode()

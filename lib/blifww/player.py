"""From Verilog to a small circuit in the player's page: the steps that tools/lesson and tools/play share. Each prints a
line with the file that it makes."""
import json
import re

from . import command, program, rle
from .program import ROOT

PAGE = ROOT / "docs/player.html"
PATTERNS = re.compile(r'(<script [^>]* id="patterns">\n\[)')


def say(what, line):
    print(f"{what:9} {line}", flush=True)


def folder_of(word):
    """Returns the folder that a text names, and makes it where it is not there."""
    folder = command.path(word)
    folder.mkdir(parents=True, exist_ok=True)
    return folder


def make_netlist(top, files, folder):
    """Makes a netlist of Verilog. Returns its file."""
    netlist = folder / f"{top}.blif"
    said = program.output_of([ROOT / "tools/from-verilog", "-o", netlist, top, *files])
    say("netlist", f"{command.latin(netlist)}{said}")
    return netlist


def make_pattern(netlist, file, *options):
    """Makes a pattern of a netlist's text by `wwroute route`. Returns its text."""
    text = program.output_of([program.wwroute(), "route", *options], netlist)
    command.write(text, file)
    say("pattern", f"{command.latin(file)}: {size_of(text)}")
    return text


def size_of(text):
    table = rle.read_table(text)
    return f"{table.width} x {table.height} cells, P {table.period} L {table.latency}"


def make_page(file, text, about, words):
    """Makes the page whose first example is a pattern, with the streams of a file, if it is there."""
    given = command.read(words).strip() if words.exists() else ""
    own = {"name": file.stem, "title": file.stem, "about": about, "words": given, "nets": [], "unfold": [], "rle": text}
    first = json.dumps(own).replace("<", "\\u003c")
    page = PAGE.read_text(encoding="utf-8")
    file.write_text(PATTERNS.sub(lambda it: f"{it[1]}\n{first},", page), encoding="utf-8")
    say("page", command.latin(file))

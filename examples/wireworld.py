#!/usr/bin/env python3
"""wireworld.py PATTERN WORDS LINES: drives a pattern by its table, and compares its bits with another program's."""
import re
import sys
from collections import Counter


def step(wires, heads, tails):
    """Wireworld's rule: returns the heads and the tails of the next generation."""
    near = Counter((x + dx, y + dy) for x, y in heads for dx in (-1, 0, 1) for dy in (-1, 0, 1))
    born = {cell for cell, count in near.items() if count in (1, 2) and cell in wires}
    return born - heads - tails, heads


def cells_of(text):
    """Returns the cells of a pattern by their letters: A heads, B tails, C conductors."""
    cells, x, y = {"A": set(), "B": set(), "C": set()}, 0, 0
    for count, tag in re.findall(r"(\d*)([.ABC$])", re.sub(r"(?m)^[#x].*\n", "", text)):
        if tag in cells:
            cells[tag] |= {(x + k, y) for k in range(int(count or 1))}
        x, y = (0, y + int(count or 1)) if tag == "$" else (x + int(count or 1), y)
    return cells


pattern, words, lines = (open(it, encoding="latin-1").read() for it in sys.argv[1:])
period, latency = map(int, re.search(r"#C BLIFWW 2 P (\d+) L (\d+)", pattern).groups())
ports = {kind: re.findall(rf"#C BLIFWW {kind} (\d+) (\d+) (\S+)", pattern) for kind in ("IN", "OUT")}
streams, wanted = (dict(re.findall(r"(\S+)=([01]+)", text)) for text in (words, lines))
cycles, cells, wrong = len(next(iter(wanted.values()))), cells_of(pattern), 0
wires, heads, tails = set().union(*cells.values()), cells["A"], cells["B"]
for generation in range(latency + cycles * period):
    cycle, after = divmod(generation, period)
    heads |= {(int(x), int(y)) for x, y, name in ports["IN"] if after == 0 and streams[name][cycle : cycle + 1] == "1"}
    shown, after = divmod(generation - latency, period)
    for x, y, name in ports["OUT"]:
        is_due = shown >= 0 and after == 0 and wanted[name][shown] == "1"
        wrong += ((int(x), int(y)) in heads) != is_due
    heads, tails = step(wires, heads, tails)
print(f"{latency + cycles * period} generations, {len(wanted)} outputs, {wrong} wrong heads")
sys.exit(wrong > 0)

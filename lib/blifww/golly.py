"""Runs patterns in `bgolly`, Golly without a window."""
import re
import tempfile
from pathlib import Path

from . import program

WORDS = ["-q", "-q", "-s", "/usr/share/golly/Rules/", "-a", "RuleLoader", "-r", "WireWorld"]


def states_at(file, events):
    """Runs a pattern's file; `events` has the commands of generations, `set X Y` and `get X Y`. Returns the state of
    each cell that is got, as {generation: [state]}."""
    script, now = [f"load {file}"], 0
    for generation, commands in sorted(events.items()):
        script += ([f"step {generation - now}"] if generation > now else []) + commands
        now = generation
    with tempfile.NamedTemporaryFile("w", suffix=".script") as it:
        it.write("\n".join(script) + "\n")
        it.flush()
        said = program.output_of([program.needed("bgolly"), *WORDS, "--exec", it.name])
    states = iter(re.findall(r"^At .* -> (\d)$", said, re.M))
    return {
        generation: [next(states, "") for it in commands if it.startswith("get")]
        for generation, commands in sorted(events.items())
    }


def seen_at(pattern, file, streams, cycles):
    """Returns the bits that the outputs of a pattern show, {name: bits}, under streams (context, name, bits)."""
    events = {}
    for context, name, bits in streams:
        x, y = pattern.inputs[name]
        for t in (t for t, bit in enumerate(bits) if bit == "1"):
            events.setdefault(32 * context + t * pattern.period, []).append(f"set {x} {y}")
    asked = [pattern.latency + t * pattern.period for t in range(cycles)]
    for generation in asked:
        events.setdefault(generation, []).extend(f"get {x} {y}" for x, y in pattern.outputs.values())
    states = states_at(Path(file), events)
    return {
        name: "".join("1" if states[it][number] == "1" else "0" for it in asked)
        for number, name in enumerate(pattern.outputs)
    }

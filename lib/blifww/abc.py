"""Asks ABC whether two netlists are equivalent."""
import re
import shutil
import subprocess
import tempfile
from pathlib import Path

NAMES = ("berkeley-abc", "abc", "yosys-abc")
EQUAL, DIFFERENT, UNKNOWN = "equivalent", "not equivalent", "not decided"


def value_of(cover, values):
    """Returns what a cover gives where some nets have constant values: False, True, or None where that is not known."""
    products = []
    for row in cover.rows:
        literals = [
            None if it not in values else values[it] == (bit == "1") for it, bit in zip(cover.inputs, row) if bit != "-"
        ]
        products.append(False if False in literals else None if None in literals else True)
    holds = True if True in products else None if None in products else False
    return holds if holds is None or not cover.rows else holds == cover.on


def stuck_latches(model):
    """Returns the latches that never change, as {output: bit}: those that stay where all of them are taken for
    constants at first."""
    stuck = {it.output: it.starts_as_one() for it in model.latches}
    while True:
        values, covers = dict(stuck), model.covers
        while True:
            found = {it.output: value_of(it, values) for it in covers}
            values.update((net, bit) for net, bit in found.items() if bit is not None)
            left = [it for it in covers if found[it.output] is None]
            if len(left) == len(covers):
                break
            covers = left
        stays = {
            it.output: stuck[it.output]
            for it in model.latches
            if it.output in stuck and values.get(it.data) is stuck[it.output]
        }
        if len(stays) == len(stuck):
            return stuck
        stuck = stays


def prepared(model, one=None, more=()):
    """Returns the text for ABC of a flat model. Latches get the start that they have here, and no control; one that
    never changes becomes a constant, and so does a cover without rows. The input `one` is constant 1, and there are
    more inputs."""
    stuck = stuck_latches(model)
    lines = [
        [".model", "m"],
        [".inputs", *(it for it in dict.fromkeys([*model.inputs, *more]) if it != one)],
        [".outputs", *model.outputs],
    ]
    lines += [
        [".latch", it.data, it.output, str(int(it.starts_as_one()))] for it in model.latches if it.output not in stuck
    ]
    stuck.update({one: True} if one in model.inputs else {})
    for net, bit in stuck.items():
        lines += [[".names", net], *([["1"]] if bit else [])]
    for it in model.covers:
        lines += it.lines() if it.rows else [[".names", it.output]]
    return "".join(" ".join(it) + "\n" for it in [*lines, [".end"]])


def verdict_of(said, status):
    """Returns what ABC's lines say of two netlists, and a reason where they say nothing."""
    if re.search(r"^Networks are NOT EQUIVALENT", said, re.M):
        return DIFFERENT, ""
    if re.search(r"^Networks are equivalent", said, re.M):
        return EQUAL, ""
    if status < 0 or "Assertion" in said:
        return UNKNOWN, "ABC ended by a fault of its own"
    lines = [it for it in said.splitlines() if it and not it.startswith("ABC command line")]
    return UNKNOWN, " ".join(" ".join(lines).split())[:200] or "ABC says nothing"


def asked(command, texts, seconds):
    """Returns ABC's verdict on two texts by one command, and its reason."""
    path = next(filter(None, map(shutil.which, NAMES)), None)
    if path is None:
        return UNKNOWN, "there is no ABC (Debian: apt install berkeley-abc)"
    with tempfile.TemporaryDirectory() as room:
        for name, text in zip(("first.blif", "second.blif"), texts):
            Path(room, name).write_text(text, encoding="latin-1", newline="")
        words = [path, "-q", f"{command} first.blif second.blif"]
        try:
            said = subprocess.run(words, cwd=room, capture_output=True, timeout=seconds)
        except subprocess.TimeoutExpired:
            return UNKNOWN, f"ABC took more than {seconds} seconds"
    return verdict_of((said.stdout + said.stderr).decode("latin-1"), said.returncode)


def compared(texts, seconds):
    """Returns ABC's verdict on two texts, its reason, and the command: `cec` where neither has a latch; else `dsec`,
    and where ABC does not say by that, `dsec` without retiming."""
    commands = ["dsec", "dsec -r"] if any(re.search(r"^\.latch ", it, re.M) for it in texts) else ["cec"]
    first = None
    for command in commands:
        verdict, reason = asked(command, texts, seconds)
        if verdict != UNKNOWN:
            return verdict, reason, command
        first = first or (verdict, reason, command)
    return first

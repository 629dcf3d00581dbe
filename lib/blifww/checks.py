"""Scripts of checks: they print a line for each that fails, and then how many hold and how many do not, which
`.ci/run` adds up.

`#!/usr/bin/env python3` takes the first python3 on the PATH, and that may be a launcher that needs more time than a
script: pyenv's is one. So scripts that are started by others here run in the Python of the one that starts them, which
keeps what it compiles of them: else each start would take four times as long where PYTHONDONTWRITEBYTECODE is set.
"""
import contextlib
import os
import re
import shlex
import sys
import tempfile
from pathlib import Path

from . import command
from .program import ROOT

READER_CASES = ROOT / "dev/readers/cases"
LETTERS = {"n": "\n", "r": "\r", "t": "\t", "\\": "\\"}


class Checks:
    """Counts checks."""

    def __init__(self):
        self.right = self.wrong = 0

    def that(self, holds, name):
        """Counts a check; where it does not hold, prints a line with its name."""
        self.right += bool(holds)
        self.wrong += not holds
        if not holds:
            print(f"FAILED: {name}", flush=True)
        return bool(holds)

    def end(self):
        """Prints the counts, and ends the script: with status 1 where a check does not hold."""
        print(f"{self.right} {self.wrong}", flush=True)
        sys.exit(self.wrong > 0)


@contextlib.contextmanager
def own_python():
    """Makes this Python the first python3 on the PATH, within a `with`. It has its own library alone (-S): the
    scripts here need no other. What it compiles goes into a folder of its own, or that of the gate."""
    before = {it: os.environ.get(it) for it in ("PATH", "PYTHONPYCACHEPREFIX", "PYTHONDONTWRITEBYTECODE")}
    with tempfile.TemporaryDirectory() as folder:
        launcher = Path(folder, "python3")
        launcher.write_text(f'#!/bin/sh\nexec {shlex.quote(sys.executable)} -S "$@"\n')
        launcher.chmod(0o755)
        os.environ["PATH"] = f"{folder}:{before['PATH'] or os.defpath}"
        os.environ["PYTHONPYCACHEPREFIX"] = before["PYTHONPYCACHEPREFIX"] or f"{folder}/compiled"
        os.environ.pop("PYTHONDONTWRITEBYTECODE", None)
        try:
            yield
        finally:
            for name, value in before.items():
                os.environ.pop(name, None) if value is None else os.environ.update({name: value})


def unescaped(word):
    return re.sub(r"\\(x(..)|.)", lambda it: chr(int(it[2], 16)) if it[2] else LETTERS[it[1]], word)


def reader_cases():
    """Gives of each case of dev/readers/cases the number of its line, its kind, its other words, and what is said of
    them."""
    for at, line in enumerate(command.read(READER_CASES).split("\n")):
        if line and not line.startswith("#"):
            kind, *words, said = line.split(" | ")
            yield at, kind, list(map(unescaped, words)), said

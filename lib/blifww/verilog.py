"""Verilog, read by Yosys."""
import re

from . import command, program

WORDS_IN_ENDS = '"\n\\'  # what ends a file's name in a script of Yosys, or stands for another letter in it


def reads_of(top, files):
    """Returns the commands of Yosys that read files and take a top module. Raises ValueError where a name can't
    stand in such a script."""
    if not re.fullmatch(r"[A-Za-z_][A-Za-z0-9_$]*", top):
        raise ValueError(f"{top} is no name of a module: letters, digits, _ and $, not a digit first")
    commands = []
    for it in files:
        if any(letter in it for letter in WORDS_IN_ENDS):
            raise ValueError(f"{it}: Yosys takes no file whose name has a quote, a backslash or a line's end")
        with command.path(it).open("rb"):
            commands.append(f'read_verilog {"-sv " if it.endswith(".sv") else ""}"{it}"')
    return "; ".join([*commands, f"hierarchy -check -top {top}"])


def by_yosys(script):
    """Runs a script of Yosys. Raises ValueError, with its error line, where it fails."""
    status, out, err = program.asked([program.needed("yosys"), "-q", "-p", script])
    if status:
        lines = (out + err).splitlines()
        said = next((it for it in lines if "ERROR" in it), lines[-1] if lines else f"status {status}")
        raise ValueError(f"Yosys: {said[:300]}")

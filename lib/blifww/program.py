"""Finds and runs the program `blifww`, and the programs of others."""
import os
import resource
import shutil
import subprocess
import time
from pathlib import Path

ROOT = Path(__file__).resolve().parents[2]
PACKAGES = {
    "yosys": "yosys",
    "iverilog": "iverilog",
    "vvp": "iverilog",
    "bgolly": "golly",
    "gtkwave": "gtkwave",
    "Xvfb": "xvfb",
    "node": "nodejs",
}
PACKAGES["berkeley-abc"] = "berkeley-abc"


class Refused(ValueError):
    """What a command that failed said, and its status."""

    def __init__(self, said, status):
        super().__init__(said)
        self.status = status


def found(name):
    """Returns the path of a program of ours: the one in the variable of its name, such as BLIFWW, or the one that
    `./blifww` or `./wwroute` runs. Raises ValueError where there is none."""
    named = os.environ.get(name.upper())
    if named:
        return os.path.abspath(named)
    said = subprocess.run([ROOT / "dev/program", name], capture_output=True, text=True)
    if said.returncode:
        reason = said.stderr.strip().removeprefix(f"{name}: ")
        raise ValueError(f"there is no program {name} yet ({reason}); ./{name} --build builds one")
    return said.stdout.strip()


def blifww():
    return found("blifww")


def wwroute():
    return found("wwroute")


def encoded(words):
    """Returns the words of a command as the system takes them: texts are bytes."""
    return [it.encode("latin-1") if isinstance(it, str) else os.fsencode(it) for it in words]


def asked(words, text="", **how):
    """Runs a command over a text. Returns its status and the texts of its two outputs."""
    said = subprocess.run(encoded(words), input=text.encode("latin-1"), capture_output=True, **how)
    return said.returncode, said.stdout.decode("latin-1"), said.stderr.decode("latin-1")


def output_of(words, text="", **how):
    """Returns what a command prints of a text. Raises Refused, with what it says, where it fails."""
    status, out, err = asked(words, text, **how)
    if status:
        said = (err or out).strip("\n") or f"{os.path.basename(os.fsdecode(words[0]))} ended with status {status}"
        raise Refused(said, status)
    return out


def printed(words, text=""):
    """Returns what `blifww` prints of a text, by a command's words."""
    return output_of([blifww(), *words], text)


def needed(command):
    """Returns the path of a program of others. Raises ValueError, with the package of Debian that has it, where it
    is not here."""
    found = shutil.which(command)
    if found is None:
        raise ValueError(f"there is no {command} (Debian: apt install {PACKAGES.get(command, command)})")
    return found


def spent():
    """Returns how many processor seconds this process and those that it has waited for took."""
    used = [resource.getrusage(it) for it in (resource.RUSAGE_SELF, resource.RUSAGE_CHILDREN)]
    return sum(it.ru_utime + it.ru_stime for it in used)


def timed(call):
    """Returns what a call answers, and how many processor seconds and wall seconds it took."""
    before, start = spent(), time.monotonic()
    answer = call()
    return answer, spent() - before, time.monotonic() - start

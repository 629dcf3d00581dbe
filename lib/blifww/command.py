"""The command line of a script: its words, the files that it names, and its end by one line where something fails it.

The words are texts as everywhere in this package: a character a byte. Files are read and written by these words, and
`-` is standard input.
"""
import argparse
import os
import subprocess
import sys
import threading
import time
from pathlib import Path

PATIENCE = 2  # seconds that a script is silent
INTERVAL = 5  # seconds from one line on what it is doing to the next


def latin(word):
    """Returns a word of the system, such as a file's name, as a text."""
    return os.fsencode(word).decode("latin-1")


def path(word):
    """Returns the path that a text names; a path stands for itself."""
    return word if isinstance(word, Path) else Path(os.fsdecode(word.encode("latin-1")))


def name():
    return Path(sys.argv[0]).name


def parser(doc, output=False):
    """Returns a parser whose usage is the second paragraph of a script's docstring. With `output` it has the option
    `-o FILE`."""
    usage, help_text = doc.split("\n\n")[1].replace("%", "%%"), doc.replace("%", "%%")
    made = argparse.ArgumentParser(
        usage=usage, description=help_text, formatter_class=argparse.RawDescriptionHelpFormatter, allow_abbrev=False
    )
    if output:
        made.add_argument(
            "-o", metavar="FILE", dest="output", help="where the output goes, in the place of standard output"
        )
    return made


def number(least, most=1 << 64):
    """Returns what reads an option's number."""

    def read(word):
        if not word.isascii() or not word.isdigit() or not least <= int(word[:20]) <= most:
            raise argparse.ArgumentTypeError(
                f"{word[:40]} is no number from {least} on" + (f" to {most}" if most < 1 << 64 else "")
            )
        return int(word)

    return read


def read(word="-"):
    """Returns the text of a file, or of standard input."""
    if word != "-":
        return path(word).read_bytes().decode("latin-1")
    if sys.stdin is None:
        raise ValueError("standard input is closed")
    try:
        return sys.stdin.buffer.read().decode("latin-1")
    except OSError as fault:
        raise ValueError(f"standard input: {fault.strerror}") from None


def write(content, word=None):
    """Writes a text, or bytes, to a file or to standard output."""
    content = content.encode("latin-1") if isinstance(content, str) else content
    if word is None:
        sys.stdout.flush()
        sys.stdout.buffer.write(content)
        sys.stdout.buffer.flush()
    else:
        path(word).write_bytes(content)


def tell(line):
    """Says a line on standard error."""
    print(f"{name()}: {line}", file=sys.stderr, flush=True)


class Progress:
    """Says on standard error what a script is doing within a `with`, the text `line`: after some seconds, and then at
    intervals. It says nothing where the variable BLIFWW_QUIET is set."""

    def __init__(self, line=""):
        self.line, self.began, self.ended = line, time.monotonic(), threading.Event()
        self.thread = threading.Thread(target=self.run, daemon=True)

    def __enter__(self):
        if not os.environ.get("BLIFWW_QUIET"):
            self.thread.start()
        return self

    def __exit__(self, *_):
        self.ended.set()
        if self.thread.is_alive():
            self.thread.join()

    def run(self):
        wait = PATIENCE
        while not self.ended.wait(wait):
            tell(f"{self.line} ({time.monotonic() - self.began:.0f} s)")
            wait = INTERVAL


def line_of(fault):
    """Returns what one line says of a fault."""
    if isinstance(fault, subprocess.CalledProcessError):
        said = (fault.stderr or b"").strip()
        said = said if isinstance(said, str) else said.decode("latin-1")
        command = " ".join(latin(it) if isinstance(it, (bytes, Path)) else it for it in fault.cmd[:2])
        return f"{command} ended with status {fault.returncode}" + (said and f": {said[:200]}")
    if isinstance(fault, OSError) and fault.filename is not None:
        return f"{latin(fault.filename)}: {fault.strerror}"
    if isinstance(fault, OSError):
        return f"standard output: {fault.strerror}"
    return str(fault) or type(fault).__name__


def leave(status):
    """Ends the script at once, without a further look at a standard output that takes nothing."""
    sys.stderr.flush()
    os._exit(status)


def run(main):
    """Runs the main function of a script: with its words as texts, and its end by one line, with status 1, where
    something fails it."""
    sys.argv[1:] = map(latin, sys.argv[1:])
    for stream in (sys.stdout, sys.stderr):
        if stream is not None:
            stream.reconfigure(encoding="latin-1", errors="backslashreplace")
    if sys.stdout is None:
        sys.stdout = open(os.devnull, "w")
    try:
        main()
        sys.stdout.flush()
    except BrokenPipeError:
        leave(1)
    except (OSError, ValueError, subprocess.SubprocessError, EOFError) as fault:
        tell(" ".join(line_of(fault).split("\n")))
        leave(1)
    except KeyboardInterrupt:
        leave(130)

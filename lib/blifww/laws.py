"""The laws of the crates: public functions that take nothing and give nothing back, so that their contract is all."""
import re
from collections import defaultdict
from dataclasses import dataclass

from .program import ROOT

CRATES = ROOT / "crates"
FUNCTION = re.compile(r"^((?:///[^\n]*\n)*)(?:#[^\n]*\n)*pub fn (\w+)\(\)\n .*?^\{\}?$", re.M | re.S)
LEMMAS = re.compile(r"use Rattle\.(\w+\.proofs\.[\w.]+)\.\{([^}]*)\}")


@dataclass
class Law:
    """A law: its file, below crates/, the first sentence of its docstring, and the other crates that cite it."""

    crate: str
    name: str
    path: str
    says: str
    citing: list


def first_sentence(text):
    """Returns the first sentence of a text, or ''."""
    found = re.match(r".*?\.(?= [A-Z`]|$)", text)
    return found[0] if found else ""


def imported(text):
    """Yields each lemma that a file imports from the proofs of a crate: its module and its name."""
    for module, names in LEMMAS.findall(text):
        yield from ((module, name.strip()) for name in names.split(","))


def files(crate, *folders):
    """Returns the paths of a crate's files of code and logic, in order."""
    return sorted(
        it for folder in folders for it in (CRATES / crate / folder).rglob("*") if it.suffix in (".rt", ".antt")
    )


def citing_crates(crates):
    """Returns for each lemma, a module and a name, the crates that import it."""
    users = defaultdict(set)
    for crate in crates:
        for file in files(crate, "src", "specs", "proofs"):
            for lemma in imported(file.read_text()):
                users[lemma].add(crate)
    return users


def lemmas_of(crate, name, file):
    """Returns the lemmas of the crate that prove the contract of a function: those that its answers import."""
    module = file.relative_to(CRATES / crate / "src").with_suffix("")
    answers = CRATES / crate / "proofs" / ("" if module.name == "lib" else module) / name / "Answers.antt"
    lemmas = imported(answers.read_text()) if answers.exists() else ()
    return [it for it in lemmas if it[0].startswith(f"{crate}.")]


def read(crates):
    """Yields the laws of crates, in the order of these."""
    users = citing_crates(crates)
    for crate in crates:
        for file in files(crate, "src"):
            for comment, name in FUNCTION.findall(file.read_text()):
                says = first_sentence(" ".join(comment.replace("///", "").split()))
                citing = set().union(*(users[it] for it in lemmas_of(crate, name, file)))
                yield Law(crate, name, str(file.relative_to(CRATES)), says, sorted(citing - {crate}))

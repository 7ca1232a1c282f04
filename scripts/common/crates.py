"""The crates, as crates.txt lists them: what each stands on, and what it is made of."""
import functools
import re

from common import TOP

LIST = TOP / "crates.txt"
PARTS = ("src", "specs", "proofs")


@functools.cache
def uses():
    """What each crate names in the list, crates of this tree and of the toolchain, lowest crates first."""
    lines = [line for line in LIST.read_text().splitlines() if re.match(r"\w", line)]
    return {name.split()[0]: rest.split() for name, _, rest in (line.partition(":") for line in lines)}


def direct(name):
    """The crates of this tree that the crate names."""
    return [it for it in uses()[name] if it in uses()]


@functools.cache
def below(name):
    """All crates of this tree that the crate stands on."""
    return frozenset(direct(name)).union(*map(below, direct(name)))


def above(name):
    """All crates that stand on the crate."""
    return [it for it in in_order() if name in below(it)]


@functools.cache
def in_order():
    """All crates, each behind those that it stands on."""
    return sorted(uses(), key=lambda it: len(below(it)))


def is_program(name):
    return (TOP / "crates" / name / "src" / "main.rt").is_file()


def files(name):
    """What a crate is made of."""
    folders = (TOP / "crates" / name / part for part in PARTS)
    return sorted(path for folder in folders for path in folder.rglob("*") if path.is_file())


def lines(name):
    """How many lines of code and of what is proved of it the crate has: its proof takes the longer, the more."""
    return sum(path.read_bytes().count(b"\n") for path in files(name) if path.suffix in (".rt", ".antt"))

"""Which crates each part of scripts/outside.py covers, by scripts/covers.txt."""
import functools
import re

from common import TOP, crates

LIST = TOP / "scripts" / "covers.txt"
# What stands for every crate, and for none; and the line that is no part's.
ALL, NONE = "all", "none"
BY_RT = "rt ci"


@functools.cache
def table():
    """The crates that each part covers, as the list names them."""
    rows = (line for line in LIST.read_text().splitlines() if line and not line.startswith("#"))
    return {name: words.split() for name, words in (re.split(r"  +", row, maxsplit=1) for row in rows)}


def parts_of(crate):
    """The parts that cover the crate."""
    return [part for part, named in table().items() if part != BY_RT and (crate in named or ALL in named)]


def faults(parts):
    """Each part and each crate stands in the list, and nothing else does; and how many that are."""
    named = {name for words in table().values() for name in words} - {ALL, NONE}
    wrong = {
        "is no part of scripts/outside.py": {*table()} - {*parts, BY_RT},
        "is a part, and not in the list": {*parts} - {*table()},
        "is no crate": named - {*crates.uses()},
        "is a crate that no part covers": {*crates.uses()} - named,
    }
    told = [f"scripts/covers.txt: `{name}` {why}" for why, names in wrong.items() for name in sorted(names)]
    return told, len(table()) + len(crates.uses())

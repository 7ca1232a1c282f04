"""A row before it has its answer, and the numbers that rows keep."""
import hashlib
import json
import typing

from common import TOP
from vectors.spelling import shown

# Each number that a row ever had, with a digest of what the row gives: a line is never taken out.
LEDGER = TOP / "scripts" / "vectors" / "numbers.txt"

# The libraries of whose bugs rows tell.
LIBM, GO, PY = "libmacaroons", "go-macaroon", "pymacaroons"


class Row(typing.NamedTuple):
    """What is asked, under which rule, and what is known of it beforehand."""

    kind: str
    about: str
    rule: str
    given: dict
    # Which choice of this project's own decides the answer, where one does.
    own: str = ""
    # The libraries that are known to answer otherwise.
    known: tuple = ()

    def shown(self):
        """What is given, as JSON has it."""
        return {name: as_shown(value) for name, value in self.given.items()}

    def identity(self):
        """What makes the row another one: its kind and what it gives, not the words about it."""
        text = json.dumps([self.kind, self.shown()], sort_keys=True)
        return hashlib.sha256(text.encode()).hexdigest()[:16]


def as_shown(value):
    if isinstance(value, bytes):
        return shown(value)
    return [as_shown(it) for it in value] if isinstance(value, (list, tuple)) else value


def reading(about, rule, token, own="", known=()):
    return Row("reading", about, rule, {"token": token}, own, known)


def ledger():
    """The number of each identity that ever had one."""
    lines = LEDGER.read_text().splitlines() if LEDGER.exists() else []
    return {digest: int(number) for number, digest in (line.split() for line in lines)}


def numbered(files):
    """The rows of each file with their numbers, and the ledger that has them all.

    A row that is in the ledger keeps its number; a new one gets the next that nothing ever had.
    """
    numbers = ledger()
    following = max(numbers.values(), default=0) + 1
    for row in (row for rows in files.values() for row in rows):
        if row.identity() not in numbers:
            numbers[row.identity()] = following
            following += 1
    made = {}
    for name, rows in files.items():
        made[name] = sorted((numbers[row.identity()], row) for row in rows)
    return made, numbers


def write_ledger(numbers):
    LEDGER.write_text("".join(f"{number} {digest}\n" for digest, number in sorted(numbers.items(), key=lambda it: it[1])))


def twice(files):
    """What stands in two rows."""
    seen, found = set(), []
    for row in (row for rows in files.values() for row in rows):
        if row.identity() in seen:
            found.append(f"two rows give the same: {row.kind}, {row.about}")
        seen.add(row.identity())
    return found

"""The rows of clients/cases/doubts.json, by which the clients' tests go, are those that the program is asked in
try_cases, and its answers there are the same."""
import json

from common import TOP

ROWS = TOP / "clients" / "cases" / "doubts.json"
CASES = TOP / "crates" / "try_cases"


def due():
    """Each row as a line of try_cases has it, and what is to be answered."""
    for row in json.loads(ROWS.read_text()):
        yield f"doubt {row['caveat'].encode().hex() or '-'} {row['at']} {int(row['repeated'])}", row["doubt"] or "none"


def answered():
    """The lines of try_cases that ask for doubts, and their answers."""
    asked, told = ((CASES / name).read_text().splitlines() for name in ("stdin", "stdout"))
    return [pair for pair in zip(asked, told) if pair[0].startswith("doubt ")]


def faults():
    """Which rows differ, and how many there are."""
    rows, found = list(due()), answered()
    differing = [f"{line}: {told} in clients/cases, and not in try_cases" for line, told in rows if (line, told) not in found]
    more = [f"{line}: {told} in try_cases alone" for line, told in found if (line, told) not in rows]
    return differing + more, len(rows)

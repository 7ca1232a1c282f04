"""Inputs of the pipe with what it must print, in the folder `cases`.

Their values are not the program's own: tokens and signatures come from libmacaroons' README, and from Python's
`hmac`, `base64` and `json` put together as the formats say.
"""
import pathlib

from common.runs import Case

CASES = pathlib.Path(__file__).resolve().parent / "cases"


def cases():
    return {f"case_{path.name}": Case(path.read_text()) for path in sorted(CASES.iterdir()) if not path.suffix}


def answers():
    """How many lines of answers are compared."""
    return sum(len(path.read_text().splitlines()) for path in CASES.glob("*.stdout"))


def faults(made):
    """Which of them the pipe answers otherwise."""
    found = []
    for path in sorted(CASES.glob("*.stdout")):
        wanted, printed = path.read_text().splitlines(), made[f"case_{path.stem}"].output.splitlines()
        if printed != wanted:
            differing = [line for line, (a, b) in enumerate(zip(wanted, printed), 1) if a != b]
            found.append(f"{path.stem}: {len(printed)} answers for {len(wanted)}, others than wanted in the lines {differing}")
    return found

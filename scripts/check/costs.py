#!/usr/bin/env python3
"""Writes into docs/CONTRIBUTING.md what each crate costs, of docs/proof-times.txt, or tells that it is out of date.

`scripts/measure/proofs.py --record -- COMMAND` writes that file, of a command that proves from nothing, such as
`rt ci --anew`. The sums of a crate with all that stand on it, and the longest chain of crates, are made here.
"""
import pathlib
import re
import subprocess
import sys
import typing

sys.path.insert(0, str(pathlib.Path(__file__).resolve().parents[1]))
from common import TOP, crates

RECORD = TOP / "docs" / "proof-times.txt"
HEAD = """\
# What each crate takes the gate, by `scripts/measure/proofs.py --record`: the crate, the commit whose tree was
# proved, its lines then, and processor minutes of its proof and of its wrong bodies, with how many these were. A dash
# stands for what wasn't measured.
"""
PAGE = TOP / "docs" / "CONTRIBUTING.md"
PART = re.compile(r"<!-- costs -->\n.*?<!-- end -->", re.S)
NOT_MEASURED = "-"


class Cost(typing.NamedTuple):
    """What a crate took when it was measured, and how large it was."""

    commit: str
    lines: int
    proof: float
    edits: float | None
    count: int

    def is_old(self, name):
        """Whether the crate has grown or shrunk by half since."""
        return not self.lines / 1.5 < crates.lines(name) < self.lines * 1.5


def number(word):
    return None if word == NOT_MEASURED else float(word)


def word(minutes):
    return NOT_MEASURED if minutes is None else f"{minutes:.1f}"


def recorded():
    """What the file tells of each crate."""
    rows = [line.split() for line in RECORD.read_text().splitlines() if not line.startswith("#")]
    return {
        name: Cost(commit, int(lines), float(proof), number(edits), int(count))
        for name, commit, lines, proof, edits, count in rows
    }


def record(costs):
    """Writes these crates' lines over what the file tells of them, with the commit that is checked out. Of wrong
    bodies that weren't tried anew it tells what it told before."""
    command = ["git", "rev-parse", "--short=7", "HEAD"]
    commit = subprocess.run(command, cwd=TOP, capture_output=True, text=True).stdout.strip() or "unknown"
    found = recorded()
    for name, it in costs.items():
        tried = it if it.edits is not None or not it.count else found.get(name, it)
        found[name] = it._replace(commit=commit, edits=tried.edits, count=tried.count)
    rows = (
        " ".join([name, it.commit, str(it.lines), word(it.proof), word(it.edits), str(it.count)])
        for name, it in found.items()
    )
    RECORD.write_text(HEAD + "\n".join(sorted(rows)) + "\n")


def estimated(name):
    """What the crate's proof may take: what it took when it was measured, by the lines that it has now; and as much for
    each line as all of these where it wasn't, or one minute where none was."""
    known = recorded() if RECORD.exists() else {}
    measured = [known[name]] if name in known else known.values()
    lines = sum(it.lines for it in measured)
    return crates.lines(name) * (sum(it.proof for it in measured) / lines if lines else 1)


def edits_of(name):
    """How many wrong bodies of the crate the gate tries."""
    return len([*(TOP / "crates" / name / "must-fail").glob("*.edit")])


def longest_chain(minutes):
    """How long the chain of crates takes that takes longest, where each waits for the one before, and these crates."""
    chain = {}
    for name in crates.in_order():
        length, before = max((chain[it] for it in crates.direct(name)), default=(0, []))
        chain[name] = length + minutes.get(name, 0), [*before, *[name] * (name in minutes)]
    return max(chain.values())


def row(name, proofs, cost):
    """The crate's row, with the proofs of all that stand on it."""
    above = crates.above(name)
    reach = sum(proofs.get(it, 0) for it in (name, *above))
    edits = f"{cost.edits:.1f} for {cost.count}" if cost.edits else ""
    return f"| `{name}` | {cost.proof:.1f} | {edits} | {len(above)} | {reach:.1f} |"


def listed(what, names):
    """A passage that tells this of some crates."""
    return ["", f"{what}: {', '.join(f'`{it}`' for it in names)}."] if names else []


def part():
    """The table, and what is told below it."""
    known = recorded()
    costs = {name: known[name] for name in crates.uses() if name in known}
    proofs = {name: it.proof for name, it in costs.items()}
    edits = sum(it.edits or 0 for it in costs.values())
    length, chain = longest_chain(proofs)
    return [
        "| Crate | Proof | Wrong bodies of the gate | Crates above | Proofs of it and of these |",
        "|---|---|---|---|---|",
        *(row(name, proofs, it) for name, it in costs.items()),
        "",
        f"All these proofs take {sum(proofs.values()):.0f} processor minutes, and the wrong bodies {edits:.0f}. On any number of",
        f"processors the longest chain of crates takes {length:.0f}: {', '.join(f'`{it}`' for it in chain)}.",
        *listed("Not measured yet, and in no sum", [it for it in crates.uses() if it not in costs]),
        *listed("Grown or shrunk by half since", [name for name, it in costs.items() if it.is_old(name)]),
    ]


def page():
    """docs/CONTRIBUTING.md as it has to be."""
    text = "\n".join(["<!-- costs -->", *part(), "<!-- end -->"])
    return PART.sub(lambda _: text, PAGE.read_text())


def faults():
    """Whether the page is out of date, and crates in the file that aren't there; how much was asked."""
    known, now = recorded(), PAGE.read_text()
    old = [] if PART.search(now) and page() == now else [f"{PAGE.relative_to(TOP)} is out of date: make pages"]
    lost = sorted({*known} - {*crates.uses()})
    return old + [f"{RECORD.relative_to(TOP)}: no crate {name}" for name in lost], 1 + len(known)


if __name__ == "__main__":
    PAGE.write_text(page())
    print(f"costs: {PAGE.relative_to(TOP)} is written")

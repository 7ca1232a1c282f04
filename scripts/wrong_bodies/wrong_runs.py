#!/usr/bin/env python3
"""Tries wrong runs: bodies that no contract refuses, since no contract says that a sleeper wakes.

A wrong run is an edit as wrong bodies have them, crates/NAME/wrong-runs/*.edit, with one line more:
`runs: PROGRAM WORD..`. The program is run with these words, unproved, over a copy of the tree that
has the edit. Its output has to be another than the one in the program's file stdout, or it has to
hang. Before that the right bodies run ten times in a row.

Without names all are tried; the names of edits choose among them.
"""
import argparse
import shutil
import subprocess
import sys
import tempfile
from concurrent.futures import ThreadPoolExecutor
from dataclasses import dataclass
from pathlib import Path

sys.path.insert(0, str(Path(__file__).resolve().parents[1]))
from common import TOP, programs
from wrong_bodies.bodies import BadEdit, pairs_of, read_body, Source
from wrong_bodies.wrong_bodies import TEXTS, stands_on, take_over

# How often the right bodies run before any wrong one.
TIMES = 10
# Those that the gate tries.
OF_GATE = ["nobody_rung_at_turns_end", "answers_not_awaited"]


@dataclass
class WrongRun:
    """An edit, and the run that shows it."""

    edit: Path
    program: str
    words: list

    def crate(self):
        return self.edit.parents[1].name


def read_run(edit):
    for line in edit.read_text().splitlines():
        word, _, rest = line.partition(":")
        if word == "runs":
            program, *words = rest.split()
            return WrongRun(edit, program, words)
    raise BadEdit(f"{edit}: it names no run")


def wrong_runs(names=()):
    edits = sorted((TOP / "crates").glob("*/wrong-runs/*.edit"))
    return [read_run(it) for it in edits if not names or it.stem in names]


def due_lines(program, words):
    """What the program prints for these words."""
    folder = TOP / "crates" / program
    lines = dict(zip((folder / "args").read_text().split("\n"), (folder / "stdout").read_text().split("\n")))
    return [lines[it] for it in words]


def copy_tree(program, to):
    """A repository of its own with the program and what it stands on."""
    needed = stands_on(program)
    for name in needed:
        take_over(TOP / "crates" / name, to / "crates" / name, TEXTS)
    (to / "crates.txt").write_text("".join(f"{it}: {' '.join(words)}\n" for it, words in needed.items()))
    (to / ".git").mkdir()
    shutil.copy(TOP / "HANDLES", to)


def change(tree, run):
    """Applies the edit to a copy of the tree."""
    read_body(run.edit, Source(TOP / "crates" / run.crate()))
    for file, old, new in pairs_of(run.edit):
        path = tree / "crates" / run.crate() / file
        path.write_text(path.read_text().replace(old, new))


def run_once(tree, program, words):
    """The lines that the program prints, or None where it hangs: then `rt try` ends it after a time of its own."""
    command = ["rt", "try", "--", *words]
    run = subprocess.run(command, cwd=tree / "crates" / program, capture_output=True, text=True)
    if "run=ended" in run.stderr:
        return run.stdout.splitlines()
    if "did not end within the time limit" in run.stderr:
        return None
    raise BadEdit(f"{program} doesn't run: {run.stderr[-500:]}")


def check_right(program, words, times):
    """Runs the right bodies so many times."""
    with tempfile.TemporaryDirectory(prefix="wrong-runs-") as room:
        copy_tree(program, Path(room))
        for _ in range(times):
            if run_once(Path(room), program, words) != due_lines(program, words):
                raise SystemExit(f"{program} {' '.join(words)}: the right bodies print what isn't due")


def judged(run):
    """What came of a wrong run, and whether it was refused."""
    with tempfile.TemporaryDirectory(prefix="wrong-runs-") as room:
        copy_tree(run.program, Path(room))
        change(Path(room), run)
        try:
            came = run_once(Path(room), run.program, run.words)
        except BadEdit as fault:
            return f"BAD EDIT: {fault}", False
    if came is None:
        return "hangs", True
    due = due_lines(run.program, run.words)
    wrong = [f"`{word}` prints `{one}`" for word, one, other in zip(run.words, came, due) if one != other]
    if wrong or len(came) != len(due):
        return wrong[0] if wrong else f"ends after {len(came)} of {len(due)} lines", True
    return "PASSES", False


def try_all(runs, times, lanes):
    """Tries these. What wasn't refused, and how many there were."""
    for program, words in sorted({(it.program, tuple(it.words)) for it in runs}):
        check_right(program, list(words), times)
    found = []
    with ThreadPoolExecutor(lanes) as pool:
        for run, (said, is_refused) in zip(runs, pool.map(judged, runs)):
            print(f"{run.crate()}/{run.edit.stem}: {said}", flush=True)
            found += [] if is_refused else [f"{run.crate()}/{run.edit.stem}: {said}"]
    return found, len(runs)


def faults():
    """Those of the gate that a run doesn't refuse."""
    return try_all(wrong_runs(OF_GATE), 1, 1)


def main():
    raw = argparse.RawDescriptionHelpFormatter
    parser = argparse.ArgumentParser(description=__doc__, formatter_class=raw)
    parser.add_argument("names", nargs="*", metavar="NAME", help="all, if none is named")
    parser.add_argument("--lanes", type=int, default=1, help="how many are tried at a time")
    given = parser.parse_args()
    programs.stop_without_toolchain()
    found, count = try_all(wrong_runs(given.names), TIMES, given.lanes)
    print(f"{count - len(found)} passed, {len(found)} failed")
    sys.exit(1 if found else 0)


if __name__ == "__main__":
    main()

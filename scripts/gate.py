#!/usr/bin/env python3
"""The gate: every proof, then the programs that it left beside their pages and the work of others.

Its last line counts what passed, failed and was skipped in all of it; it ends with 1 where
something failed. With `--all` nothing may be skipped; with `--anew` nothing is taken over that was
proved on this machine before. What `rt tidy` would change in a crate is told, as its check says it;
with `--tidy` each such crate is a failure.
"""
import os
import pathlib
import re
import resource
import shutil
import subprocess
import sys
import time

TOP = pathlib.Path(__file__).resolve().parent.parent
# What `rt ci` says of a crate that `rt tidy` would change, behind the line with the crate's name.
CRATE = re.compile(r"== (\w+)")
UNTIDY = re.compile(r"finished `\.antt` files with imports that nothing uses: \d+|note: \S+ has no line #!\[tactic\(auto\)\]")
# The line in which a step counts.
COUNTS = re.compile(r"(?:[\w. -]+: )?(\d+) passed, (\d+) failed(?:, (\d+) skipped)?")
PROOFS, PROGRAMS, OUTSIDE = ["rt", "ci"], ["make", "--silent", "taken"], ["scripts/outside.py"]
# The memory that a check takes, in KiB. Left to itself `rt ci` plans up to three times that, and leaves processors idle.
OF_CHECK = 3_000_000


def lanes():
    """How many checks run side by side: one a processor, where there is memory for each."""
    free = re.search(r"MemAvailable:\s+(\d+)", pathlib.Path("/proc/meminfo").read_text())[1]
    return max(1, min(len(os.sched_getaffinity(0)), int(free) // OF_CHECK))


def proofs():
    """The command that proves all. A kit that takes over what it proved before has a word against that."""
    told = subprocess.run(["rt", "help"], capture_output=True, text=True) if shutil.which("rt") else None
    is_told = "--anew" in sys.argv and told is not None and "--anew" in told.stdout + told.stderr
    return [*PROOFS, *["--anew"] * is_told]


def followed(command):
    """Runs the command and passes on what it prints. Its status, and what it counts last, if any.

    The line in which it counts is passed on under the command's name: one line alone ends the gate.
    """
    counts, name, begin = None, " ".join(command), time.monotonic()
    crate, untidy = "", []
    print(f"gate: {name}", flush=True)
    if "/" not in command[0] and shutil.which(command[0]) is None:
        print(f"gate: there is no command `{command[0]}`")
        return 127, None
    environment = {"RT_JOBS": str(lanes()), **os.environ}
    how = {"cwd": TOP, "env": environment, "stdout": subprocess.PIPE, "text": True, "errors": "replace"}
    with subprocess.Popen(command, **how) as run:
        for line in run.stdout:
            told = COUNTS.fullmatch(line.rstrip("\n"))
            crate = found[1] if (found := CRATE.match(line)) else crate
            untidy += [crate] * bool(UNTIDY.search(line))
            counts = [int(it or 0) for it in told.groups()] if told else counts
            print(f"from {name}: {line}" if told else line, end="", flush=True)
    print(f"gate: {name} took {(time.monotonic() - begin) / 60:.0f} minutes", flush=True)
    return run.returncode, with_untidy(counts, list(dict.fromkeys(untidy)))


def with_untidy(counts, crates):
    """The counts with these crates among what failed, where that is asked for."""
    if crates:
        print(f"gate: `rt tidy` would change {' '.join(crates)}", flush=True)
    if counts is None or "--tidy" not in sys.argv:
        return counts
    return [counts[0], counts[1] + len(crates), counts[2]]


def judged(status, counts, what):
    """What a step counted; where it ended badly or told no counts, that is a failure too."""
    passed, failed, skipped = counts or (0, 0, 0)
    if failed == 0 and (status != 0 or counts is None):
        print(f"gate: {what} ended with status {status} and told no failure")
        failed = 1
    return passed, failed, skipped


def steps():
    """The counts of each step, up to one that the others stand on and that failed."""
    proved = judged(*followed(proofs()), "rt ci")
    yield proved
    if proved[1]:
        print("gate: the programs aren't tried, since not all was proved")
        return
    status, _ = followed(PROGRAMS)
    if status != 0:
        yield 0, 1, 0
        return
    yield judged(*followed(OUTSIDE), "scripts/outside.py")


def taken_since(begin):
    """What has passed since then by the clock, and what it took of the processors."""
    used = resource.getrusage(resource.RUSAGE_CHILDREN)
    clock, processor = (time.monotonic() - begin) / 60, (used.ru_utime + used.ru_stime) / 60
    return f"{clock:.0f} minutes, {processor:.0f} processor minutes, on {len(os.sched_getaffinity(0))} processors"


def main():
    begin = time.monotonic()
    passed, failed, skipped = map(sum, zip(*steps()))
    print(f"gate: all of it took {taken_since(begin)}")
    if skipped and "--all" in sys.argv:
        print(f"gate: nothing may be skipped, and {skipped} were")
        failed += skipped
    print(f"{passed} passed, {failed} failed, {skipped} skipped")
    sys.exit(1 if failed else 0)


if __name__ == "__main__":
    main()

#!/usr/bin/env python3
"""What the first commands of a fresh clone take: minutes by the clock, and of processor time.

    first_commands.py [--cores N] [COMMAND ..]

Each command is `demo`, `build` or `test`, by `make`, one after the other in a clone of what is checked out, on so many
processors. `test` takes over nothing that this machine has proved before. Without a command all three are run. What a
command prints goes to standard error, and its last line into the table. Where this machine is a virtual one, the last
column tells how much of its processors' time its host gave to others: with more than a few hundredths the minutes by
the clock say little.
"""
import argparse
import contextlib
import ctypes
import os
import pathlib
import resource
import subprocess
import sys
import tempfile
import time

sys.path.insert(0, str(pathlib.Path(__file__).resolve().parents[1]))
from common import TOP
from common.processes import stolen, stolen_since

# What each runs. A kit may take over what it proved on this machine, unless the gate is told to begin anew.
COMMANDS = {
    "demo": ["make", "--silent", "demo"],
    "build": ["make", "--silent", "build"],
    "test": ["scripts/gate.py", "--anew"],
}
# Of `prctl`: whoever of the processes below has lost its parent becomes this one's child.
PR_SET_CHILD_SUBREAPER = 36
# How many seconds what a command left behind has to end, so that it is counted.
PATIENCE = 10


def processor_seconds():
    """What all that has ended below this process has used."""
    end = time.monotonic() + PATIENCE
    with contextlib.suppress(ChildProcessError):
        while time.monotonic() < end:
            if os.waitpid(-1, os.WNOHANG)[0] == 0:
                time.sleep(0.1)
    used = resource.getrusage(resource.RUSAGE_CHILDREN)
    return used.ru_utime + used.ru_stime


def measured(command, clone, cores):
    """How the command ended, its minutes by the clock and of processor time, and the share that was stolen."""
    words = ["taskset", "--cpu-list", f"0-{cores - 1}", *COMMANDS[command]]
    how = {"cwd": clone, "stdout": subprocess.PIPE, "stderr": subprocess.STDOUT, "text": True, "errors": "replace"}
    begin, before, last, stolen_before = time.monotonic(), processor_seconds(), "", stolen()
    with subprocess.Popen(words, **how) as run:
        for line in run.stdout:
            sys.stderr.write(line)
            last = line.strip() or last
    taken = (time.monotonic() - begin) / 60, (processor_seconds() - before) / 60
    return f"{last} (status {run.returncode})", *taken, stolen_since(stolen_before)


def main():
    raw = argparse.RawDescriptionHelpFormatter
    words = argparse.ArgumentParser(description=__doc__, formatter_class=raw)
    words.add_argument("--cores", type=int, default=os.cpu_count())
    words.add_argument("commands", nargs="*", metavar="COMMAND", choices=[[], *COMMANDS])
    given = words.parse_args()
    ctypes.CDLL(None).prctl(PR_SET_CHILD_SUBREAPER, 1, 0, 0, 0)
    print(f"{os.cpu_count()} processors, on which {os.getloadavg()[0]:.1f} processes wanted to run in the last minute\n")
    print(f"| on {given.cores} cores | minutes | processor minutes | its end | stolen |\n|---|---|---|---|---|", flush=True)
    with tempfile.TemporaryDirectory() as folder:
        # Some tests run what is built there as another user.
        os.chmod(folder, 0o755)
        clone = pathlib.Path(folder) / "clone"
        subprocess.run(["git", "clone", "--quiet", TOP, clone], check=True)
        for command in given.commands or COMMANDS:
            ended, clock, processor, share = measured(command, clone, given.cores)
            print(f"| `make {command}` | {clock:.1f} | {processor:.1f} | {ended} | {share:.0%} |", flush=True)


if __name__ == "__main__":
    main()

#!/usr/bin/env python3
"""What an edit costs: a body, a contract, a definition and a test of mac_keys are changed in turn, each so that all
stays proved, and `make check mac_keys` is timed, and a part of the gate for the test.

    edits.py [EDIT ..]

It works in a copy of the tree as it is now, over what is proved of it here (`make build` first), and leaves
this one alone. Told are minutes of the clock, with the processors that there are, and of the processor, with how
many crates were proved. Beside other work times are longer.
"""
import os
import pathlib
import resource
import shutil
import subprocess
import sys
import tempfile
import time

sys.path.insert(0, str(pathlib.Path(__file__).resolve().parents[1]))
from build import proving, rooms
from common import TOP, crates, programs

CRATE = "mac_keys"
# What each edit changes: the file, what stands there, and what is to.
EDITS = {
    "a body": ("src/line.rt", "        Some(first) => *first == b'#',", "        Some(byte) => *byte == b'#',"),
    "a contract": ("src/line.rt", "pub fn is_name(name: &[u8]) -> bool\n", "pub fn is_name(name: &[u8]) -> bool\n"
                   "    ensures again { result ≡ is_name name.now }\n"),
    "a definition": ("specs/Line.antt", "is_name_byte b = is_ascii_alphanumeric b || (b == 46 || b == 95 || b == 45)",
                     "is_name_byte c = is_ascii_alphanumeric c || (c == 46 || c == 95 || c == 45)"),
}
TEST = "a row of a test"


def copied(folder):
    """A copy of the tree, with what is proved of it."""
    listed = subprocess.run(["git", "ls-files", "-z"], cwd=TOP, check=True, capture_output=True, text=True).stdout
    for name in filter(None, listed.split("\0")):
        (folder / name).parent.mkdir(parents=True, exist_ok=True)
        shutil.copy2(TOP / name, folder / name, follow_symlinks=False)
    subprocess.run(["git", "init", "--quiet"], cwd=folder, check=True)
    for name in crates.uses():
        kept, to = TOP / "crates" / name / "out", folder / "crates" / name / "out"
        for part in rooms.KEPT:
            rooms.give(kept / part, to / part)
        if (kept / proving.SEEN).exists():
            shutil.copy2(kept / proving.SEEN, to)


def timed(command, folder):
    """The minutes of the clock and of the processor that it takes, and what it prints."""
    begin, before = time.monotonic(), resource.getrusage(resource.RUSAGE_CHILDREN)
    run = subprocess.run(command, cwd=folder, stdout=subprocess.PIPE, stderr=subprocess.STDOUT, text=True)
    after = resource.getrusage(resource.RUSAGE_CHILDREN)
    if run.returncode != 0:
        raise SystemExit(run.stdout)
    spent = after.ru_utime + after.ru_stime - before.ru_utime - before.ru_stime
    return (time.monotonic() - begin) / 60, spent / 60, run.stdout


def edit(folder, name):
    """What an edit costs, and how many crates were proved."""
    file, old, new = EDITS[name]
    path = folder / "crates" / CRATE / file
    text = path.read_text()
    if text.count(old) != 1:
        raise SystemExit(f"{path}: what {name} changes stands there {text.count(old)} times")
    path.write_text(text.replace(old, new))
    minutes, spent, said = timed(["scripts/build/check.py", CRATE], folder)
    path.write_text(text)
    return minutes, spent, said.count("proved mac")


def told(name, minutes, spent, count):
    rest = f", {count} crates proved" if count else ""
    print(f"{name:16} {minutes:6.1f} minutes, {spent:6.1f} of the processor{rest}", flush=True)


def main(names):
    programs.stop_without_toolchain()
    if unknown := set(names) - {*EDITS, TEST}:
        raise SystemExit(f"there is no edit {', '.join(sorted(unknown))}: they are {', '.join([*EDITS, TEST])}")
    with tempfile.TemporaryDirectory(dir=TOP.parent) as room:
        folder = pathlib.Path(room)
        copied(folder)
        print(f"{len(os.sched_getaffinity(0))} processors, {os.getloadavg()[0]:.0f} runs beside this at the begin", flush=True)
        timed(["scripts/build/check.py", CRATE], folder)
        for name in names or [*EDITS, TEST]:
            if name == TEST:
                told(name, *timed(["scripts/outside.py", "HTTP rows"], TOP)[:2], 0)
            else:
                told(name, *edit(folder, name))
                timed(["scripts/build/check.py", CRATE], folder)


if __name__ == "__main__":
    main(sys.argv[1:])

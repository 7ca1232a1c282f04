#!/usr/bin/env python3
"""The first commands of somebody with a fresh clone, before anything is built: `make demo` does what README shows,
and each other command does its work or says in a line what comes first.

The clone has what git tracks here, as it is now. Where this is root the commands are another user's.
"""
import os
import pathlib
import re
import shutil
import subprocess
import sys
import tempfile
import typing

sys.path.insert(0, str(pathlib.Path(__file__).resolve().parents[1]))
from check import sessions
from common import TOP

# Who types the commands where this is root: nobody.
NEWCOMER = 65534
# How long a command may take, on a machine that is busy with other work.
PATIENCE = 900
# What says which command comes first.
COMES_FIRST = "make build"


class Command(typing.NamedTuple):
    """A command, and what is due of it: its status, and a text that it prints."""

    words: typing.Sequence[str]
    text: str = COMES_FIRST
    fails: bool = True


UNBUILT = [
    Command(["bin/macaroond", "--help"]),
    *(Command(["make", name]) for name in ["install", "deb", "tarball", "clients", "completions", "load", "bench", "faults",
                                           "soak-all"]),
    Command(["make", "soak"], "make build-runs"),
    Command(["make", "taken"], "make test"),
    Command(["make"], "make demo", fails=False),
    Command(["make", "pages"], "pages are written", fails=False),
    Command(["scripts/measure/proofs.py"], "no crate has kept proofs", fails=False),
    *(Command([f"scripts/{name}.py"]) for name in ["measure/idle", "measure/http_load", "measure/allocations", "faults/moving",
                                                   "check/sessions", "check/key_lines", "check/revoking"]),
]
# Those that prove, where the toolchain isn't there.
UNPROVED = [
    *(Command(["make", name], "`rt`") for name in ["build", "build-runs", "test", "check", "try", "fmt", "wrong-bodies", "wrong-runs",
                                                   "demo", "vectors", "reproduce"]),
    *(Command([f"scripts/{name}.py"], "`rt`") for name in ["measure/edits", "vectors/wrong_readers"]),
]


class Clone:
    """A folder with the files that git tracks, which is the newcomer's."""

    def __init__(self, folder):
        self.top = pathlib.Path(folder) / "clone"
        listed = subprocess.run(["git", "ls-files", "-z"], cwd=TOP, check=True, capture_output=True, text=True)
        for name in filter(None, listed.stdout.split("\0")):
            self.take(name)
        self.user = {"user": NEWCOMER, "group": NEWCOMER, "extra_groups": []} if os.geteuid() == 0 else {}
        if self.user:
            subprocess.run(["chown", "-R", f"{NEWCOMER}:{NEWCOMER}", folder], check=True)

    def take(self, name):
        (self.top / name).parent.mkdir(parents=True, exist_ok=True)
        shutil.copy2(TOP / name, self.top / name, follow_symlinks=False)

    def run(self, words, **surroundings):
        """How the newcomer's command ends, and what it prints."""
        environment = {**os.environ, "HOME": str(self.top.parent), "TMPDIR": str(self.top.parent), **surroundings}
        pipes = {"stdin": subprocess.DEVNULL, "stdout": subprocess.PIPE, "stderr": subprocess.STDOUT}
        how = {"cwd": self.top, "env": environment, "text": True, "timeout": PATIENCE, **self.user}
        run = subprocess.run(words, **pipes, **how)
        return run.returncode, run.stdout


def judged(command, status, printed):
    """What is wrong with how a command ended."""
    lines = [line for line in printed.splitlines() if command.text in line]
    is_due = lines and (status != 0) == command.fails and "Traceback" not in printed
    if not is_due:
        yield f"`{' '.join(command.words)}` ends with status {status} and prints\n{printed[-1000:]}"


def unrunnable(clone):
    """The scripts that say what runs them, and can't be run by their own names."""
    for path in sorted(clone.top.glob("scripts/*/*")):
        if path.is_file() and path.read_bytes().startswith(b"#!") and not os.access(path, os.X_OK):
            yield f"{path.relative_to(clone.top)} is no program, though it says what runs it"


def without_toolchain():
    """A path on which there is no `rt`."""
    folders = os.environ["PATH"].split(os.pathsep)
    return os.pathsep.join(it for it in folders if not (pathlib.Path(it) / "rt").exists())


def daemon_steps():
    """The steps of README's session with a daemon: each command, with what it prints."""
    steps = sessions.steps("README.md")
    begin = next(at for at, (command, _) in enumerate(steps) if " listen " in command)
    return steps[begin:]


def demo_faults(clone):
    """What `make demo` shows otherwise than README does, and how many checks that were."""
    status, printed = clone.run(["make", "--silent", "demo"])
    wrong = [f"make demo ends with status {status}"] if status else []
    place = 0
    for command, shown in daemon_steps():
        due = "".join(f"    {line}\n" for line in f"$ {command}\n{shown}".splitlines())
        found = printed.find(due, place)
        wrong += [f"make demo doesn't show\n{due}"] if found < 0 else []
        place = max(place, found)
    token = (TOP / "crates/macaroond/stdout").read_text().strip()
    wrong += [] if re.search(rf"^    {re.escape(token)}$", printed, re.MULTILINE) else ["make demo prints another token"]
    return [f"{fault}\n{printed[-2000:]}" for fault in wrong[:1]] + wrong[1:], 2 + len(daemon_steps())


def faults():
    """What goes otherwise than it must, how many checks there were, and what was left out."""
    if shutil.which("git") is None or not (TOP / ".git").exists():
        return [], 0, ["this is no clone: git tells what a clone has"]
    skipped = [] if shutil.which("rt") else ["the toolchain's command `rt` isn't there, by which make demo runs"]
    with tempfile.TemporaryDirectory() as folder:
        clone = Clone(folder)
        found = [fault for it in UNBUILT for fault in judged(it, *clone.run(it.words))] + list(unrunnable(clone))
        path = without_toolchain()
        found += [fault for it in UNPROVED for fault in judged(it, *clone.run(it.words, PATH=path))]
        wrong, checks = ([], 0) if skipped else demo_faults(clone)
    return found + wrong, len(UNBUILT) + len(UNPROVED) + 1 + checks, skipped


if __name__ == "__main__":
    told, count, left = faults()
    print("\n".join(told + left) or f"newcomer: {count} checks of the first commands are as they must be")
    sys.exit(1 if told else 0)

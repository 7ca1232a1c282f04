"""scripts/build/build.py over a stand-in for the toolchain's `rt`: what it leaves, and that it leaves nothing
where a build breaks off."""
import collections
import os
import pathlib
import shutil
import subprocess
import sys
import tempfile

from build import build
from common import TOP
from common.rows import judged

# It "proves" a crate, and "builds" a program that tells how it was built, or does what HOW says: it is
# killed, at once or as it builds, or ends well and leaves what was there.
RT = """#!/bin/sh
name=$(basename "$PWD")
case $1 in
    version) echo a kit; exit ;;
    lib) made=out/rlib/stamp ;;
    check) made=out/incremental/module ;;
    run) made=out/$name ;;
esac
echo "$1 $name" >> "$CALLS"
case $HOW in
    killed | "$1 killed") kill -9 $$ ;;
    silent) exit 0 ;;
esac
mkdir -p "$(dirname "$made")"
case $4 in
    --cpu*) ;;
    *) echo a stamp > "$made.stamp" ;;
esac
echo "0.1.0 (uncommitted) by $4" > "$made"
"""
SOURCE = "crates/macaroond/src/main.rt"
# What is proved and built, with how many calls.
PROVED = {"lib low": 1, "check macaroond": 1}


class Checkout:
    """A small checkout with a stand-in for the toolchain."""

    def __init__(self, folder):
        self.top = pathlib.Path(folder)
        self.write("VERSION", "0.1.0\n")
        self.write("crates.txt", "low: hex\nmacaroond: low clap\nother: low\ntime_blocks: low\n")
        self.write("scripts/programs.txt", "build macaroond it\nbuild time_blocks it\n")
        self.write("examples/keys", "")
        for name in ("low", "other", "time_blocks"):
            self.write(f"crates/{name}/src/lib.rt", f"{name}\n")
        self.write(SOURCE, "fn main\n")
        self.write("crates/macaroond/out/macaroond", "an earlier program\n")
        self.write("tools/rt", RT)
        (self.top / "tools/rt").chmod(0o755)
        for folder in ("build", "check", "common"):
            shutil.copytree(TOP / "scripts" / folder, self.top / "scripts" / folder)
        self.git("init", "--quiet")
        self.write(".gitignore", "out/\nlibexec/\nbin/\ncalls\n__pycache__/\n")
        self.commit()

    def write(self, name, text):
        (self.top / name).parent.mkdir(parents=True, exist_ok=True)
        (self.top / name).write_text(text)

    def git(self, *words):
        who = ["-c", "user.name=one", "-c", "user.email=one@example.org"]
        run = subprocess.run(["git", *who, *words], cwd=self.top, check=True, capture_output=True, text=True)
        return run.stdout.strip()

    def commit(self):
        """The first digits of a commit of all that is there."""
        self.git("add", "--all")
        self.git("commit", "--quiet", "--allow-empty", "--message=one")
        return self.git("rev-parse", "HEAD")[: len(build.NO_COMMIT)]

    def build(self, *words, how=""):
        """Whether a build ends well, what it called the toolchain for, and what it left."""
        calls = self.top / "calls"
        calls.write_text("")
        path = f"{self.top}/tools:{os.environ['PATH']}"
        environment = {**os.environ, "PATH": path, "HOW": how, "CALLS": str(calls)}
        command = [sys.executable, self.top / "scripts/build/build.py", *words]
        run = subprocess.run(command, env=environment, capture_output=True, text=True)
        return run.returncode == 0, collections.Counter(calls.read_text().splitlines()), self.left()

    def left(self):
        """The programs that are there, with what they tell, and rooms of the toolchain's runs."""
        found = [*(self.top / "libexec/macaroond").glob("x86-64-*"), *(self.top / "bin").glob("*")]
        rooms = {path.name: "a room" for path in (self.top / ".git").glob("room-*")}
        return {**{path.name: path.read_text().strip() for path in sorted(found)}, **rooms}


TIMER = {"time_blocks": "0.1.0 (uncommitted) by --"}


def programs(commit):
    """What is due of a build of this commit."""
    said = {build.NEWER: f"0.1.0 ({commit}) by --cpu={build.NEWER}", build.OLDER: f"0.1.0 ({commit}) by --"}
    return {**{level: said[level] for level in build.levels()}, **TIMER}


def rows(checkout):
    runs = {"run macaroond": len(build.levels()), "run time_blocks": 1}
    first = checkout.commit()
    for how in ("killed", "check killed", "silent", "run killed"):
        is_well, _, left = checkout.build(how=how)
        yield f"a run of the toolchain that is {how}", (is_well, left), (False, {})
    yield "a build over what those proved", checkout.build(), (True, runs, programs(first))
    again = {"run time_blocks": 1}
    yield "another one", checkout.build(), (True, again, programs(first))
    second = checkout.commit()
    yield "another commit of the same sources", checkout.build(), (True, again, programs(second))
    checkout.write(SOURCE, "fn main()\n")
    checkout.write("crates/low/src/lib.rt", "low, changed\n")
    is_well, _, left = checkout.build(how="killed")
    yield "a killed run behind a change", (is_well, left), (False, {})
    yield "sources that no commit has", checkout.build(), (True, {**PROVED, **runs}, programs(build.NO_COMMIT))
    checkout.write("crates/other/src/main.rt", "fn main\n")
    yield "another crate's sources", checkout.build(), (True, again, programs(build.NO_COMMIT))
    third = checkout.commit()
    kept = {**programs(third), build.OLDER: f"0.1.0 ({third}) by --"}
    yield "what the gate takes", checkout.build("--taken"), (True, {}, kept)
    checkout.write(SOURCE, "fn main() {}\n")
    only = {build.OLDER: f"0.1.0 ({build.NO_COMMIT}) by --", **TIMER}
    yield "what it takes behind a change", checkout.build("--taken"), (True, {}, only)


def faults():
    """What went otherwise than it must, and how many builds were made."""
    if shutil.which("git") is None:
        return [], 0, ["git isn't there, which names the commit"]
    with tempfile.TemporaryDirectory() as folder:
        return judged(rows(Checkout(folder)))

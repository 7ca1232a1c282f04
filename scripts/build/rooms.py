"""Trees beside this one in which the toolchain proves crates side by side.

The command `rt` shuts the folders of a crate and of all that it stands on while it works. So each run gets a
room: a tree of its own with these crates, whose files are further names of those here, and with what was
proved of them. What it leaves is brought back once it has ended well; of a crate that was refused, or whose
run was ended, what was proved of it.
"""
import contextlib
import fcntl
import os
import pathlib
import shutil
import signal
import subprocess
import tempfile
import threading

from common import TOP, crates

# Where rooms are, beside the files that they share: Git looks at nothing there, nor does the toolchain.
PLACE = TOP / ".git"
# What was proved of a crate, and what a run leaves that later ones take over.
INCREMENTAL = "incremental"
KEPT = (INCREMENTAL, "rlib")
ENDING = threading.Event()
RUNS = set()


def linked(source, target):
    """Gives a file a further name where the system can, else copies it. What isn't proved text may be written in place."""
    if not source.endswith(".oantt") and "/rlib/" not in source:
        return shutil.copy2(source, target)
    try:
        os.link(source, target)
    except OSError:
        shutil.copy2(source, target)
    return target


def give(source, target):
    """Puts the folder into the room, if it is there."""
    if source.is_dir():
        shutil.copytree(source, target, copy_function=linked)


class Room:
    """A tree with a crate and what it stands on."""

    def __init__(self, folder, name, is_anew):
        self.top, self.name = pathlib.Path(folder), name
        self.crate = self.top / "crates" / name
        shutil.copy2(TOP / "crates.txt", self.top)
        for it in crates.uses():
            (self.top / "crates" / it / "src").mkdir(parents=True)
        for it in [*crates.below(name), name]:
            (self.top / "crates" / it / "src").rmdir()
            for part in crates.PARTS:
                give(TOP / "crates" / it / part, self.top / "crates" / it / part)
            for part in KEPT[1:] if it != name else () if is_anew else KEPT:
                give(TOP / "crates" / it / "out" / part, self.top / "crates" / it / "out" / part)

    def rt(self, *words, feed=subprocess.DEVNULL, ends_at=None):
        """Runs the toolchain in the crate: its status, and what it printed. A line that this pattern fits ends it."""
        pipes = {"stdin": feed, "stdout": subprocess.PIPE, "stderr": subprocess.STDOUT, "text": True, "errors": "replace"}
        with subprocess.Popen(["rt", *words], cwd=self.crate, start_new_session=True, **pipes) as run:
            RUNS.add(run)
            if ENDING.is_set():
                end(run)
            said = []
            try:
                for line in run.stdout:
                    said.append(line)
                    if ends_at and ends_at.match(line):
                        end(run)
            finally:
                RUNS.discard(run)
        return run.returncode, "".join(said)

    def take(self, *names):
        """Takes these from what lies in the crate's out/ here."""
        (self.crate / "out").mkdir(exist_ok=True)
        for name in names:
            if (TOP / "crates" / self.name / "out" / name).is_file():
                shutil.copy2(TOP / "crates" / self.name / "out" / name, self.crate / "out")

    def bring_back(self, *names):
        """Brings home these parts of what the run has left in out/."""
        home = TOP / "crates" / self.name / "out"
        home.mkdir(exist_ok=True)
        for name in names:
            left, here = self.crate / "out" / name, home / name
            if left.is_dir():
                shutil.rmtree(here, ignore_errors=True)
                shutil.move(left, here)
            elif left.is_file():
                shutil.copy2(left, here)


def end(run):
    """Ends a run of the toolchain, which ends what it has started."""
    with contextlib.suppress(ProcessLookupError):
        os.killpg(run.pid, signal.SIGTERM)


def end_all():
    """Ends all runs, and those that are begun later."""
    ENDING.set()
    for run in list(RUNS):
        end(run)


@contextlib.contextmanager
def room(name, is_shared=False, is_anew=False):
    """A room for a crate, whose folder here is shut for others as long as it is there, or for all but further rooms. What
    was proved of it is there too, unless it is to be proved anew."""
    place = PLACE if PLACE.is_dir() else None
    held = os.open(TOP / "crates" / name, os.O_RDONLY)
    try:
        fcntl.flock(held, fcntl.LOCK_SH if is_shared else fcntl.LOCK_EX)
        with tempfile.TemporaryDirectory(prefix="room-", dir=place) as folder:
            yield Room(folder, name, is_anew)
    finally:
        os.close(held)


@contextlib.contextmanager
def alone():
    """While this holds no other script has rooms of this tree; those of runs that were killed are removed."""
    if not PLACE.is_dir():
        yield
        return
    with open(PLACE / "rooms.lock", "w") as held:
        fcntl.flock(held, fcntl.LOCK_EX)
        for left in PLACE.glob("room-*"):
            shutil.rmtree(left, ignore_errors=True)
        yield

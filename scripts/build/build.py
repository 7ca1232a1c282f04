#!/usr/bin/env python3
"""Proves the programs, and builds them: macaroond for each kind of processor, where bin/macaroond, its
launcher, finds it, libexec/macaroond/, and the others in bin/.

    build.py           those that `make build` makes, by scripts/programs.txt
    build.py --runs    those that `make build-runs` makes, which try the libraries
    build.py --taken   takes the macaroond that `rt ci` left where it built it

Crates that don't wait for one another are proved side by side. x86-64-v2 runs on all x86-64 processors
since about 2009, x86-64-v3 on those since about 2013; the second one is built where this machine can run
it, beside the first one, from the same proof. A build that breaks off leaves no program behind. Where
nothing that macaroond stands on has changed since the last build, none is made.
"""
import hashlib
import os
import pathlib
import re
import subprocess
import sys
import time
import typing

sys.path.insert(0, str(pathlib.Path(__file__).resolve().parents[1]))
from build import lanes, proving, rooms
from check import costs
from common import TOP, crates, programs

CRATE = TOP / "crates" / "macaroond"
PROGRAMS = TOP / "libexec" / "macaroond"
OLDER, NEWER = "x86-64-v2", "x86-64-v3"
# What Linux calls that which x86-64-v3 has beyond x86-64-v2.
NEWER_FLAGS = {"abm", "avx2", "bmi1", "bmi2", "f16c", "fma", "movbe"}
# What stands in the program where a build of a commit writes its first digits.
NO_COMMIT = "uncommitted"


class Record(typing.NamedTuple):
    """What the programs that are there were built from: the sum of their sources, and the commit."""

    sources: str
    commit: str

    FILE = PROGRAMS / "built"

    @classmethod
    def kept(cls):
        """The record of the last build that came to its end, if there is one."""
        words = cls.FILE.read_text().split() if cls.FILE.exists() else []
        return cls(*words) if len(words) == 2 else None

    def keep(self):
        self.FILE.write_text(f"{self.sources} {self.commit}\n")


def version():
    """The version of the release that is here, or of the last one."""
    return (TOP / "VERSION").read_text().strip()


def marked(commit):
    """How the program tells its version and the commit."""
    return f"{version()} ({commit})".encode()


def answer(*command):
    """What the command prints, or nothing where it fails."""
    run = subprocess.run(command, cwd=TOP, stdout=subprocess.PIPE, stderr=subprocess.DEVNULL, text=True)
    return run.stdout.strip() if run.returncode == 0 else ""


def commit():
    """The first digits of the commit that is checked out, if no source differs from it."""
    digits = answer("git", "rev-parse", "HEAD")[: len(NO_COMMIT)]
    changed = answer("git", "status", "--porcelain", "--", "crates", "crates.txt", "VERSION")
    return digits if digits and not changed else NO_COMMIT


def sources():
    """A sum of all that the programs are made from, and of the toolchain's name."""
    digest = hashlib.sha256(answer("rt", "version").encode())
    files = [path for name in ("macaroond", *crates.below("macaroond")) for path in crates.files(name)]
    for path in sorted([crates.LIST, TOP / "VERSION", *files]):
        content = path.read_bytes()
        digest.update(f"{path.relative_to(TOP)} {len(content)}\n".encode() + content)
    return digest.hexdigest()


def runs_newer():
    """Whether this machine runs programs for x86-64-v3."""
    flags = re.search(r"^flags\s*:(.*)$", pathlib.Path("/proc/cpuinfo").read_text(), re.MULTILINE)
    return flags is not None and NEWER_FLAGS <= set(flags[1].split())


def levels():
    """The processors that macaroond is built for here."""
    return [OLDER] + [NEWER] * runs_newer()


def built(name, words=(), level=OLDER):
    """A program, built over what is proved of it and run once with these words; and, of the older processors, what the
    toolchain says by it that this program is of this text."""
    flags = [] if level == OLDER else [f"--cpu={level}"]
    begin, stamp = time.monotonic(), f"{name}.stamp"
    with rooms.room(name, is_shared=True) as room:
        if name != "macaroond":
            room.take(name, stamp)
        given = TOP / "crates" / name / "stdin"
        with open(given if given.exists() and not words else os.devnull, "rb") as feed:
            status, said = room.rt("run", "--jobs", "1", *flags, "--", *words, feed=feed)
        made, is_stamped = room.crate / "out" / name, (room.crate / "out" / stamp).exists()
        if status != 0 or not made.exists() or (level == OLDER and not is_stamped) or rooms.ENDING.is_set():
            raise SystemExit(f"{said}\nbuild: no {name} for {level}: rt ended with status {status}")
        if level == OLDER:
            room.bring_back(name, stamp)
        proving.told(f"built {name} for {level}", begin)
        return made.read_bytes()


def taken():
    """The program that `rt ci` left."""
    left = CRATE / "out" / "macaroond"
    if not left.exists():
        raise SystemExit("build: rt ci has left no program to take: run make test first, which proves all")
    return left.read_bytes()


def place(level, program, was, now):
    """Puts the program where the launcher finds it; where it told one commit it tells another one."""
    if program.count(marked(was)) != 1:
        raise SystemExit(f"build: the program for {level} doesn't tell its version as {marked(was).decode()}")
    path = PROGRAMS / level
    path.write_bytes(program.replace(marked(was), marked(now)))
    # As it is installed: whoever may not read it may not read its memory either.
    path.chmod(0o711)


def clear(*levels):
    for path in (Record.FILE, *(PROGRAMS / level for level in levels)):
        path.unlink(missing_ok=True)


def building(name, words=(), level=OLDER):
    """The task to build a program, once it or what it stands on is proved."""
    waits = {name} if name == "macaroond" else crates.below(name)
    return lanes.Task(waits, costs.estimated(name), lambda _: built(name, words, level))


def build(wanted, others):
    """Proves and builds macaroond, where it is wanted, and these others with their words."""
    tasks = {(name, OLDER): building(name, words) for name, words in others.items()}
    proofs = {below for name in others for below in crates.below(name)}
    if wanted:
        clear(OLDER, NEWER)
        tasks |= {("macaroond", level): building("macaroond", ["--help"], level) for level in levels()}
        proofs.add("macaroond")
    for name in others:
        (TOP / "bin" / name).unlink(missing_ok=True)
    came = proving.prove_all(proofs, tasks)
    for name in others:
        programs.path_of(name).write_bytes(came[name, OLDER])
        programs.path_of(name).chmod(0o755)
    for level in levels() if wanted else []:
        place(level, came["macaroond", level], NO_COMMIT, wanted.commit)


def take(wanted, kept):
    """Takes the program for older processors; one for newer ones stays if it has the same sources."""
    is_fresh = kept is not None and kept.sources == wanted.sources
    newer = (PROGRAMS / NEWER).read_bytes() if is_fresh and (PROGRAMS / NEWER).exists() else None
    clear(OLDER, NEWER)
    place(OLDER, taken(), NO_COMMIT, wanted.commit)
    if newer is not None:
        place(NEWER, newer, kept.commit, wanted.commit)


def is_whole(wanted, kept):
    """Whether the programs of these sources are there."""
    return kept is not None and kept.sources == wanted.sources and all((PROGRAMS / it).exists() for it in levels())


def renew(wanted, kept):
    """Has the programs that are there tell another commit, which has the same sources."""
    for level in levels():
        place(level, (PROGRAMS / level).read_bytes(), kept.commit, wanted.commit)


def made_by(target):
    """What `make` builds by this word but macaroond, each with its words: time_blocks has to be told how often it is to time."""
    names = [name for name, it in programs.makers().items() if it == target and name != "macaroond"]
    return {name: ["0"] if name == "time_blocks" else [] for name in names}


def main(words):
    programs.stop_without_toolchain()
    PROGRAMS.mkdir(parents=True, exist_ok=True)
    (TOP / "bin").mkdir(exist_ok=True)
    if words == ["--runs"]:
        with proving.at_work():
            build(None, made_by("build-runs"))
        return
    kept, wanted = Record.kept(), Record(sources(), commit())
    if words == ["--taken"]:
        take(wanted, kept)
    elif is_whole(wanted, kept):
        print("build: nothing that macaroond stands on has changed since the last build")
        renew(wanted, kept)
        with proving.at_work():
            build(None, made_by("build"))
    else:
        with proving.at_work():
            build(wanted, made_by("build"))
    if sources() != wanted.sources:
        clear(OLDER, NEWER)
        raise SystemExit("build: the sources were changed while they were built")
    wanted.keep()


if __name__ == "__main__":
    main(sys.argv[1:])

#!/usr/bin/env python3
"""Tells what the proofs of the crates take: the longest chain of crates, processors that rest, the dearest functions.

    proofs.py -- COMMAND ..            runs this, as rt ci, rt all check, make build or make check CRATE, and watches
    proofs.py --record -- COMMAND ..   the same, and writes what each crate took that was proved from nothing
    proofs.py                          the dearest functions alone, of all crates
    proofs.py --timed CRATE            proves a crate anew, by one job, and tells its dearest functions in seconds

While the command runs, each second tells which crates the toolchain works on, in how many processes, and how
many processors rest. A check that is over within a second may be missed. The chain is the crates of which each
waits for the one before: with any number of processors a run takes no less than these take one by one. How dear a
function is, is told by the sizes of what its proof keeps in the crates' out/incremental, which don't vary
with what else the machine does; `drop of` is the glue that lets go of a type. Beside other work times are longer.

What is recorded goes into docs/proof-times.txt, of which `make pages` makes a table in docs/CONTRIBUTING.md. A
kit that keeps what it proved proves it again by `rt ci --anew`.
"""
import argparse
import collections
import os
import pathlib
import re
import subprocess
import sys
import time
import typing

sys.path.insert(0, str(pathlib.Path(__file__).resolve().parents[1]))
from build import proving, rooms
from check import costs
from common import TOP, crates, programs

EVERY = 1.0
TICKS = os.sysconf("SC_CLK_TCK")
DEAREST = 10
# What a function's modules are called, behind its name.
PARTS = set(
    "Answers Carried Code Given Goals Invariants Kinds Layout Lts Met Named Proof Reads Statement Symbol TheLink TheReach Tie View".split()
)
CHECKED = re.compile(r"checked (\S+), (\d+) of (\d+)")


class Process(typing.NamedTuple):
    """A process of the toolchain: whose it is, what it does for which crate, whether from nothing, and the processor
    time that it has used itself, and by processes that have ended below it."""

    parent: int
    crate: str
    what: str
    is_anew: bool
    own: float
    ended: float


def words_of(pid):
    try:
        words = pathlib.Path(f"/proc/{pid}/cmdline").read_bytes().decode(errors="replace").split("\0")
        fields = pathlib.Path(f"/proc/{pid}/stat").read_text().rpartition(")")[2].split()
        folder = os.readlink(f"/proc/{pid}/cwd")
    except OSError:
        return None
    return words, fields, folder


def goes_on(folder, words):
    """Whether a check goes on from what was proved before: it names a folder that has some of that."""
    named = words[words.index("--incremental") + 1] if "--incremental" in words[:-1] else None
    kept = named and pathlib.Path(folder, named)
    return bool(kept and kept.is_dir() and any(kept.iterdir()))


def process(pid):
    """What a process does, or None where it has ended."""
    found = words_of(pid)
    if found is None:
        return None
    words, fields, folder = found
    crate = words[words.index("--crate-name") + 1] if "--crate-name" in words[:-1] else ""
    what = "edits" if "/rt-edit-" in folder else "tests" if "--test" in words else "proof"
    is_build = "--crate-checked" in words or any(word.startswith("--cpu") for word in words)
    own, ended = (sum(map(int, fields[at : at + 2])) / TICKS for at in (11, 13))
    is_anew = what == "edits" or not goes_on(folder, words)
    return Process(int(fields[1]), crate, "building" if is_build else what, is_anew, own, ended)


def processor_seconds(seen):
    """The processor time of these processes, by their numbers. Of those that another one has below it, some may have
    ended unseen: that one tells what they used."""
    first = {pid for pid, it in seen.items() if it.parent not in seen}
    below = sum(it.own for pid, it in seen.items() if pid not in first)
    return sum(seen[pid].own for pid in first) + max(below, sum(seen[pid].ended for pid in first))


def all_below(top):
    """The toolchain's processes below this one that work on a crate, by their numbers."""
    found = {int(it.name): process(it.name) for it in pathlib.Path("/proc").iterdir() if it.name.isdigit()}
    ours = {top}
    grown = True
    while grown:
        more = {pid for pid, it in found.items() if it and it.parent in ours} - ours
        ours, grown = ours | more, bool(more)
    return {pid: found[pid] for pid in ours if found.get(pid) and found[pid].crate}


def at_rest():
    """The time that processors have rested since the machine was started."""
    fields = pathlib.Path("/proc/stat").read_text().split("\n", 1)[0].split()[1:]
    return (int(fields[3]) + int(fields[4])) / TICKS


class Watch:
    """What was seen of a run: of each crate and what was done for it, when, and each process's time."""

    def __init__(self):
        self.spans, self.seen, self.samples = {}, collections.defaultdict(dict), []
        self.is_anew = {}

    def look(self, top, now):
        seen = all_below(top)
        for pid, it in seen.items():
            key = it.crate, it.what
            first, _ = self.spans.get(key, (now, now))
            self.spans[key] = first, now
            # What it begins from is told by the first look at the crate: later it has proved something itself.
            self.is_anew.setdefault(key, it.is_anew)
            self.seen[key][pid] = it
        self.samples.append(len({(it.crate, it.what) for it in seen.values()}))

    def minutes(self, key):
        """How long it took, and how much processor time."""
        first, last = self.spans[key]
        return (last - first + EVERY) / 60, processor_seconds(self.seen[key]) / 60

    def costs(self):
        """What the gate's work on each crate took that was proved from nothing."""
        anew = {key: processor_seconds(seen) / 60 for key, seen in self.seen.items() if self.is_anew[key]}
        for crate in (crate for crate, what in anew if what == "proof"):
            edits = anew.get((crate, "edits"))
            yield crate, costs.Cost("", crates.lines(crate), anew[crate, "proof"], edits, costs.edits_of(crate))


def watched(command):
    """Runs the command; what was seen of it, how long it took, how many processors rested, and its status."""
    watch, begin, rest = Watch(), time.monotonic(), at_rest()
    with subprocess.Popen(command, cwd=TOP) as run:
        while run.poll() is None:
            watch.look(run.pid, time.monotonic() - begin)
            time.sleep(EVERY)
    seconds = time.monotonic() - begin
    return watch, seconds / 60, (at_rest() - rest) / seconds, run.returncode


def tell(watch, minutes, rested, dearest):
    proofs = {crate: watch.minutes((crate, what))[0] for crate, what in watch.spans if what == "proof"}
    print(f"\n{minutes:.1f} minutes; {len(os.sched_getaffinity(0))} processors, of which {rested:.1f} rested in the mean")
    work = collections.Counter()
    for crate, what in watch.spans:
        work[what] += watch.minutes((crate, what))[1]
    if not watch.spans:
        print("the toolchain proved nothing meanwhile")
        return tell_dearest(dearest)
    print("processor minutes: " + ", ".join(f"{what} {spent:.1f}" for what, spent in work.most_common()))
    length, chain = costs.longest_chain(proofs)
    print(f"the longest chain takes {length:.1f} minutes:")
    print("  " + " > ".join(f"{name} {proofs[name]:.1f}" for name in chain))
    shared = collections.Counter(watch.samples)
    print("crates at once: " + ", ".join(f"{count} for {shared[count] * EVERY / 60:.1f}" for count in sorted(shared)))
    print(f"{'crate':12} {'what':9} {'from':>6} {'minutes':>8} {'of the processors':>18}")
    for (crate, what), (first, _) in sorted(watch.spans.items(), key=lambda it: it[1]):
        took, spent = watch.minutes((crate, what))
        print(f"{crate:12} {what:9} {first / 60:6.1f} {took:8.1f} {spent:18.1f}")
    return tell_dearest(dearest)


def function_of(module):
    """The function that a module belongs to, or None where it is a whole crate's."""
    words = module.split(".")
    end = next((at for at, word in enumerate(words) if word.partition("-")[0] in PARTS), 0)
    name = "::".join(words[:end]).replace("++", "::")
    return name.replace("+Destruct::drop", "").join(("drop of ", "")) if "Destruct" in name else name or None


def sizes(crate):
    """How many bytes the proof of each function of a crate keeps."""
    found = collections.Counter()
    for path in (TOP / "crates" / crate / "out" / "incremental").glob(f"*/Rattle-{crate}-proofs.*.oantt"):
        module = path.name.removeprefix(f"Rattle-{crate}-proofs.").removesuffix(".oantt")
        if name := function_of(module):
            found[name] += path.stat().st_size
    return found


def by_size():
    """The functions of all crates, the dearest first, as lines."""
    found = collections.Counter({(crate, name): size for crate in crates.uses() for name, size in sizes(crate).items()})
    whole = sum(found.values())
    for (crate, name), size in found.most_common(DEAREST):
        yield f"{size / 1e6:8.1f} MB, {size / whole:5.1%} of all: {crate}::{name}"


def tell_dearest(lines):
    print("the dearest functions:")
    print("\n".join(lines) or "none: no crate has kept proofs")


def timed(crate):
    """The functions of a crate, the dearest first, by the time that passes up to the line that each was checked."""
    found, begin = collections.Counter(), time.monotonic()
    with rooms.room(crate, is_anew=True) as room:
        command = ["rt", "check", "--jobs", "1"]
        with subprocess.Popen(command, cwd=room.crate, stdout=subprocess.PIPE, stderr=subprocess.STDOUT, text=True) as run:
            last = None
            for line in run.stdout:
                told, now = CHECKED.search(line), time.monotonic()
                if told and last is not None:
                    found[told[1]] += now - last
                last = now
    print(f"{crate}: {(time.monotonic() - begin) / 60:.1f} minutes by one job, status {run.returncode}")
    return [f"{seconds:8.1f} s: {name}" for name, seconds in found.most_common(DEAREST)]


def main():
    words = argparse.ArgumentParser(description=__doc__, formatter_class=argparse.RawDescriptionHelpFormatter)
    words.add_argument("--timed", metavar="CRATE")
    words.add_argument("--record", action="store_true")
    words.add_argument("command", nargs="*")
    given = words.parse_args()
    if given.timed:
        programs.stop_without_toolchain()
        with proving.at_work():
            tell_dearest(timed(given.timed))
    elif given.command:
        watch, *rest, status = watched(given.command)
        tell(watch, *rest, by_size())
        if given.record and status == 0:
            costs.record(dict(watch.costs()))
        sys.exit(status)
    else:
        tell_dearest(by_size())


if __name__ == "__main__":
    main()

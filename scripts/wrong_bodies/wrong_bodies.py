#!/usr/bin/env python3
"""Tries wrong bodies: the prover must refuse each at its own function's goal.

A wrong body is an edit, crates/NAME/wrong-bodies/*.edit, or one of those in must-fail/ that the
gate tries too: lines 'file: PATH', 'old: TEXT' and 'new: TEXT', each TEXT one line that stands once
in that file; further pairs apply to what the earlier ones made.

Many are tried in one check of a copy of the crate, at most one for each function. That a caller
fails because its callee does is no refusal of the caller's body. An edit of anything but functions'
bodies is tried alone; those that a check of several didn't see refused are tried again, at last
each alone. A crate that `make build` hasn't proved as it is now is checked first.

Two kinds of refusal say nothing of a contract and are counted apart, as skipped: *by name alone*,
where all that is wrong is that a proof names what the body took away, and *not covered*, where the
borrow checker doesn't cover the body, so that there is no proof of anything. A body that doesn't
compile says nothing either, and is an error of its own.

What came of each body is kept in the crate's out/ as it comes, so that a run may be broken off and
a later one goes on: a body is tried again once it, its crate or one below has changed, or with
--anew. With --record the counts of these crates go into docs/wrong-bodies.txt, from which
`make pages` writes them into docs/PROMISES.md.

With --dry no check is made: it tells which edits don't apply to the sources as they are.
"""
import argparse
import collections
import enum
import os
import re
import resource
import shutil
import subprocess
import sys
import tempfile
from concurrent.futures import ThreadPoolExecutor
from dataclasses import dataclass
from pathlib import Path

sys.path.insert(0, str(Path(__file__).resolve().parents[1]))
from build import proving
from common import TOP, programs
from wrong_bodies.bodies import BadEdit, Source, batches_of, read_body
from wrong_bodies.kept import EDITS, Kept, check_commit, record


# A copy of the crate, and what a check says of it.

TEXTS = ["src", "specs", "proofs"]


class Copy:
    """A repository of its own with a crate and those below it, over what they have proved.

    It is made once, so the tree may change meanwhile.
    """

    def __init__(self, crate, room, proved, jobs):
        self.jobs = jobs
        self.kept, self.root = room / "kept" / crate, room / "tree"
        self.folder = self.root / "crates" / crate
        needed = stands_on(crate)
        for name in (it.split()[0] for it in needed):
            take_over(TOP / "crates" / name, self.root / "crates" / name, [*TEXTS, "out/rlib"])
        lines = [f"{it}: {' '.join(words)}\n" for it, words in needed.items()]
        (self.root / "crates.txt").write_text("".join(lines))
        (self.root / ".git").mkdir()
        shutil.copy(TOP / "HANDLES", self.root)
        take_over(TOP / "crates" / crate, self.kept, [*TEXTS, "out/incremental"])
        self.source = Source(self.kept)
        self.proved = proved

    def check(self, bodies):
        """What a check says of the crate with these bodies, or of their functions alone."""
        take_over(self.kept, self.folder, [*TEXTS, "out/incremental"])
        for file in {file for body in bodies for file in body.lines}:
            lines = self.source.lines(file)
            for body in bodies:
                for at, new in body.lines.get(file, {}).items():
                    lines[at] = new
            (self.folder / file).write_text("\n".join(lines))
        return Report(rt_check(self.folder, self.jobs, self.only(bodies)))

    def only(self, bodies):
        """The functions whose bodies these are, if that is all that they change."""
        functions = [it for body in bodies for it in body.functions]
        paths = [[it for it in self.proved if function.owns(it)] for function in functions]
        if any(it.is_alone for it in bodies) or not all(paths):
            return []
        return [it for found in paths for it in found if "+" not in it and "::fn::" not in it]


def take_over(source, to, parts):
    """Copies texts, and links what was proved: a check replaces such files and writes into none."""
    for part in parts:
        shutil.rmtree(to / part, ignore_errors=True)
        if (source / part).is_dir():
            how = shutil.copy if part in TEXTS else link_or_copy
            shutil.copytree(source / part, to / part, copy_function=how)


def link_or_copy(source, to):
    try:
        os.link(source, to)
    except OSError:
        shutil.copy2(source, to)


def rt_check(folder, jobs, only=()):
    to = {"stdout": subprocess.PIPE, "stderr": subprocess.STDOUT, "text": True, "errors": "replace"}
    words = [word for path in only for word in ("--only", path)]
    return subprocess.run(["rt", "check", "--jobs", str(jobs), *words], cwd=folder, **to).stdout


def stands_on(crate):
    """What crates.txt says of the crate and of those below it."""
    lines = [it.partition(":") for it in (TOP / "crates.txt").read_text().splitlines()]
    words = {name: rest.split() for name, colon, rest in lines if colon and name[0] != "#"}
    found, left = {}, [crate]
    while left:
        names = [it for it in words if it.split()[0] in left and it not in found]
        found.update({it: words[it] for it in names})
        left = [below for it in names for below in words[it]]
    return found


class Report:
    """What rt check said."""

    def __init__(self, said):
        self.lines = said.splitlines()
        status = [re.match(rf"fn (\S+): (?!{PROVED}$|no holes$)(.*)", it) for it in self.lines]
        self.unproved = {it[1]: it[2] for it in status if it}
        self.has_ended = any(it.startswith(("logic=", "only=")) for it in self.lines)

    def first_error(self):
        return next((it for it in self.lines if "error" in it), "\n".join(self.lines[-1:]))

    def has_error(self):
        """Whether it tells an error: a check that was broken off tells none."""
        return any("error" in it for it in self.lines)

    def names(self, function):
        return any(is_at(it, function) for it in self.lines)

    def own_errors(self, function):
        """What is said of the goals of the function and of its closures, and of their proofs."""
        found = []
        for path in filter(function.owns, self.unproved):
            if self.unproved[path].startswith("no proof: expected"):
                found.append(self.unproved[path])
            folders = proof_folders(path)
            of_proof = [it for it in self.lines if it.startswith(folders) and ": error: " in it]
            found += of_proof + [it for it in self.lines if is_at(it, function)]
        return found


def proof_folders(path):
    """Where a function's answers stand: a function that calls itself has a + before its name."""
    *above, name = path.split("::")[1:]
    return tuple("/".join(["./proofs", *above, mark + name]) + "/" for mark in ("", "+"))


def is_at(line, function):
    at = re.match(r"(?:note: )?(src/\S+?):(\d+):\d+: (?!note|warning|help)", line)
    return at and at[1] == function.file and function.first < int(at[2]) <= function.end + 1


PROVED = "proved(?:, may wait)?"
LOST = re.compile(r": error: .*(can be named from here|has no field|is not in scope|\(nearest: )")
UNCOVERED = "the borrow checker does not cover"
SURE = re.compile(r"no proof|.*(: error: |this goal is false)")


def tells_names_alone(errors):
    """Whether a proof names what the body took away, and no more, which says little."""
    lost = [it for it in errors if LOST.search(it)]
    return bool(lost) and not any(SURE.match(it) for it in errors if it not in lost)


# Which bodies were refused.


class Kind(enum.Enum):
    """What came of a wrong body."""

    REFUSED = "refused at a clause"
    BY_NAME = "refused by name alone"
    UNCOVERED = "not covered"
    LET_THROUGH = "LET THROUGH"
    NOT_COMPILING = "DOES NOT COMPILE"
    BAD_EDIT = "BAD EDIT"
    NOT_PROVED = "NOT PROVED"


SAYS_NOTHING = [Kind.BY_NAME, Kind.UNCOVERED]
# What the pages tell of each crate, in this order.
COUNTED = [Kind.REFUSED, *SAYS_NOTHING, Kind.LET_THROUGH, Kind.NOT_COMPILING]
FAILED = [Kind.LET_THROUGH, Kind.NOT_COMPILING, Kind.BAD_EDIT, Kind.NOT_PROVED]


@dataclass
class Verdict:
    body: str
    kind: Kind
    said: str

    def is_failure(self):
        return self.kind in FAILED


def kind_of(errors):
    """What these errors at goals of one function, of which there are some, say of its body."""
    if any(UNCOVERED in it for it in errors):
        return Kind.UNCOVERED
    return Kind.BY_NAME if tells_names_alone(errors) else Kind.REFUSED


def judged(body, report, source):
    """What the report says of the body; of several functions one that refuses it is enough."""
    if not report.has_ended:
        kind = Kind.NOT_COMPILING if report.has_error() else Kind.NOT_PROVED
        return Verdict(body.name, kind, report.first_error())
    own = [(it, report.own_errors(it)) for it in body.functions or source.functions]
    found = [(kind_of(errors), f"at {it.path}: {errors[0]}") for it, errors in own if errors]
    if found:
        return Verdict(body.name, *min(found, key=lambda it: it[0] in SAYS_NOTHING))
    said = [f"{it.path}: {report.unproved.get(it.path, 'proved')}" for it in body.functions]
    return Verdict(body.name, Kind.LET_THROUGH, "; ".join(said) or "no goal stands open")


def tried(batch, copy):
    """Verdicts on the bodies of the batch, some at a time; those that aren't refused among others are tried again.

    A function that calls one whose body is wrong too is not always asked for its own goals.
    """
    report = copy.check(batch)
    if len(batch) > 1 and not report.has_ended:
        for part in parted(batch, report):
            yield from tried(part, copy)
        return
    found = [judged(body, report, copy.source) for body in batch]
    again = [body for body, verdict in zip(batch, found) if verdict.is_failure()] if len(batch) > 1 else []
    yield found if len(batch) == 1 else [it for it in found if not it.is_failure()]
    for part in [again] * bool(again) if len(again) < len(batch) else [[it] for it in again]:
        yield from tried(part, copy)


def parted(batch, report):
    """The bodies in which the check stopped, each by itself, and the rest; else two halves."""
    stopping = [body for body in batch if any(report.names(it) for it in body.functions)]
    if not stopping or len(stopping) == len(batch):
        return [batch[: len(batch) // 2], batch[len(batch) // 2 :]]
    return [*([it] for it in stopping), [it for it in batch if it not in stopping]]


def edits_of(crate):
    folder = TOP / "crates" / crate
    return sorted(it for part in EDITS for it in (folder / part).glob("*.edit"))


def bodies_of(crate, source):
    """The crate's wrong bodies, and verdicts on the edits that don't apply."""
    bodies, bad = [], []
    for edit in edits_of(crate):
        try:
            bodies.append(read_body(edit, source))
        except BadEdit as error:
            bad.append(Verdict(edit.stem, Kind.BAD_EDIT, str(error)))
    return bodies, bad


def proved_in(crate, jobs):
    """The functions of a crate that are proved as it stands: by what `make build` kept, else by a check of the whole."""
    if kept := proving.proved_functions(crate):
        return kept
    said = rt_check(TOP / "crates" / crate, jobs)
    return proving.functions_in(said) if "\nlogic=proved" in said else []


def try_crate(crate, jobs, anew=False):
    """A verdict on each of the crate's wrong bodies: those that are kept, and those of new checks by so many jobs."""
    kept = Kept(TOP, crate, stands_on(crate), edits_of(crate))
    bodies, found = bodies_of(crate, Source(TOP / "crates" / crate))
    if not anew:
        found += [Verdict(it, Kind[kind], said) for it, (kind, said) in kept.valid().items()]
    if len(found) == len(edits_of(crate)):
        return found
    proved = proved_in(crate, jobs)
    if not proved:
        return [*found, Verdict("as it stands", Kind.NOT_PROVED, "its own check fails")]
    settled = {it.body for it in found}
    with tempfile.TemporaryDirectory(prefix="wrong-bodies-") as room:
        copy = Copy(crate, Path(room), proved, jobs)
        for batch in batches_of([it for it in bodies if it.name not in settled]):
            for came in tried(batch, copy):
                kept.keep({it.body: (it.kind.name, it.said) for it in came})
                found += came
    return found


def tell(crate, found, tells_all):
    """Tells what came of a crate's bodies, and counts them by their kind."""
    for it in found:
        if tells_all or it.kind != Kind.REFUSED:
            print(f"{crate}/{it.body}: {it.kind.value}: {it.said}")
    counts = collections.Counter(it.kind for it in found)
    print(f"{crate}: {listed(counts)}, of {len(found)}", flush=True)
    return counts


def listed(counts):
    kinds = [it for it in Kind if counts[it] or it == Kind.REFUSED]
    return ", ".join(f"{counts[it]} {it.value}" for it in kinds)


def faults(crates=()):
    """Which edits don't apply to the sources as they are, and how many edits there are."""
    found, count = [], 0
    for crate in crates or crates_with_edits():
        bodies, bad = bodies_of(crate, Source(TOP / "crates" / crate))
        found += [f"{crate}/{it.body}: {it.kind.value}: {it.said}" for it in bad]
        count += len(bodies) + len(bad)
    return found, count


def dry_run(crates):
    """Tells which edits don't apply. Whether all do."""
    found, count = faults(crates)
    print("\n".join([*found, f"{count - len(found)} of {count} edits apply"]))
    return not found


def crates_with_edits():
    return sorted(it.name for it in (TOP / "crates").iterdir() if edits_of(it.name))


def try_all(crates, given):
    """Tries the wrong bodies of these crates. Whether none failed."""
    counts = collections.Counter()
    side_by_side = min(given.jobs, len(crates))
    with ThreadPoolExecutor(side_by_side) as pool:
        tries = pool.map(lambda it: try_crate(it, max(1, os.cpu_count() // side_by_side), given.anew), crates)
        for crate, found in zip(crates, tries):
            counts += (own := tell(crate, found, given.all))
            if given.record and not own[Kind.NOT_PROVED]:
                record(TOP, crate, [own[it] for it in COUNTED])
    used = resource.getrusage(resource.RUSAGE_CHILDREN)
    print(f"{(used.ru_utime + used.ru_stime) / 60:.0f} processor minutes; {listed(counts)}")
    failed, skipped = (sum(counts[it] for it in kinds) for kinds in (FAILED, SAYS_NOTHING))
    print(f"{counts[Kind.REFUSED]} passed, {failed} failed, {skipped} skipped")
    return failed == 0


def main():
    raw = argparse.RawDescriptionHelpFormatter
    parser = argparse.ArgumentParser(description=__doc__, formatter_class=raw)
    parser.add_argument("crates", nargs="*", metavar="CRATE", help="all, if none is named")
    parser.add_argument("--all", action="store_true", help="tells where each body is refused")
    parser.add_argument("--dry", action="store_true", help="tells which edits don't apply")
    parser.add_argument("--anew", action="store_true", help="tries also what was tried as it is")
    parser.add_argument("--record", action="store_true", help="writes the counts for the pages")
    parser.add_argument("--jobs", type=int, default=os.cpu_count(), help="crates at a time")
    given = parser.parse_args()
    crates = given.crates or crates_with_edits()
    if not given.dry:
        programs.stop_without_toolchain()
    if given.record:
        check_commit(TOP)
    sys.exit(0 if (dry_run(crates) if given.dry else try_all(crates, given)) else 1)


if __name__ == "__main__":
    main()

"""Proves crates side by side, each as soon as those that it stands on are proved."""
import contextlib
import hashlib
import re
import signal
import sys
import time

from build import lanes, rooms
from check import costs
from common import TOP, crates

# The file in out/ that tells what a crate's proof rested on.
SEEN = "seen"
# The file in out/ that names the functions of a crate that were proved, a line for each.
PROVED = "proved"
# What the toolchain tells of a function that is proved.
FUNCTION = re.compile(r"^fn (\S+): proved(?:, may wait)?$", re.M)
# What the toolchain tells of a crate that it will refuse, long before it has tried all of it.
REFUSED = re.compile(r"so far: .*: error: ")
# What of a library no other crate sees: the code of its functions, and the answers of their proofs.
UNSEEN = re.compile(r"(Answers|Invariants|Proof)\.antt$|made\.json$")


def rlib(name):
    return TOP / "crates" / name / "out" / "rlib" / f"{name}.rlib"


def face(name):
    """A sum of what other crates see of a proved library: its public items, contracts, definitions and lemmas."""
    folder, digest = rlib(name), hashlib.sha256()
    for part in ("interface", "lang/antt"):
        for path in sorted((folder / part).rglob("*")):
            if path.is_file() and not UNSEEN.search(path.name):
                digest.update(f"{path.relative_to(folder)}\n".encode() + path.read_bytes())
    return digest.hexdigest()


def text(digest, name):
    """Adds the text of a crate to a sum."""
    digest.update(" ".join(crates.uses()[name]).encode())
    for path in crates.files(name):
        content = path.read_bytes()
        digest.update(f"{path.relative_to(TOP)} {len(content)}\n".encode() + content)


def seen(name):
    """A sum of all that the proof of a crate rests on: its text, and what it sees of those below."""
    digest = hashlib.sha256()
    text(digest, name)
    for it in sorted(crates.below(name)):
        digest.update(f"{it} {face(it)}\n".encode())
    return digest.hexdigest()


def built_of(name):
    """A sum of all texts that a crate is made of, and of what the toolchain says of its library; none without that."""
    stamp = rlib(name).with_name("stamp")
    if not stamp.exists() and not crates.is_program(name):
        return ""
    digest = hashlib.sha256(stamp.read_bytes() if stamp.exists() else b"")
    for it in sorted([name, *crates.below(name)]):
        text(digest, it)
    return digest.hexdigest()


def records(name):
    """What was told of the crate when it was last proved: what it rested on, and what its files are made of."""
    record = TOP / "crates" / name / "out" / SEEN
    return record.read_text().split() if record.exists() else []


def is_proved(name):
    """Whether the crate was proved as it is now, over what those below show now."""
    return seen(name) in records(name)


def is_built(name):
    """Whether nothing has changed since, in the crate or below it."""
    return built_of(name) in records(name)[1:]


def functions_in(said):
    """The functions that are proved, by what the toolchain said."""
    return FUNCTION.findall(said)


def functions_kept(name):
    """The functions of a crate that earlier proofs named: one that finds them unchanged doesn't name them again."""
    kept = TOP / "crates" / name / "out" / PROVED
    return kept.read_text().split() if kept.exists() else []


def proved_functions(name):
    """The functions of a crate that were proved as it is now; nothing where it wasn't."""
    return functions_kept(name) if is_proved(name) else []


def keep(path, text):
    """Writes a file anew: another tree may have a link to what was there."""
    path.unlink(missing_ok=True)
    path.write_text(text)


def told(what, begin):
    print(f"{what}: {(time.monotonic() - begin) / 60:.1f} minutes", flush=True)


def stop(name, status, said):
    """Ends all where the toolchain refuses a crate, and tells what it said of that; where all is ending, no more is told."""
    if rooms.ENDING.is_set():
        raise SystemExit(f"{name} isn't proved: the run was ended")
    rooms.end_all()
    print(f"== {name}\n{said}", flush=True)
    raise SystemExit(f"{name} isn't proved: rt ended with status {status}")


def prove(name, jobs):
    """Proves a crate over what earlier runs kept, and keeps what came of it; where nothing has changed, it was proved."""
    if is_built(name):
        return
    begin, rests_on = time.monotonic(), seen(name)
    with rooms.room(name) as room:
        status, said = room.rt("check" if crates.is_program(name) else "lib", "--jobs", str(jobs), ends_at=REFUSED)
        if status != 0 or rooms.ENDING.is_set():
            # What was proved of it up to there needs no second proof once the rest is mended.
            room.bring_back(rooms.INCREMENTAL)
            stop(name, status, said)
        room.bring_back(*rooms.KEPT)
        out = TOP / "crates" / name / "out"
        keep(out / PROVED, "\n".join(dict.fromkeys([*functions_kept(name), *functions_in(said)])))
        keep(out / SEEN, f"{rests_on} {built_of(name)}\n")
    told(f"proved {name}", begin)


def tasks(names):
    """A task for each of these crates, behind those of them that it stands on."""
    chosen = [it for it in crates.in_order() if it in names]
    return {
        it: lanes.Task(crates.below(it) & {*chosen}, costs.estimated(it), lambda jobs, it=it: prove(it, jobs))
        for it in chosen
    }


@contextlib.contextmanager
def at_work():
    """What is proved here is proved by one script at a time; where that is ended, all ends."""
    def ended(number, _):
        rooms.end_all()
        sys.exit(128 + number)

    before = {number: signal.signal(number, ended) for number in (signal.SIGTERM, signal.SIGHUP, signal.SIGINT)}
    try:
        with rooms.alone():
            yield
    finally:
        for number, handler in before.items():
            signal.signal(number, handler)


def prove_all(names, more=()):
    """Proves these crates with all below them, and does these tasks behind them."""
    wanted = {below for name in names for below in (name, *crates.below(name))}
    begin = time.monotonic()
    came = lanes.run({**tasks(wanted), **dict(more)}, lanes.processors())
    told(f"{len(wanted)} crates are proved", begin)
    return came

#!/usr/bin/env python3
"""Tells functions that others may call, whose contract no wrong body tries.

A function is one of these where its crate's root exports it, or the type whose method it is, and it has
an `ensures`. A law has no body to be wrong.
"""
import pathlib
import re
import sys

sys.path.insert(0, str(pathlib.Path(__file__).resolve().parents[1]))
from check.unused import TRIALS
from common import TOP, crates
from wrong_bodies.bodies import BadEdit, Source, read_body
from wrong_bodies.functions import HEADER
from wrong_bodies.wrong_bodies import edits_of

# What has none, and why: each body that compiles does what the contract says.
ONE = "there is one value of its type at hand, and no contract says of another that it isn't this one"
MEANT = {
    "mac_board::outlook::TimedTables::new": ONE,
    "mac_commands::list_store::find_first_list": "its contract says that the list is that of some text, as each list is",
    "mac_http::face::Face::into_keys": ONE,
    "mac_loop::inbox::Loops::new": ONE,
    "mac_queue::history::History::new": ONE,
    "mac_queue::mailbox::Mailbox::close": ONE,
    "mac_queue::taker::Taker::close": "closing changes nothing that contracts see",
    "mac_order::answer::Answer::into_parts": ONE,
    "mac_queue::desk::Desk::into_pass": ONE,
    "mac_sockets::door::Door::gift": ONE,
    "mac_sockets::doors::Doors::new": ONE,
}
EXPORT = re.compile(r"^pub use [\w:]+::(?:\{([^}]*)\}|(\w+));", re.M)


def exported(crate):
    """The names that the crate's root passes on."""
    text = (TOP / "crates" / crate / "src" / "lib.rt").read_text()
    found = [one or two for one, two in EXPORT.findall(text)]
    return {it.split(" as ")[0].strip() for names in found for it in names.split(",") if it.strip()}


def is_public(lines, function):
    """Whether the function is marked as one for all, and has a promise; a trait's has no mark of its own."""
    head = next(at for at in range(function.first, function.start) if HEADER.match(lines[at]))
    promised = any(re.match(r" *ensures\b", it) for it in lines[head : function.start])
    return promised and re.match(r" *pub (?:const )?(?:unsafe )?fn ", lines[head])


def tried(crate, source):
    """The paths of the functions that some wrong body of the crate changes."""
    found = set()
    for edit in edits_of(crate):
        try:
            found |= {it.path for it in read_body(edit, source).functions}
        except BadEdit:
            pass
    return found


def untried():
    """The paths of those that no wrong body tries, and how many there are in all."""
    found, count = [], 0
    for crate in sorted(crates.uses()):
        if TRIALS.match(crate) or not (TOP / "crates" / crate / "src" / "lib.rt").exists():
            continue
        source = Source(TOP / "crates" / crate)
        names, has_one = exported(crate), tried(crate, source)
        for it in source.functions:
            owner = it.path.split("::")[-2:]
            if not names & {*owner} or not is_public(source.lines(it.file), it):
                continue
            count += 1
            if it.path not in has_one:
                found.append(it.path)
    return found, count


def faults():
    """Which of them have no wrong body and aren't meant to, or are told to have none and have one; and how many there are."""
    found, count = untried()
    told = [f"{it} has no wrong body" for it in found if it not in MEANT]
    told += [f"{it} is listed as having no wrong body, and has one" for it in MEANT if it not in found]
    return told, count


if __name__ == "__main__":
    told, _ = faults()
    print("\n".join(told))
    sys.exit(1 if told else 0)

#!/usr/bin/env python3
"""Compares the program with its pages, with cases made elsewhere and with the macaroons of others.

    outside.py               all parts
    outside.py PART ..       these parts alone, by the names under which they are told
    outside.py --of CRATE    those that cover the crate, as scripts/covers.txt says; may be given often

Each part tells how many checks it made, what was wrong, and what it left out; the last line counts
all of them. A part that breaks off counts as one that failed, and the others are made all the same.
"""
import argparse
import functools
import sys
import time
import traceback
import typing

from build import completions, page_texts
from check import (
    building,
    case_files,
    changing_keys,
    client_doubts,
    clients,
    clocks,
    costs,
    covering,
    daemon_rows,
    draw,
    edges,
    ending,
    fleet,
    forgetting,
    gateways,
    http_rows,
    http_sockets,
    installing,
    key_lines,
    key_uses,
    kubernetes,
    lasting,
    life_cycle,
    linting,
    linked_keys,
    log_lines,
    man_page,
    messages,
    monitoring,
    newcomer,
    numbers,
    operators,
    package_runs,
    page,
    page_asking,
    pages,
    parameters,
    peers,
    promises,
    quotes,
    reasons,
    remembering,
    replacing,
    revoking,
    rights,
    same_code,
    secrecy,
    sessions,
    sharing,
    starting,
    statuses,
    type_names,
    untried,
    unused,
    versions,
    words,
)
from common import crates, runs
from faults import bounded, faults, hostile, moving, refusing
from measure import allocations
from vectors import checking
from wrong_bodies import wrong_bodies, wrong_runs

# How long hostile clients use the daemon.
HOSTILE_SECONDS = 4


class Outcome(typing.NamedTuple):
    """What came of a part: what was wrong, how many checks there were, and what was left out."""

    faults: typing.Sequence[str]
    checks: int = 1
    skipped: typing.Sequence[str] = ()


def over_pipe():
    """The parts whose cases are answered by runs of the pipe, all made at once, with the first of these parts."""
    others, missing = peers.installed_peers()
    asked = [case_files.cases(), statuses.cases(), words.cases(), peers.cases(others)]
    made = functools.cache(lambda: runs.of_cases({name: it for cases in asked for name, it in cases.items()}))
    yield "cases", lambda: (case_files.faults(made()), case_files.answers())
    yield "endings", lambda: (statuses.faults(made()), len(statuses.ENDINGS))
    yield "words", lambda: (words.faults(made()), len(words.USES))
    for peer in others:
        yield peer.name, functools.partial(lambda it: peers.outcome(it, made()), peer)
    for name in missing:
        yield name, skipping("it isn't installed (scripts/install_peers.sh)")


# The parts that ask for bin/macaroond, and those that ask for a C compiler too. A part gives what
# was wrong and, behind it, how many checks it made (one, where it doesn't say) and what it skipped.
OF_PROGRAM = {
    "versions": versions.faults,
    "completions": completions.faults,
    "edges": edges.faults,
    "edges of words": words.edge_faults,
    "sessions": sessions.faults,
    "sockets": daemon_rows.faults,
    "rights": rights.faults,
    "sharing": sharing.faults,
    "clocks": clocks.faults,
    "machine code": same_code.faults,
    "starting": starting.faults,
    "messages": messages.faults,
    "log lines": log_lines.faults,
    "key files": key_lines.faults,
    "lasting": lasting.faults,
    "ending": ending.faults,
    "remembering": remembering.faults,
    "replacing": replacing.faults,
    "changing keys": changing_keys.faults,
    "revoking": revoking.faults,
    "reasons": reasons.faults,
    "secrecy": secrecy.faults,
    "forgetting": forgetting.faults,
    "linked keys": linked_keys.faults,
    "numbers": numbers.faults,
    "uses of keys": key_uses.faults,
    "operators": operators.faults,
    "HTTP": http_sockets.faults,
    "gateways": gateways.faults,
    "page": page.faults,
    "who asks the page": page_asking.faults,
    "hostile": lambda: hostile.faults(HOSTILE_SECONDS),
    "bounded": bounded.faults,
    "clients": clients.daemon_faults,
    "fleet": fleet.faults,
}
OF_CLIENTS = {"Python client": clients.python_faults, "Go client": clients.go_faults, "fleet by itself": fleet.test_faults}
OF_VECTORS = checking.PARTS
OF_COMPILER = {
    "allocations": allocations.faults,
    "clockless": clocks.clockless_faults,
    "faults": faults.some_faults,
    "moving": moving.faults,
    "installing": installing.faults,
    "package": package_runs.faults,
    "life cycle": life_cycle.faults,
}
OF_TEXTS = {
    "quotes": quotes.faults,
    "pages": pages.faults,
    "texts of the page": page_texts.faults,
    "promises": promises.faults,
    "costs": costs.faults,
    "picture": draw.faults,
    "type names": type_names.faults,
    "man": man_page.faults,
    "HTTP rows": http_rows.faults,
    "rows of clients": client_doubts.faults,
    "building": building.faults,
    "monitoring": monitoring.faults,
    "Kubernetes": kubernetes.faults,
    "unused": unused.faults,
    "parameters": parameters.faults,
    "newcomer": newcomer.faults,
    "lint of Python": linting.python_faults,
    "lint of shells": linting.shell_faults,
    "lint of Go": linting.go_faults,
    "covering": lambda: covering.faults([name for name, _ in parts()]),
    "wrong bodies apply": wrong_bodies.faults,
    "tried contracts": untried.faults,
    "wrong runs": wrong_runs.faults,
}


def skipping(why):
    return lambda: ([], 0, [why])


def parts():
    """The name of each part, and what makes it."""
    yield from over_pipe()
    unbuilt = None if runs.is_built() else "bin/macaroond is missing or old (make build)"
    uncompiled = None if refusing.has_compiler() else "there is no C compiler `cc`"
    for name, part in OF_PROGRAM.items():
        yield name, skipping(unbuilt) if unbuilt else part
    for name, part in OF_COMPILER.items():
        why = unbuilt or uncompiled
        yield name, skipping(why) if why else part
    yield from OF_CLIENTS.items()
    yield from OF_VECTORS.items()
    yield from OF_TEXTS.items()


def outcome(part):
    """What comes of the part, however it ends."""
    try:
        found = part()
    except SystemExit as ended:
        return Outcome([str(ended)])
    except Exception:
        return Outcome([traceback.format_exc()])
    return Outcome(*found) if isinstance(found, tuple) else Outcome(found)


def told(name, part):
    """Makes the part and tells what came of it: how much passed, failed and was left out."""
    begin = time.monotonic()
    came = outcome(part)
    for fault in came.faults:
        print(f"FAULT in {name}: {fault}")
    for why in came.skipped:
        print(f"SKIPPED of {name}: {why}")
    failed = len(came.faults)
    passed = max(came.checks - failed, 0)
    print(f"{name}: {passed} as they must be, {time.monotonic() - begin:.1f} s", flush=True)
    return passed, failed, len(came.skipped)


def wanted(names):
    """Those of these parts that the command line asks for; it asks for all where it names none."""
    raw = argparse.RawDescriptionHelpFormatter
    words = argparse.ArgumentParser(description=__doc__, formatter_class=raw)
    words.add_argument("parts", nargs="*", metavar="PART")
    words.add_argument("--of", action="append", default=[], metavar="CRATE")
    given = words.parse_args()
    if unknown := [*({*given.parts} - {*names}), *({*given.of} - {*crates.uses()})]:
        sys.exit(f"there is no part or crate {', '.join(sorted(unknown))}")
    covers = {name for crate in given.of for name in covering.parts_of(crate)}
    return names if not given.parts and not given.of else [it for it in names if it in {*given.parts} | covers]


def main():
    peers.run_by_debian_python()
    made = dict(parts())
    chosen = [told(name, made[name]) for name in wanted([*made])]
    passed, failed, skipped = map(sum, zip((0, 0, 0), *chosen))
    print(f"{passed} passed, {failed} failed, {skipped} skipped")
    sys.exit(1 if failed else 0)


if __name__ == "__main__":
    main()

#!/usr/bin/env python3
"""Verifies at the daemon's clock: by what moment each is answered, and whose token it is told to be."""
import os
import pathlib
import subprocess
import sys
import tempfile
import time

sys.path.insert(0, str(pathlib.Path(__file__).resolve().parents[1]))
from check.daemon_rows import JSON_MAX, TOKEN, in_json
from common import KEYS
from common.daemon import PATIENCE, PROGRAM, connected, frame, listening, received, stop_unless_there

import request

GRANTED, UNSATISFIED = b"\x00", b"\x18\x00\x00"
UNKNOWN_KEY, BAD_SIGNATURE, NO_CLOCK = b"\x12", b"\x17", b"\x1c"
# What makes a clock that stands before 1970.
CLOCK = pathlib.Path(__file__).resolve().parents[1] / "faults" / "clock.c"
# Whose TOKEN is.
IDENTIFIER, LOCATION = b"we used our secret key", b"http://mybank/"
# A fact that has its connection go on wide, beside a token in JSON.
LONG = "f" * JSON_MAX
# How many seconds a token lives that runs out while its connection stays.
LIFE = 3
# How many tokens of different owners are asked about at once: more than a run of 32.
OWNERS = 100


def owned(identifier, location):
    """The reply that tells whose a token is."""
    return b"\x03" + b"".join(len(part).to_bytes(2, "big") + part for part in (identifier, location))


def replies(stream, payloads):
    """What each of these payloads is answered, sent one behind the other."""
    stream.sendall(b"".join(map(frame, payloads)))
    return [received(stream, int.from_bytes(received(stream, 4), "big")) for _ in payloads]


def minted(stream, facts, identifier, *caveats):
    """A new token under `bank`, in JSON where it is to go wide with these facts."""
    form = "v2-json" if facts else "v2-text"
    return replies(stream, [request.mint(form, "bank", "here", identifier, *caveats)])[0][1:].decode()


def stamp(second):
    return time.strftime("%Y-%m-%dT%H:%M:%S", time.gmtime(second))


def kinds(path, facts):
    """The two kinds beside one that gives the moment, of tokens that are granted and refused."""
    forged = TOKEN[:-2] + b"go"
    for name, token, due, told in (
        ("bank", TOKEN, GRANTED, owned(IDENTIFIER, LOCATION)),
        ("bank", forged, BAD_SIGNATURE, BAD_SIGNATURE),
        ("nobody", TOKEN, UNKNOWN_KEY, UNKNOWN_KEY),
        ("bank", b"!", b"\x13", b"\x13"),
    ):
        sent = in_json(token) if facts and token != b"!" else token
        with connected(path) as stream:
            asked = [request.verify(name, sent.decode(), moment, *facts) for moment in ("now", int(time.time()))]
            asked.append(request.owner(name, sent.decode(), *facts))
            yield f"{token[-4:]} under {name}", replies(stream, asked), [due, due, told]


def running_out(path, facts):
    """On one connection a time limit is kept, and then it is over; a lower bound is not there yet, and then it is."""
    with connected(path) as stream:
        end = int(time.time()) + LIFE
        limited = minted(stream, facts, "alice", f"time < {stamp(end)}")
        later = minted(stream, facts, "bob", f"time >= {stamp(end)}")
        asked = [make(limited) for make in (request_now(facts), request_owner(facts))]
        asked += [make(later) for make in (request_now(facts), request_owner(facts))]
        yield "before", replies(stream, asked), [GRANTED, owned(b"alice", b"here"), UNSATISFIED, UNSATISFIED]
        time.sleep(max(0.0, end + 0.5 - time.time()))
        yield "after", replies(stream, asked), [UNSATISFIED, UNSATISFIED, GRANTED, owned(b"bob", b"here")]


def request_now(facts):
    return lambda token: request.verify("bank", token, "now", *facts)


def request_owner(facts):
    return lambda token: request.owner("bank", token, *facts)


def owners(path, facts):
    """Each reply tells the owner of its own token, whatever stands beside it."""
    with connected(path) as stream:
        names = [f"owner {number}" for number in range(OWNERS)]
        tokens = [minted(stream, facts, name) for name in names]
        asked = [request_owner(facts if number % 10 == 0 else ())(token) for number, token in enumerate(tokens)]
        yield "owners", replies(stream, asked), [owned(name.encode(), b"here") for name in names]


def pipe():
    """The pipe's clock."""
    asked = [request.verify("bank", TOKEN.decode()), request.owner("bank", TOKEN.decode())]
    stop_unless_there()
    text = pathlib.Path(KEYS).read_text() + "\n" + "".join(f"{payload.hex()}\n" for payload in asked)
    run = subprocess.run([PROGRAM, "pipe"], input=text, capture_output=True, text=True, timeout=PATIENCE)
    yield "pipe", run.stdout.splitlines(), ["granted", f"granted to {IDENTIFIER.hex()} at {LOCATION.hex()}"]


def before_1970(path, facts):
    """A clock that tells no moment: refused once the name has keys, before the token is read; all else is as ever."""
    with connected(path) as stream:
        asked = [request_now(facts)("!"), request_owner(facts)("!"), request.owner("nobody", "!", *facts)]
        asked.append(request.verify("bank", TOKEN.decode(), 0, *facts))
        yield "no clock", replies(stream, asked), [NO_CLOCK, NO_CLOCK, UNKNOWN_KEY, GRANTED]


def over_sockets(parts, **how):
    """The rows of parts, in a loop and on connections that went wide."""
    with listening(**how) as (path, _):
        for way, facts in (("plain", ()), ("wide", (LONG,))):
            for part in parts:
                yield from ((f"{way}, {name}", told, due) for name, told, due in part(path, facts))


def outcome(rows):
    """What is wrong, and how many checks there were."""
    return [f"{name}: {told} and not {due}" for name, told, due in rows if told != due], len(rows)


def faults():
    return outcome([*pipe(), *over_sockets((kinds, running_out, owners))])


def clockless_faults():
    """The same of a clock that tells no moment, which a C compiler makes."""
    with tempfile.TemporaryDirectory() as folder:
        library = folder + "/clock.so"
        subprocess.run(["cc", "-shared", "-fPIC", "-o", library, CLOCK], check=True)
        return outcome(list(over_sockets((before_1970,), env={**os.environ, "LD_PRELOAD": library})))


if __name__ == "__main__":
    found, checks = (one + other for one, other in zip(faults(), clockless_faults()))
    print(*found, f"{checks - len(found)} passed, {len(found)} failed", sep="\n")
    sys.exit(bool(found))

#!/usr/bin/env python3
"""Times one request in the daemon by its kind, its token's form and its size: what a loop may answer itself.

    by_size.py

Each is asked over one connection, once the one before it is answered, of a daemon that remembers no token, by
one loop and one worker. Told are the bytes of the request and the microseconds of the processor that it takes,
with reading and writing it. A token has many short caveats, or few long ones. A turn of a loop is meant to take two
milliseconds at most (docs/DECISIONS.md); by what a request goes to a worker is read in `is_dear` of mac_plain.
"""
import itertools
import os
import pathlib
import sys

sys.path.insert(0, str(pathlib.Path(__file__).resolve().parents[1]))
from common import programs
from common.daemon import connected, listening, reply_to
from common.processes import TICKS, ticks

import request

MICROS = 1e6 / TICKS
FORMS = ["v1-text", "v2-text", "v2-binary", "v2-json"]
# As many caveats as a token has at most, and nearly as long ones.
CAVEATS_MAX, CAVEAT_MAX = 128, 4_000
# The bytes that a token's caveats have together, about, and how many microseconds each request is asked for.
SIZES = [500, 2_000, 3_500, 7_000, 14_000, 20_000]
ENOUGH, FEWEST = 300_000, 20


def caveats_of(shape, size):
    count = min(CAVEATS_MAX, size // 24) if shape == "many" else -(-size // CAVEAT_MAX)
    return ["a" * (size // count)] * count


def token_of(stream, form, caveats):
    return told(reply_to(stream, request.mint(form, "bank", "", "alice", *caveats)))


def told(reply):
    if reply[:1] != b"\x01":
        raise SystemExit(f"no token: {reply[:8]}")
    return os.fsdecode(reply[1:])


def cost(stream, pid, payload):
    """The microseconds of the processor that a request takes."""
    before, asked = ticks(pid), 0
    while asked < FEWEST or (ticks(pid) - before) * MICROS < ENOUGH:
        reply_to(stream, payload)
        asked += 1
    return (ticks(pid) - before) * MICROS / asked


def requests(stream):
    """Each request, as its kind, form and shape, and its bytes."""
    for size, form, shape in itertools.product(SIZES, FORMS, ("many", "few")):
        token = token_of(stream, form, caveats_of(shape, size))
        yield ("verify", form, shape), request.verify("bank", token)
        yield ("attenuate", form, shape), request.attenuate(form, token, "action = read")


def main():
    programs.stop_unless_built("macaroond")
    words = ["--remember", "0", "--loops", "1", "--workers", "1"]
    print(f"{'kind':10} {'form':10} {'caveats':8} {'bytes':>7} {'us':>8}")
    with listening(*words) as (path, run), connected(path) as stream:
        for (kind, form, shape), payload in requests(stream):
            spent = cost(stream, run.pid, payload)
            print(f"{kind:10} {form:10} {shape:8} {len(payload):7,} {spent:8.1f}", flush=True)


if __name__ == "__main__":
    main()

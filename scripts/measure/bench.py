#!/usr/bin/env python3
"""Times `macaroond pipe`, by its processor time, beside the SHA-256 that its answers need; then `serve` over memory,
and the ring and the pool.
Asks for the programs that `make build build-runs` leaves in bin/."""
import os
import pathlib
import resource
import subprocess
import sys
import tempfile
import time

sys.path.insert(0, str(pathlib.Path(__file__).resolve().parents[1]))
from common import TOP, programs

import request

# The program that is timed: the one for all processors, or for those that LEVEL names.
PROGRAM = TOP / "libexec" / "macaroond" / os.environ.get("LEVEL", "x86-64-v2")

REQUESTS = 100_000
INPUT_MAX = 16_777_216
KEYS = "key bank 74686973206973206f757220737570657220736563726574206b6579\n\n"
CAVEATS = ["account = 3735928559", "time < 2030-01-01T00:00", "method = GET"]
FACTS = ["account = 3735928559", "method = GET"]
MOMENT = 1_780_272_000
# An HMAC of at most 55 bytes: two pads, the text, the digest.
HMAC_BLOCKS = 4
BLOCKS_TIMED = 5_000_000
# How many caveats of 245 bytes the tokens have that are read and written.
SIZES = (8, 32, 127)
# What `serve` answers over memory, by so many workers: each kind with how many HMACs it needs.
SERVED, SERVE_WORKERS = 200_000, 4
SERVE_KINDS = {"verify": ("verify of 3 caveats, V2 binary", 4), "mint": ("mint, 3 caveats", 4), "empty": ("empty frames", 0)}
# Slips through the ring, and the most nanoseconds that each may take.
SLIPS, SLIP_NANOS_MAX = 5_000_000, 150
# Tickets through the pool, in runs of 64, and the most that each may take of the processors' time: in microseconds, and with
# four workers beside one.
TICKETS, TICKET_RUN, TICKET_MICROS_MAX, MANY_BESIDE_ONE_MAX = 1_000_000, 64, 0.6, 1.5
# How long 16 workers wait for nothing, and the most of that time that they may take.
IDLE_MILLIS, IDLE_SHARE_MAX = 1_000, 0.01
# Each time is the least of so many: what else runs on a machine only adds to it, most of all to what threads do together.
TRIALS, THREAD_TRIALS = 5, 20


def processor_seconds():
    """The processor time of the runs so far, which other work on the machine changes little."""
    used = resource.getrusage(resource.RUSAGE_CHILDREN)
    return used.ru_utime + used.ru_stime


def seconds(command, text=""):
    """The processor time of a run on this standard input, and what it prints."""
    with tempfile.TemporaryFile("w+") as given, tempfile.TemporaryFile("w+") as printed:
        given.write(text)
        given.seek(0)
        begin = processor_seconds()
        subprocess.run(command, stdin=given, stdout=printed, check=True)
        taken = processor_seconds() - begin
        printed.seek(0)
        return taken, printed.read()


def block_seconds():
    """What a block of SHA-256 costs."""
    program = programs.path_of("time_blocks")
    return min(seconds([program, str(BLOCKS_TIMED)])[0] for _ in range(TRIALS)) / BLOCKS_TIMED


def pipe_seconds(payload, count):
    """The processor time of the pipe for so many requests of this payload, in inputs within its bound."""
    line = payload.hex() + "\n"
    at_once = min(count, (INPUT_MAX - len(KEYS)) // len(line))
    taken = 0.0
    for first in range(0, count, at_once):
        lines = min(at_once, count - first)
        run, printed = seconds([PROGRAM, "pipe"], KEYS + line * lines)
        if "refused" in printed or printed.count("\n") != lines:
            sys.exit(f"the pipe doesn't answer as it should: {printed[:100]}")
        taken += run
    return taken


def answer(payload):
    """The token that the pipe answers."""
    _, printed = seconds([PROGRAM, "pipe"], KEYS + payload.hex() + "\n")
    return printed.removeprefix("token ").rstrip("\n")


def minted(form, caveats):
    return request.mint(form, "bank", "https://bank.example/", "user:1001", *caveats)


def kinds():
    """Each kind of request: its name, a payload, and how many HMACs its answer needs."""
    binary, text = (answer(minted(form, CAVEATS)) for form in ("v2-binary", "v2-json"))
    yield "mint, 3 caveats", minted("v2-binary", CAVEATS), 4
    yield "attenuate by one", request.attenuate("v2-binary", binary, "ip = 10.0.0.7"), 1
    yield "verify, V2 binary", request.verify("bank", binary, MOMENT, *FACTS), 4
    yield "verify, V2 JSON", request.verify("bank", text, MOMENT, *FACTS), 4


def print_kinds():
    block = block_seconds()
    print(f"a block of SHA-256: {block * 1e9:.0f} ns")
    print("| request | a second | blocks | hashing, of its time |")
    print("|---|---|---|---|")
    for name, payload, hmacs in kinds():
        each = min(pipe_seconds(payload, REQUESTS) for _ in range(TRIALS)) / REQUESTS
        blocks = hmacs * HMAC_BLOCKS
        print(f"| {name} | {1 / each:,.0f} | {blocks} | {100 * blocks * block / each:.0f} % |")


def sized_requests(count):
    """A token of so many caveats in both V2 forms: its size, and a request to write it as binary."""
    caveats = [f"{i:03} " + "c" * 241 for i in range(count)]
    for form in ("v2-binary", "v2-json"):
        token = answer(minted(form, caveats))
        yield len(request.field(token)), request.attenuate("v2-binary", token)


def print_sizes():
    """A token read and written as V2 binary, from V2 binary and from JSON, by its size."""
    print("| caveats | from V2 binary | from V2 JSON |")
    print("|---|---|---|")
    for count in SIZES:
        costs = []
        for size, payload in sized_requests(count):
            each = min(pipe_seconds(payload, 2_000) for _ in range(TRIALS)) / 2_000
            costs.append(f"{size:,} bytes, {each * 1e9 / size:.1f} ns a byte")
        print(f"| {count} | {' | '.join(costs)} |")


def serve_seconds(kind):
    """The processor time and the time of `serve` for a request, beyond those of making its stream."""
    runs = {"load": f"load:{kind}:{SERVE_WORKERS}:{SERVED}", "made": f"made:{kind}:{SERVED}"}
    least = {}
    for name, run in runs.items():
        trials = []
        for _ in range(TRIALS):
            begin = time.monotonic()
            taken, printed = seconds([programs.path_of("try_serve"), run])
            trials.append((taken, time.monotonic() - begin))
            if name == "load" and printed != f"arrived {SERVED} sent {SERVED}\n":
                sys.exit(f"try_serve doesn't answer as it should: {run}")
        least[name] = [min(column) for column in zip(*trials)]
    return [(whole - front) / SERVED for whole, front in zip(least["load"], least["made"])]


def print_serve():
    """`serve` over memory: no socket, but all of its threads."""
    block = block_seconds()
    print(f"| `serve` over memory, {SERVE_WORKERS} workers | a second | processor time each | hashing, of it |")
    print("|---|---|---|---|")
    for kind, (name, hmacs) in SERVE_KINDS.items():
        processor, passed = serve_seconds(kind)
        share = 100 * hmacs * HMAC_BLOCKS * block / processor
        print(f"| {name} | {1 / passed:,.0f} | {processor * 1e6:.2f} us | {share:.0f} % |")


def run_seconds(run, told):
    """The processor time of a run of `try_pool`, which answers as it is told."""
    trials = [seconds([programs.path_of("try_pool"), run]) for _ in range(THREAD_TRIALS)]
    if any(printed != told + "\n" for _, printed in trials):
        sys.exit(f"try_pool doesn't answer as it should: {run}")
    return min(taken for taken, _ in trials)


def print_ring_and_pool():
    """What a slip of the ring, a ticket of the pool and an idle pool cost, and whether that is within their bounds."""
    slip = run_seconds(f"hand_over:{SLIPS}", f"admitted {SLIPS} released {SLIPS}") / SLIPS * 1e9
    verdicts = [slip <= SLIP_NANOS_MAX]
    print(f"a slip's way through the ring: {slip:.0f} ns (at most {SLIP_NANOS_MAX})")
    each = {}
    for workers in (1, 2, 4):
        run = f"tickets:{workers}:{TICKETS // TICKET_RUN}"
        each[workers] = run_seconds(run, f"put {TICKETS} claimed {TICKETS} left 0") / TICKETS * 1e6
        verdicts.append(each[workers] <= TICKET_MICROS_MAX)
        print(f"a ticket through {workers} workers and back: {each[workers]:.2f} us (at most {TICKET_MICROS_MAX})")
    verdicts.append(each[4] <= MANY_BESIDE_ONE_MAX * each[1])
    print(f"with 4 workers beside 1: {each[4] / each[1]:.2f} (at most {MANY_BESIDE_ONE_MAX})")
    started = run_seconds("idle:16:0", "put 0 claimed 0 left 0")
    waited = run_seconds(f"idle:16:{IDLE_MILLIS}", "put 0 claimed 0 left 0")
    idle = max(0.0, waited - started) * 1000 / IDLE_MILLIS
    verdicts.append(idle <= IDLE_SHARE_MAX)
    print(f"16 idle workers: {100 * idle:.2f} % of a processor (at most {100 * IDLE_SHARE_MAX:.0f} %)")
    if not all(verdicts):
        sys.exit("something of the ring or the pool is slower than it may be")


if __name__ == "__main__":
    programs.stop_unless_built("macaroond", "time_blocks", "try_pool", "try_serve")
    print_kinds()
    print()
    print_sizes()
    print()
    print_serve()
    print()
    print_ring_and_pool()

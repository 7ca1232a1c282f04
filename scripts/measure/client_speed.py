#!/usr/bin/env python3
"""Times the clients in one run with a bare loop that writes and reads frames.

    client_speed.py [SECONDS [ROUNDS]]

Each way of asking goes on for so many seconds (1), in so many rounds (5), all in turns, with a
daemon that remembers no token and with one that does; told of each are the middle rates, and the
middle of each round's rates beside the bare loop's. Every request is a verify of 3 caveats. Making
the bytes is what the Python client does before anything is sent. Asks for bin/macaroond, or the
program that MACAROOND names, and for Go where it is there.
"""
import asyncio
import contextlib
import os
import pathlib
import statistics
import subprocess
import sys
import tempfile
import threading
import time

sys.path.insert(0, str(pathlib.Path(__file__).resolve().parents[1]))
from check import clients
from check.client_cases import ASKERS
from common import TOP, programs
from common.daemon import listening

from macaroond import AsyncClient, Client, Form, wire

FACTS = ["account = 3735928559", "service = mail", "action = read"]
# How many are asked for together.
MANY = 10_000
BARE = "a bare loop"
# The daemons, and the options of each.
DAEMONS = {"`--remember 0`": ["--remember", "0"], "default": []}


def counted(ask, until):
    """How many are asked until then."""
    count = 0
    while time.monotonic() < until:
        count += ask()
    return count


def demand(holds):
    if not holds:
        raise SystemExit("a reply was not what is due")


def makes(path, token, until):
    def ask():
        for _ in range(1000):
            wire.framed(wire.verify_request("bank", token, FACTS, None))
        return 1000

    return counted(ask, until)


def verifies_many(path, token, until):
    def ask():
        verdicts = client.verify_many("bank", ((token, FACTS) for _ in range(MANY)))
        demand(sum(map(bool, verdicts)) == MANY)
        return MANY

    with Client(path) as client:
        return counted(ask, until)


def verifies_by_threads(path, token, until):
    counts = []

    def ask():
        demand(client.verify("bank", token, FACTS))
        return 1

    with Client(path) as client:
        threads = [threading.Thread(target=lambda: counts.append(counted(ask, until))) for _ in range(ASKERS)]
        for thread in threads:
            thread.start()
        for thread in threads:
            thread.join()
    return sum(counts)


def verifies_many_in_a_task(path, token, until):
    async def all_of():
        count = 0
        async with AsyncClient(path) as client:
            while time.monotonic() < until:
                asked = client.verify_many("bank", ((token, FACTS) for _ in range(MANY)))
                demand(sum([bool(verdict) async for verdict in asked]) == MANY)
                count += MANY
        return count

    return asyncio.run(all_of())


def verifies_by_tasks(path, token, until):
    async def ask(client):
        count = 0
        while time.monotonic() < until:
            demand(await client.verify("bank", token, FACTS))
            count += 1
        return count

    async def all_of():
        async with AsyncClient(path) as client:
            return sum(await asyncio.gather(*(ask(client) for _ in range(ASKERS))))

    return asyncio.run(all_of())


WAYS = {
    "Python: making the bytes": makes,
    "Python: `verify_many`": verifies_many,
    "Python: 64 threads, one at a time": verifies_by_threads,
    "Python, asyncio: `verify_many`": verifies_many_in_a_task,
    "Python, asyncio: 64 tasks, one at a time": verifies_by_tasks,
}


def python_rates(path, seconds):
    """The rate of each way of the Python client."""
    with Client(path) as client:
        token = client.mint("bank", "alice", caveats=FACTS, form=Form.V2_BINARY)
    rates = {}
    for name, way in WAYS.items():
        begin = time.monotonic()
        count = way(path, token, begin + seconds)
        rates[name] = count / (time.monotonic() - begin)
    return rates


def go_rates(program, path, seconds):
    """The rate of each way of the program in bench/go_client."""
    told = subprocess.run([program, path, str(seconds)], stdout=subprocess.PIPE, text=True, check=True).stdout
    return {name: float(rate) for name, rate in (line.split("\t") for line in told.splitlines())}


def go_program(folder):
    program = os.path.join(folder, "go_speed")
    subprocess.run(["go", "build", "-o", program, "."], cwd=TOP / "bench" / "go_client", env=clients.GO_ALONE, check=True)
    return program


def rates(program, path, seconds):
    """The rate of each way of asking the daemon at this socket."""
    return {**(go_rates(program, path, seconds) if program else {}), **python_rates(path, seconds)}


def told(runs, name):
    """The middle rate of a way of asking, and its middle beside the bare loop, as two cells."""
    rate = statistics.median(run[name] for run in runs)
    beside = statistics.median(run[name] / run.get(BARE, run[name]) for run in runs)
    return f"{rate:,.0f} | {beside:.2f}"


def main(words):
    programs.stop_unless_built("macaroond")
    seconds, rounds = float(words[0]) if words else 1.0, int(words[1]) if len(words) > 1 else 5
    with contextlib.ExitStack() as held:
        folder = held.enter_context(tempfile.TemporaryDirectory())
        program = go_program(folder) if clients.has_go() else None
        sockets = [held.enter_context(listening(*options, stderr=subprocess.DEVNULL))[0] for options in DAEMONS.values()]
        runs = [[rates(program, path, seconds) for path in sockets] for _ in range(rounds)]
    print(f"| | {' | | '.join(DAEMONS)} | |")
    for name in runs[0][0]:
        print(f"| {name} | {' | '.join(told(daemon, name) for daemon in zip(*runs))} |")


if __name__ == "__main__":
    main(sys.argv[1:])

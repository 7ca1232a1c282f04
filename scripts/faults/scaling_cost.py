#!/usr/bin/env python3
"""What a verify costs in each way to the daemons: of the daemons' processor time, and of HAProxy's.

    scaling_cost.py [SECONDS]

Each way is driven for so many seconds (2) by connections that wait for each reply, and frames also by
some that send without waiting. Every reply is compared byte for byte. One machine runs all, the
load too, so believe the processor time of each request, and not how many there were.
"""
import multiprocessing
import pathlib
import sys
import tempfile
import time

sys.path.insert(0, str(pathlib.Path(__file__).resolve().parents[1]))
from common.daemon import connected
from faults import scaling, scaling_cluster
from faults.scaling_cluster import balanced, started
from measure import load

from macaroond import Client

# How many connections ask one request at a time, and how many send without waiting.
WAITING, FLOODING = 16, 4
FRAMES = {"a daemon's socket": "one.socket", "frames.cfg": "front.socket", "front.cfg, back.cfg": "tls.socket"}
HTTP = {"a daemon over HTTP": "one.http", "http.cfg": "front.http"}


def over_http(path, folder):
    """A verify over HTTP, and the response that is due: that of a first one, which is granted."""
    with Client(f"{folder}/one.socket") as client:
        token = client.mint("bank", "alice", "http://mybank/", load.FACTS)
    facts = "".join(f"Macaroon-Fact: {fact}\r\n" for fact in load.FACTS)
    asked = f"GET /verify/bank HTTP/1.1\r\nHost: macaroond\r\nAuthorization: Bearer {token}\r\n{facts}\r\n".encode()
    with connected(path) as stream:
        stream.sendall(asked)
        due = stream.recv(load.CHUNK)
    if not due.startswith(b"HTTP/1.1 200 ") or not due.endswith(b"\r\n\r\n"):
        raise SystemExit(f"a verify over HTTP was answered {due!r}")
    return asked, due


def ways(folder):
    """Each way's name, its job (a path, a request, its reply, a window), and how many ask."""
    for window, count, told in ((1, WAITING, "one at a time"), (0, FLOODING, "without waiting")):
        for name, path in FRAMES.items():
            yield f"{name}, {told}", (f"{folder}/{path}", *load.loads(f"{folder}/{path}")["verify"], window), count
    for name, path in HTTP.items():
        yield f"{name}, one at a time", (f"{folder}/{path}", *over_http(f"{folder}/{path}", folder), 1), WAITING


def spent(runs):
    return sum(load.processor_seconds(run.pid) for run in runs)


def measured(name, job, count, seconds, daemons, balancers):
    with multiprocessing.Pool(count) as clients:
        before, begin = (spent(daemons), spent(balancers)), time.monotonic()
        results = clients.map(load.drive, [(*job, begin + seconds)] * count, 1)
        took = time.monotonic() - begin
        costs = spent(daemons) - before[0], spent(balancers) - before[1]
    replies = sum(number for number, _ in results)
    each = [f"{cost / replies * 1e6:7.2f} us" for cost in costs]
    print(f"{name:38} {replies / took:10,.0f} a second, each {each[0]} of a daemon, {each[1]} of HAProxy", flush=True)


def main():
    if lacking := scaling_cluster.missing():
        raise SystemExit(f"there is no {' and no '.join(lacking)} (scripts/install_peers.sh)")
    seconds = float(sys.argv[1]) if len(sys.argv) > 1 else 2
    with tempfile.TemporaryDirectory() as name:
        folder = pathlib.Path(name)
        with started(folder, scaling.key_file(0)) as daemons, balanced(folder) as balancers:
            for told, job, count in ways(folder):
                measured(told, job, count, seconds, [one.run for one in daemons.values()], balancers.runs)


if __name__ == "__main__":
    main()

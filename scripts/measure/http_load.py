#!/usr/bin/env python3
"""Drives the HTTP face of `macaroond listen` by wrk, in turns with a Go service of the same answers.

    http_load.py [ROUNDS [SECONDS]]

In each of so many rounds (5) they are asked over a port of loopback, for so many seconds (4), by 64
connections that are kept: a verify of 3 caveats. macaroond is asked with `--remember 0`, which hashes
each token anew as Go does, and without. Told are requests a second, the processor time a request, and
the middle of each round's ratios to Go's. So is a bare loop in C that parses and decides nothing, and
writes the same answer to whatever it reads (bare_http.c): no server that reads each request by itself
is faster, or costs less. Then, of macaroond alone, the processor time of /healthz, and what 256 idle
connections cost. Asks for bin/macaroond, or the program that MACAROOND names, for bin/go_http
(bench/go_http/build.sh), for Debian's wrk, and for a C compiler.
"""
import contextlib
import os
import pathlib
import re
import socket
import statistics
import subprocess
import sys
import tempfile
import time
import typing

sys.path.insert(0, str(pathlib.Path(__file__).resolve().parents[1]))
from check.http_sockets import SECRET, asking, response
from check.http_rows import v2
from common import TOP
from common.daemon import PATIENCE, begun, command, ending, free_port, put_keys
from common.processes import mebibytes, ticks

import request

CONNECTIONS, IDLE, SILENT = 64, 256, 5
CAVEATS = [b"account = 1", b"time < 2100-01-01T00:00", b"time < 2101-01-01T00:00"]
FIELDS = [f"Authorization: Macaroon {v2(b'alice', CAVEATS)}", "Macaroon-Fact: account = 1"]
TICK = 1e6 / os.sysconf("SC_CLK_TCK")
BARE = pathlib.Path(__file__).with_name("bare_http.c")
# Go's collector by its default, and less often: whoever runs a service for speed sets that.
GO = {**os.environ, "GOGC": "400"}


class Figure(typing.NamedTuple):
    """Requests a second, and microseconds of the processor's time for each."""

    rate: float
    cost: float


def remembering(folder, port):
    """A daemon that remembers tokens: the one that is asked for here is hashed twice."""
    words = ["--http", f"127.0.0.1:{port}", "--http-facts", "header"]
    return command(f"{folder}/socket", *words, keys=f"{folder}/keys"), None


def macaroond(folder, port):
    """One that hashes each token anew, as the service in Go does."""
    words, environment = remembering(folder, port)
    return [*words, "--remember", "0"], environment


def go(folder, port):
    return [str(TOP / "bin" / "go_http"), f"127.0.0.1:{port}", f"{folder}/keys"], GO


def bare(folder, port):
    subprocess.run(["cc", "-O2", "-o", f"{folder}/bare", BARE, "-lpthread"], check=True)
    return [f"{folder}/bare", str(port)], None


@contextlib.contextmanager
def serving(service):
    """The port of a service, and its process."""
    with tempfile.TemporaryDirectory() as folder:
        put_keys(f"{folder}/keys", request.key("bank", SECRET) + "\n")
        port = free_port()
        words, environment = service(folder, port)
        with ending(begun(words, stderr=subprocess.DEVNULL, env=environment)) as run:
            yield port, run.pid


def loaded(port, pid, path, seconds, fields):
    """What comes of so many seconds of wrk."""
    words = ["wrk", "-t2", f"-c{CONNECTIONS}", f"-d{seconds}s", f"http://127.0.0.1:{port}{path}"]
    for field in fields:
        words += ["-H", field]
    before = ticks(pid)
    text = subprocess.run(words, capture_output=True, text=True, check=True).stdout
    spent = (ticks(pid) - before) * TICK
    if "Non-2xx" in text or "Socket errors" in text:
        raise SystemExit(text)
    total = int(re.search(r"(\d+) requests in", text)[1])
    return Figure(float(re.search(r"Requests/sec:\s+([\d.]+)", text)[1]), spent / total)


def measured(service, path, seconds, fields):
    with serving(service) as (port, pid):
        loaded(port, pid, path, 1, fields)
        return loaded(port, pid, path, seconds, fields)


def middle(figures):
    return Figure(*map(statistics.median, zip(*figures)))


def told(name, figure):
    print(f"{name}: {figure.rate:,.0f} a second, {figure.cost:.1f} us of the processor each", flush=True)


def idle():
    with serving(macaroond) as (port, pid), contextlib.ExitStack() as until:
        streams = [until.enter_context(socket.create_connection(("127.0.0.1", port), PATIENCE)) for _ in range(IDLE)]
        for stream in streams:
            stream.sendall(asking("/healthz"))
        answered = sum(response(stream)[0] == 200 for stream in streams)
        before = ticks(pid)
        time.sleep(SILENT)
        spent = ticks(pid) - before
        print(f"{IDLE} idle connections, {answered} answered: {mebibytes(pid):.1f} MiB, {spent} ticks in {SILENT} s")


def main():
    rounds, seconds = [int(word) for word in sys.argv[1:3]] + [5, 4][len(sys.argv[1:3]) :]
    services = {"macaroond --remember 0": macaroond, "macaroond": remembering, "a bare loop": bare, "Go": go}
    found = [[measured(it, "/verify/bank", seconds, FIELDS) for it in services.values()] for _ in range(rounds)]
    for name, figures in zip(services, zip(*found)):
        told(f"{name}, a verify of 3 caveats", middle(figures))
        ratios = middle([Figure(own.rate / all[-1].rate, own.cost / all[-1].cost) for own, all in zip(figures, found)])
        print(f"of Go's: {ratios.rate:.2f} times the rate, {ratios.cost:.2f} of the processor time")
    told("/healthz", middle([measured(macaroond, "/healthz", seconds, []) for _ in range(rounds)]))
    idle()


if __name__ == "__main__":
    main()

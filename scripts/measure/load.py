#!/usr/bin/env python3
"""Drives `macaroond listen` with requests over its socket, and tells how it did.

    load.py [--connections N] [--window W] [--seconds S] [--workers COUNT] [--load NAME ..] [-- WORD ..]

Each of N connections, a process of its own, keeps W requests unanswered, or with W = 0 as many as
the socket takes. Every reply is compared byte for byte with what is due. For each load a line: the
requests a second, with a window the median and the 99th percentile of the time to a reply, the
daemon's processor time a request, and its peak memory. Asks for bin/macaroond, or the program that
MACAROOND names, and gives it the last words too. One machine runs both sides, so believe ratios of
one run, not figures.
"""
import argparse
import collections
import multiprocessing
import os
import pathlib
import select
import socket
import sys
import time

sys.path.insert(0, str(pathlib.Path(__file__).resolve().parents[1]))
from common.daemon import frame, listening
from common.processes import mebibytes, processor_seconds

import client
import request

FACTS = ["account = 3735928559", "service = mail", "action = read"]
CHUNK = 65_536


def loads(path):
    """For each load the frame of a request, and the frame of the reply that is due."""
    mint = request.mint("v1-text", "bank", "http://mybank/", "we used our secret key")
    with client.Client(path) as asked:
        token = asked.ask(mint)
        narrow = request.attenuate("v1-text", token[1:].decode(), *FACTS)
        narrowed = asked.ask(narrow)
    verify = request.verify("bank", narrowed[1:].decode(), 0, *FACTS)
    return {
        "empty": (frame(b""), frame(bytes([16]))),
        "mint": (frame(mint), frame(token)),
        "attenuate": (frame(narrow), frame(narrowed)),
        "verify": (frame(verify), frame(bytes([0]))),
    }


def flood(path, asked, due, until):
    """Sends without waiting, and gives the number of replies; each is compared."""
    outgoing = memoryview(asked * (CHUNK // len(asked) + 1))
    pattern = due * (CHUNK // len(due) + 2)
    sent = got = at = 0
    with socket.socket(socket.AF_UNIX) as stream:
        stream.connect(path)
        stream.setblocking(False)
        while (is_open := time.monotonic() < until) or at or got < sent * len(due):
            wants = [stream] if is_open or at else []
            readable, writable, _ = select.select([stream], wants, [], 1)
            if writable:
                at += stream.send(outgoing[at:] if is_open else outgoing[at : at + -at % len(asked)])
                sent, at = sent + at // len(asked), at % len(asked)
            if readable:
                piece = stream.recv(CHUNK)
                place = got % len(due)
                if not piece or piece != pattern[place : place + len(piece)]:
                    raise SystemExit("a reply was not what is due")
                got += len(piece)
    return sent, []


def closed_loop(path, asked, due, window, until):
    """Keeps so many requests unanswered, and gives the number of replies and the time of each."""
    times, begun = [], collections.deque()
    with socket.socket(socket.AF_UNIX) as stream:
        stream.connect(path)
        for _ in range(window):
            begun.append(time.perf_counter())
            stream.sendall(asked)
        received = b""
        while begun:
            received += stream.recv(CHUNK)
            count = len(received) // len(due)
            if received[: count * len(due)] != due * count:
                raise SystemExit("a reply was not what is due")
            received = received[count * len(due) :]
            now = time.perf_counter()
            times += [now - begun.popleft() for _ in range(count)]
            if time.monotonic() < until:
                stream.sendall(asked * count)
                begun.extend([now] * count)
    return len(times), times


def drive(job):
    path, asked, due, window, until = job
    if window:
        return closed_loop(path, asked, due, window, until)
    return flood(path, asked, due, until)


def told(name, count, seconds, times, processor, peak):
    print(f"{name:10} {count / seconds:12,.0f} requests a second", end="")
    if times:
        times.sort()
        middle, late = times[len(times) // 2], times[len(times) * 99 // 100]
        print(f"   p50 {middle * 1e6:8.0f} us   p99 {late * 1e6:8.0f} us", end="")
    print(f"   {processor / count * 1e6:7.2f} us of processor each   {peak:.0f} MiB at most")


def main():
    words = argparse.ArgumentParser(description=__doc__, formatter_class=argparse.RawTextHelpFormatter)
    words.add_argument("--connections", type=int, default=4)
    words.add_argument("--window", type=int, default=0)
    words.add_argument("--seconds", type=float, default=2)
    words.add_argument("--workers", default=str(min(os.cpu_count() or 1, 16)))
    words.add_argument("--load", action="append", choices=["empty", "mint", "attenuate", "verify"])
    words.add_argument("words", nargs="*")
    given = words.parse_args()
    with listening("--workers", given.workers, *given.words) as (path, daemon):
        measure(path, daemon.pid, given)


def measure(path, pid, given):
    all_loads = loads(path)
    with multiprocessing.Pool(given.connections) as clients:
        for name in given.load or all_loads:
            before, begin = processor_seconds(pid), time.monotonic()
            job = (path, *all_loads[name], given.window, begin + given.seconds)
            results = clients.map(drive, [job] * given.connections, 1)
            seconds = time.monotonic() - begin
            processor = processor_seconds(pid) - before
            times = [one for _, some in results for one in some]
            told(name, sum(count for count, _ in results), seconds, times, processor, mebibytes(pid, "VmHWM"))


if __name__ == "__main__":
    main()

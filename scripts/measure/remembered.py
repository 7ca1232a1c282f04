#!/usr/bin/env python3
"""What a verify costs with a token that the daemon has seen, and with one that it hasn't.

    remembered.py [REQUESTS [CAVEATS ..]]

For each number of caveats (3 and 10) there are daemons with `--remember 0` and with the default,
one after the other, and for each the loads: 64 connections that share 1,000 tokens, 64 that share
100,000, and tokens none of which comes twice. Each connection sends 32 requests at once and awaits
their replies, and each reply is compared. A line tells the daemon's processor time for each
request, and its greatest memory. Asks for bin/macaroond, or the program that MACAROOND names.
"""
import multiprocessing
import pathlib
import socket
import sys
import time

sys.path.insert(0, str(pathlib.Path(__file__).resolve().parents[1]))
from common import KEYS
from common.daemon import frame, listening, received
from common.processes import mebibytes, processor_seconds
from common.tokens import text_of, v2

import request

CONNECTIONS, CLIENTS, BATCH, PIECE = 64, 4, 32, 8_192
GRANTED = (1).to_bytes(4, "big") + bytes([0])
# The loads by their names, with how many tokens each has; None is as many as there are requests.
LOADS = {"1,000 tokens": 1_000, "100,000 tokens": 100_000, "none twice": None}


def secret():
    """The secret of the name `bank` in the key file."""
    lines = pathlib.Path(KEYS).read_text().splitlines()
    return bytes.fromhex(next(line.split()[2] for line in lines if line.startswith("key bank ")))


def token(key, number, caveats):
    """A token of format two as base64 text, for an identifier of its own."""
    return text_of(v2(key, b"user %d" % number, [caveat.encode() for caveat in caveats]))


def frames(job):
    """The frames of verifies of these tokens, each granted."""
    key, numbers, caveats = job
    return [frame(request.verify("bank", token(key, number, caveats), 0, *caveats)) for number in numbers]


def drive(job):
    """Asks these frames over some connections in turn, and gives the number of replies."""
    path, asked, count = job
    streams = []
    for _ in range(CONNECTIONS // CLIENTS):
        streams.append(socket.socket(socket.AF_UNIX))
        streams[-1].connect(path)
    done = 0
    while done < count:
        for stream in streams:
            batch = [asked[(done + at) % len(asked)] for at in range(BATCH)]
            stream.sendall(b"".join(batch))
            done += BATCH
        for stream in streams:
            if received(stream, len(GRANTED) * BATCH) != GRANTED * BATCH:
                raise SystemExit("a reply was not what is due")
    return done


def measured(pool, remember, caveats, requests):
    """Drives a daemon with each load, and tells the cost of each."""
    words = ["--remember", "0"] if remember == 0 else []
    key, first = secret(), 0
    for name, size in LOADS.items():
        with listening(*words) as (path, daemon):
            count = size or requests
            jobs = [(key, range(first + at, first + count, CLIENTS), caveats) for at in range(CLIENTS)]
            asked = pool.map(frames, jobs)
            first += count
            if size:
                # Each token has come twice, and is remembered where there is room.
                shared = [one for some in asked for one in some]
                asked = [shared[at * count // CLIENTS :] + shared[: at * count // CLIENTS] for at in range(CLIENTS)]
                pool.map(drive, [(path, some, 2 * count // CLIENTS + 1) for some in asked])
            before, begin = processor_seconds(daemon.pid), time.monotonic()
            done = sum(pool.map(drive, [(path, some, requests // CLIENTS) for some in asked]))
            processor, seconds = processor_seconds(daemon.pid) - before, time.monotonic() - begin
            cost, peak = processor / done * 1e6, mebibytes(daemon.pid, "VmHWM")
            how = "--remember 0" if remember == 0 else "the default"
            print(f"{len(caveats):2} caveats, {name:14}, {how:12} {cost:6.2f} us of processor each", end="")
            print(f"   {done / seconds:9,.0f} requests a second   {peak:.0f} MiB at most", flush=True)


def main(words):
    requests = int(words[0]) if words else 400_000
    counts = [int(word) for word in words[1:]] or [3, 10]
    with multiprocessing.Pool(CLIENTS) as pool:
        for count in counts:
            caveats = [f"caveat number {number} of this token" for number in range(count)]
            for remember in (0, None):
                measured(pool, remember, caveats, requests)


if __name__ == "__main__":
    main(sys.argv[1:])

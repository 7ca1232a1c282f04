#!/usr/bin/env python3
"""Whether the time of a refusal tells how much of a guessed signature is right.

    guesses.py [TRIES]

The daemon has seen a token, and remembers it. Each try is the same token with one byte of its
signature wrong, the first to the last in a random order, asked for alone on one connection. A line
for each byte tells the mean time of its tries without the slowest tenth; the last one tells the
slope over the place of the wrong byte, and its standard error. With a slope of less than three of
these there is no trend. TRIES is 1,000,000 where it is left out. Asks for bin/macaroond, or the
program that MACAROOND names.
"""
import base64
import pathlib
import random
import statistics
import sys
import time

sys.path.insert(0, str(pathlib.Path(__file__).resolve().parents[1]))
from common.daemon import connected, frame, listening
from measure.remembered import GRANTED, secret, token

import request

SIGNATURE, REFUSED = 32, (1).to_bytes(4, "big") + bytes([23])
CAVEATS = ["account = 3735928559", "service = mail", "action = read"]


def asking(content):
    """The frame of a verify of a token in binary."""
    return frame(request.verify("bank", "hex:" + content.hex(), 0, *CAVEATS))


def timed(path, tries):
    """For each byte of the signature the times of the tries in which it is wrong."""
    good = base64.urlsafe_b64decode(token(secret(), 1, CAVEATS) + "==")
    first = len(good) - SIGNATURE
    wrong = [asking(good[:at] + bytes([good[at] ^ 1]) + good[at + 1 :]) for at in range(first, len(good))]
    times = [[] for _ in wrong]
    with connected(path) as stream:
        for _ in range(8):
            stream.sendall(asking(good))
            if stream.recv(64) != GRANTED:
                raise SystemExit("the token isn't granted")
        for _ in range(tries):
            place = random.randrange(SIGNATURE)
            begin = time.perf_counter_ns()
            stream.sendall(wrong[place])
            reply = stream.recv(64)
            times[place].append(time.perf_counter_ns() - begin)
            if reply != REFUSED:
                raise SystemExit("a wrong signature isn't refused")
    return times


def slope(means):
    """The slope of the means over their places, and its standard error."""
    places = range(len(means))
    x, y = statistics.fmean(places), statistics.fmean(means)
    spread = sum((place - x) ** 2 for place in places)
    found = sum((place - x) * (mean - y) for place, mean in zip(places, means)) / spread
    rest = sum((mean - y - found * (place - x)) ** 2 for place, mean in zip(places, means))
    return found, (rest / (len(means) - 2) / spread) ** 0.5


def main(words):
    tries = int(words[0]) if words else 1_000_000
    with listening() as (path, _):
        times = timed(path, tries)
    means = [statistics.fmean(sorted(some)[: len(some) * 9 // 10]) for some in times]
    for place, mean in enumerate(means):
        print(f"byte {place:2}: {mean:8.1f} ns in the mean of {len(times[place])} tries")
    found, error = slope(means)
    print(f"slope {found:+.2f} ns a byte, with a standard error of {error:.2f}: {abs(found) / error:.1f} times it")


if __name__ == "__main__":
    main(sys.argv[1:])

#!/usr/bin/env python3
"""Counts what a short verify takes in the daemon beside a long one, and among its like: by valgrind,
over libexec/macaroond/x86-64-v2, or the program that LEVEL names.

A connection sends short verifies alone, or some beside each long one. What a short one takes there is
what the mix takes without what the long one takes by itself, where its reply is waited for. Only what
`replies_to` of mac_plain executes is counted, which answers what came together, and a count is the
difference of two runs, so that starting counts for nothing. It ends with 1 where a short one takes
too much.
"""
import pathlib
import re
import shutil
import socket
import subprocess
import sys
import tempfile

sys.path.insert(0, str(pathlib.Path(__file__).resolve().parents[1]))
from common import KEYS, programs
from common.daemon import frame, received
from measure import bench

import request

PROGRAM = bench.PROGRAM
ANSWERING = "--toggle-collect=mac_plain::answering::replies_to*"
# The bytes of a caveat that is long, in a request that its connection's thread still answers itself; and
# how often the same requests are sent.
LONG, FEW, MANY = 1_500, 40, 240
# How many short ones are beside each long one.
BESIDE = (3, 7, 15)
# The most that a short verify may take beside any other, of what it takes among its like.
RATIO_MAX = 1.5
GRANTED = frame(b"\x00")


def verify(*caveats):
    """A verify of a token with these caveats, which are facts or hold at its moment."""
    facts = [it for it in caveats if not it.startswith("time")]
    mint = request.mint("v2-binary", "bank", "http://mybank/", "we used our secret key", *caveats)
    return request.verify("bank", minted(mint), bench.MOMENT, *facts)


def minted(payload):
    """The token that the pipe gives for a mint, as the words of a request have it."""
    text = KEYS.read_text() + "\n" + payload.hex() + "\n"
    run = subprocess.run([PROGRAM, "pipe"], input=text, capture_output=True, text=True, check=True)
    return run.stdout.split()[1]


def counted(requests, times, ask):
    """The instructions that answering takes where a client asks these requests so many times."""
    with tempfile.TemporaryDirectory() as folder:
        path = folder + "/socket"
        words = ["serve", "--socket", path, "--keys", KEYS, "--workers", "1", "--accept", "1"]
        counting = ["valgrind", "--tool=callgrind", "--callgrind-out-file=/dev/null", ANSWERING]
        pipes = {"stdout": subprocess.PIPE, "stderr": subprocess.PIPE, "text": True}
        with subprocess.Popen([*counting, PROGRAM, *words], **pipes) as run:
            run.stdout.readline()
            with socket.socket(socket.AF_UNIX) as client:
                client.connect(path)
                ask(client, [frame(it) for it in requests] * times)
            _, said = run.communicate()
    return int(re.search(r"Collected : (\d+)", said)[1])


def ask_together(client, frames):
    """Sends all frames, and then reads a grant for each."""
    client.sendall(b"".join(frames))
    check(client, len(frames))


def ask_in_turn(client, frames):
    """Sends each frame once the one before it is granted."""
    for one in frames:
        client.sendall(one)
        check(client, 1)


def check(client, count):
    replies = received(client, len(GRANTED) * count)
    if replies != GRANTED * count:
        sys.exit(f"not each is granted: {replies[:40]}")


def each_time(requests, ask=ask_together):
    """The instructions that these requests take."""
    few, many = (counted(requests, times, ask) for times in (FEW, MANY))
    return (many - few) / (MANY - FEW)


def main():
    programs.stop_unless_built("macaroond")
    if not shutil.which("valgrind"):
        sys.exit("valgrind isn't there, which counts the instructions")
    short, long = verify(*bench.CAVEATS), verify("a" * LONG)
    alone, by_itself = each_time([short] * 8) / 8, each_time([long], ask_in_turn)
    print(f"a short verify among its like: {alone:,.0f} instructions; a long one by itself: {by_itself:,.0f}")
    ratios = {}
    for count in BESIDE:
        beside = (each_time([short] * count + [long]) - by_itself) / count
        ratios[count] = beside / alone
        print(f"a short one, {count} beside each long one: {beside:,.0f}, {ratios[count]:.2f} times as many (at most {RATIO_MAX})")
    sys.exit(max(ratios.values()) > RATIO_MAX)


if __name__ == "__main__":
    main()

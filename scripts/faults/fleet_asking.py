#!/usr/bin/env python3
"""Asks without pause whether tokens that were taken back are refused, and others granted.

    fleet_asking.py SOCKET COUNT FILE

FILE has a token of each line that is never taken back. Each line of standard input is another one
that was taken back everywhere, when it comes: from then on only a refusal with 29 is right. By so
many clients, each of which connects anew every second, so that it comes to all daemons. Ends once
its standard input ends, and prints what came of it, as JSON.
"""
import json
import os
import pathlib
import sys
import threading
import time

sys.path.insert(0, str(pathlib.Path(__file__).resolve().parents[1]))
import common  # noqa: F401  so that the client is found

from macaroond import Client, Disconnected, MacaroondError

REVOKED = 29
# For how many seconds a connection is used, and how long a reply may take: see scaling_asking.py.
USED, REPLY_WITHIN = 1.0, float(os.environ.get("SCALING_REPLY_WITHIN", 10.0))


class Tally:
    """What was asked, and what was wrong with the answers."""

    def __init__(self):
        self.lock, self.counts, self.wrong = threading.Lock(), {"refused": 0, "granted": 0, "again": 0}, []

    def add(self, what, count):
        with self.lock:
            self.counts[what] += count

    def note(self, fault):
        with self.lock:
            self.wrong.append(fault)

    def tell(self):
        return json.dumps({**self.counts, "wrong": self.wrong[:10], "wrongs": len(self.wrong)})


def round_of(client, kept, taken, tally):
    """Asks of each token once, and compares: those that were taken back before this began have to be refused."""
    due = [(token, None) for token in kept] + [(token, REVOKED) for token in list(taken)]
    verdicts = client.verify_many("shop", [(token, []) for token, _ in due])
    for (token, code), verdict in zip(due, verdicts, strict=True):
        tally.add("refused" if code else "granted", 1)
        if (verdict.code or None) != code:
            tally.note(f"{verdict.code} where {code} is due")


def ask(path, kept, taken, tally, is_over):
    """Asks until it is over; a fault of this script itself is told as one, too."""
    try:
        ask_on(path, kept, taken, tally, is_over)
    except Exception as fault:
        tally.note(f"an asker broke off: {fault!r}")


def ask_on(path, kept, taken, tally, is_over):
    while not is_over.is_set():
        begin = time.monotonic()
        try:
            with Client(path, timeout=REPLY_WITHIN, retry=True) as client:
                while time.monotonic() - begin < USED and not is_over.is_set():
                    round_of(client, kept, taken, tally)
                    time.sleep(0.01)
        except (Disconnected, OSError):
            tally.add("again", 1)
            time.sleep(0.05)
        except MacaroondError as fault:
            tally.note(repr(fault))


def main(path, count, file):
    kept, taken = pathlib.Path(file).read_text().split(), []
    tally, is_over = Tally(), threading.Event()
    asking = [threading.Thread(target=ask, args=(path, kept, taken, tally, is_over)) for _ in range(int(count))]
    for one in asking:
        one.start()
    for line in sys.stdin:
        taken.append(line.strip())
    is_over.set()
    for one in asking:
        one.join()
    print(tally.tell())


if __name__ == "__main__":
    main(*sys.argv[1:])

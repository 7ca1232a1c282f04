#!/usr/bin/env python3
"""Asks verifies without end, and compares each verdict with the one that is due.

    scaling_asking.py frames SOCKET COUNT          by so many clients of clients/python
    scaling_asking.py http ADDRESS FRAMES COUNT    over HTTP, at a path or a port

It ends once its standard input ends, and prints what came of it, as JSON. SCALING_REPLY_WITHIN says
how many seconds a reply may take, 10 if left out. Over HTTP the path is SCALING_PATH, else
/verify/bank, and tokens are minted at the socket FRAMES. They are minted under
`bank`, whose key may change: one is used for a second, and what comes of it later than LIFE seconds
after its mint isn't judged. Who gets no verdict, although the client sent twice, asks again, which
is counted; who gets none for PATIENCE seconds has lost a request.
"""
import contextlib
import http.client
import json
import os
import pathlib
import socket
import sys
import threading
import time

sys.path.insert(0, str(pathlib.Path(__file__).resolve().parents[1]))
import common  # noqa: F401  so that the client is found

from macaroond import Client, Disconnected, MacaroondError

# For how many seconds a token is used, and after how many its key may be dropped.
USED, LIFE = 1.0, 3.0
# How many seconds somebody asks again who gets no verdict, the pause between, and how many seconds
# a reply may take on a machine that does other work too.
PATIENCE, PAUSE, REPLY_WITHIN = 10.0, 0.05, float(os.environ.get("SCALING_REPLY_WITHIN", 10.0))
# How many verifies go out together, behind those that go out alone, and the pause behind both.
TOGETHER, BETWEEN = 30, 0.005
HELD, LACKING = ["method = GET"], ["method = PUT"]
FIELDS = ("asked", "minted", "mints_repeated", "repeated", "late", "lost")


class Tally:
    """What came of the requests of all askers, and what was wrong with it."""

    def __init__(self):
        self.lock = threading.Lock()
        self.counts = dict.fromkeys(FIELDS, 0)
        self.wrong = []
        self.longest = 0.0

    def add(self, field, count=1):
        with self.lock:
            self.counts[field] += count

    def note_wrong(self, faults):
        with self.lock:
            self.wrong += faults

    def note_wait(self, seconds):
        with self.lock:
            self.longest = max(self.longest, seconds)

    def tell(self):
        return json.dumps({**self.counts, "longest": self.longest, "wrong": self.wrong[:10], "wrongs": len(self.wrong)})


class Asker:
    """One who asks, with tokens of its own. `transport` gives a verdict as two parts."""

    def __init__(self, number, tally, minter, transport):
        self.identifier, self.tally = f"asker-{number}", tally
        self.minter, self.transport = minter, transport
        self.minted = 0.0
        self.steady = self.made("shop")

    def made(self, key):
        """A new token under the key of this name, which is asked for until it comes."""
        token = self.patiently(lambda: self.minter.mint(key, self.identifier, "", HELD), "mints_repeated")
        self.tally.add("minted")
        return token

    def patiently(self, ask, field="repeated"):
        """What comes of asking, again while there is no reply; None where there is none in time."""
        begin = time.monotonic()
        while True:
            try:
                return ask()
            except (Disconnected, ConnectionError, http.client.HTTPException):
                self.tally.add(field)
                if time.monotonic() - begin > PATIENCE:
                    self.tally.add("lost")
                    return None
                time.sleep(PAUSE)
            except MacaroondError as fault:
                # Such an error says more than that a connection ended: nothing here may come to it.
                self.tally.note_wrong([repr(fault)])
                return None
            finally:
                self.tally.note_wait(time.monotonic() - begin)

    def kinds(self):
        """Each token and facts to be asked, with what is due: granted, a caveat, another key."""
        if time.monotonic() - self.minted > USED:
            self.minted = time.monotonic()
            self.token = self.made("bank")
        if self.token is None or self.steady is None:
            return []
        granted = ("granted", self.identifier)
        return [(self.token, HELD, granted), (self.token, LACKING, ("refused", 24)), (self.steady, HELD, ("refused", 23))]

    def go(self, is_over):
        """Asks until it is over; a fault of this script itself is told as one, too."""
        try:
            self.go_on(is_over)
        except Exception as fault:
            self.tally.note_wrong([f"an asker broke off: {fault!r}"])

    def go_on(self, is_over):
        """One verify alone after the other, then many together, where the transport can."""
        while not is_over.is_set():
            for token, facts, due in self.kinds():
                self.judge([due], self.patiently(lambda: [self.transport.outcome(token, facts)]))
            many = self.kinds() * (TOGETHER // 3)
            if self.transport.takes_many and many:
                asked = [(token, facts) for token, facts, _ in many]
                self.judge([due for _, _, due in many], self.patiently(lambda: self.transport.outcomes(asked)))
            time.sleep(BETWEEN)

    def judge(self, due, came):
        """Compares what came with what is due, but where a token may have outlived its key."""
        if came is None:
            return
        is_late = time.monotonic() - self.minted > LIFE
        self.tally.add("late" if is_late else "asked", len(came))
        if not is_late and came != due:
            differing = [(got, wanted) for got, wanted in zip(came, due) if got != wanted]
            self.tally.note_wrong([f"{got} where {wanted} is due" for got, wanted in differing])


class Frames:
    """Verifies by clients/python, which sends each once more where its connection ends."""

    takes_many = True

    def __init__(self, client):
        self.client = client

    def outcome(self, token, facts):
        return self.said(self.client.verify("bank", token, facts))

    def outcomes(self, asked):
        return [self.said(verdict) for verdict in self.client.verify_many("bank", asked)]

    def said(self, verdict):
        return ("granted", verdict.identifier) if verdict else ("refused", verdict.code)


class Unix(http.client.HTTPConnection):
    """A connection over HTTP at a path, or at a port of this machine."""

    def __init__(self, address):
        super().__init__("localhost", timeout=REPLY_WITHIN)
        self.address = address

    def connect(self):
        if self.address.isdigit():
            self.sock = socket.create_connection(("127.0.0.1", int(self.address)), REPLY_WITHIN)
            return
        self.sock = socket.socket(socket.AF_UNIX)
        self.sock.settimeout(REPLY_WITHIN)
        self.sock.connect(self.address)


class Http:
    """Verifies over HTTP, on a connection that is made anew where it ends."""

    takes_many = False
    # What a status says where the token's signature or a caveat is at fault.
    CODES = {401: 23, 403: 24}

    def __init__(self, address):
        self.address, self.path = address, os.environ.get("SCALING_PATH", "/verify/bank")
        self.connection = Unix(address)

    def outcome(self, token, facts):
        method = facts[0].split(" = ")[1]
        headers = {"Authorization": f"Bearer {token}", "Macaroon-Fact": facts[0]}
        try:
            self.connection.request(method, self.path, headers=headers)
            response = self.connection.getresponse()
            response.read()
        except (OSError, http.client.HTTPException) as fault:
            self.connection.close()
            raise Disconnected(str(fault)) from fault
        if response.status >= 500:
            raise Disconnected(f"status {response.status}")
        return self.said(response)

    def said(self, response):
        if response.status == 200:
            return "granted", response.getheader("Macaroon-Identifier")
        return "refused", self.CODES.get(response.status, f"status {response.status}")


def askers(words, tally, stack):
    kind, *places, count = words
    for number in range(int(count)):
        client = stack.enter_context(Client(places[-1], timeout=REPLY_WITHIN, retry=True))
        yield Asker(number, tally, client, Frames(client) if kind == "frames" else Http(places[0]))


def main(words):
    if len(words) < 3 or words[0] not in ("frames", "http"):
        sys.exit(__doc__)
    tally, is_over = Tally(), threading.Event()
    with contextlib.ExitStack() as stack:
        made = list(askers(words, tally, stack))
        threads = [threading.Thread(target=one.go, args=(is_over,)) for one in made]
        for one in threads:
            one.start()
        sys.stdin.read()
        is_over.set()
        for one in threads:
            one.join()
    print(tally.tell())


if __name__ == "__main__":
    main(sys.argv[1:])

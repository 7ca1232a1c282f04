#!/usr/bin/env python3
"""Runs of `macaroond listen` whose tokens are taken back while requests come, over frames and over HTTP.

    revoking.py [--asked COUNT]     the checks, under so many requests (100,000)
    revoking.py --million [ROUNDS]  the rate of verifies beside lists of ten and of a million lines, as a ratio to that
                                    without one, in so many short rounds of all three (40). It prints two lines, one of
                                    daemons with `--remember 0`, which compute each signature, and one of daemons that
                                    remember the token. Each has the median of the rates without a list, and those of the
                                    ratios with ten lines and with a million, of the rate and of the processor time that a
                                    verify takes. A round is timed anew where the machine's host took more than a few
                                    hundredths of the processors. It fails where a rate with a million is below 0.98

The list is changed as docs/OPERATING.md says, by a new file that is moved over the old one. The gate makes the
checks under fewer requests.
"""
import argparse
import contextlib
import itertools
import multiprocessing
import os
import pathlib
import random
import re
import sys
import tempfile
import time

sys.path.insert(0, str(pathlib.Path(__file__).resolve().parents[1]))
from check import changing_keys
from check.changing_keys import AWAITED, GRANTED, SECRETS, UP_WITHIN, Asker, Probe, json_token, lines
from common.daemon import Daemon, awaited, begun, come_to, connected, ending, frame, listening, put_keys, refused, serve_command
from common.rows import judged, of_each
from common.tokens import text_of, v1, v2
from measure import rounds

import request

# The refusals of a token that was taken back, and of a caveat; and what a status over HTTP stands for here.
REVOKED, UNSATISFIED = 29, 24
MEANT = {b"200": GRANTED, b"401": REVOKED}
# How many requests go on while tokens are taken back, at least: in the gate, and else.
ASKED_IN_GATE, ASKED = 10_000, 100_000
# How many requests are sent at once over HTTP.
WEB_BATCH = 50
# Facts that make a request longer than a loop answers, with a token in JSON that is dear to verify.
DEAR_CAVEATS, WIDE_FACTS = changing_keys.DEAR_CAVEATS, changing_keys.WIDE_FACTS
# What a file says that takes nothing back.
NONE = "# none\n"
# With which words a daemon remembers no token, and the one that is asked for.
WAYS = {"with --remember 0": ["--remember", "0"], "with tokens remembered": []}
# How many lines the lists have that are measured, what is left of the rate at least, and in how many rounds.
TEN, MILLION, RATE_LEAST, ROUNDS = 10, 1_000_000, 0.98, 40
STATUS = re.compile(rb"HTTP/1\.1 (\d{3}) ")
# How the daemon tells how many lines are up.
NUMBER = re.compile(rb"^macaroond_revoked (\d+)$", re.M)


def taken_back(*pairs):
    """The text of a list, of names and identifiers."""
    return "".join(f"revoked {name} {identifier.hex()}\n" for name, identifier in pairs)


class Revoking(Daemon):
    """A daemon with a list of tokens that were taken back, which listens over HTTP too."""

    def __init__(self, folder, text, *words):
        self.revoked, self.http = pathlib.Path(folder, "revoked"), f"{folder}/http"
        put_keys(self.revoked, text)
        keys = lines(bank=["old"], shop=["other"])
        web = ["--http", f"unix:{self.http}", "--http-facts", "header"]
        super().__init__(folder, keys, "--workers", "2", "--revoked", str(self.revoked), *web, *words)

    def take_back(self, text):
        put_keys(self.revoked, text)

    def lines_up(self):
        """How many lines are up, as it tells over HTTP."""
        with connected(self.http) as stream:
            stream.sendall(b"GET /metrics HTTP/1.1\r\nHost: here\r\nConnection: close\r\n\r\n")
            told = b"".join(iter(lambda: stream.recv(65_536), b""))
        return [int(count) for count in NUMBER.findall(told)]

    def told_of_list(self):
        """What it has told of its list: how many lines were read anew, or why none were."""
        fields = [line.fields for line in self.lines() if line.fields.get("file") == str(self.revoked)]
        return [it.get("fault", "read") for it in fields]


def revoking(text, *words):
    """A folder of its own for such a daemon, as long as it holds."""
    folder = tempfile.TemporaryDirectory()
    daemon = Revoking(folder.name, text, *words)
    return folder, daemon.start()


# ---- what is asked

GONE, STAYS = b"alice:1", b"alice:2"


def told(secret, identifier, *caveats):
    """A token of format one in binary, as a request has it."""
    return "hex:" + v1(SECRETS[secret], identifier, [caveat.encode() for caveat in caveats], b"here").hex()


def plain_verify(name, secret, identifier, *caveats, facts=("a = 1",)):
    return frame(request.verify(name, told(secret, identifier, *caveats), 0, *facts))


def dear_verify(name, secret, identifier, *caveats):
    """The same of a token in JSON, by a request that is wide."""
    made = json_token(secret, *caveats, *DEAR_CAVEATS, identifier=identifier.decode())
    return frame(request.verify(name, made, 0, "a = 1", *DEAR_CAVEATS, *WIDE_FACTS))


def web_verify(name, secret, identifier, *caveats):
    """The same over HTTP."""
    token = text_of(v2(SECRETS[secret], identifier, [caveat.encode() for caveat in caveats], b"here"))
    fields = f"Host: here\r\nAuthorization: Macaroon {token}\r\nMacaroon-Fact: a = 1"
    return f"GET /verify/{name} HTTP/1.1\r\n{fields}\r\n\r\n".encode()


def requests_of(verify, gone, stays):
    """Requests with the replies that each may have: the token that is taken back, one that was narrowed from it,
    another one of the same holder, and one of another name with the same identifier."""
    return {
        verify("bank", "old", GONE): gone,
        verify("bank", "old", GONE, "a = 1"): gone,
        verify("bank", "old", STAYS): stays,
        verify("shop", "other", GONE, "a = 1"): stays,
    }


class FrameAsker(Asker):
    """A connection that notes when it sent the last of each of its requests that were granted."""

    def __init__(self, path, requests, batch):
        self.sent, self.granted = 0.0, [0.0] * len(requests)
        super().__init__(path, requests, batch)

    def ask(self):
        self.sent = time.monotonic()
        super().ask()

    def look(self, one, codes, may):
        super().look(one, codes, may)
        if GRANTED in codes:
            self.granted[one] = self.sent


class WebAsker(FrameAsker):
    """The same over HTTP: a status stands for a reply's code."""

    HELLO = b""

    def ask(self):
        count, self.sent = self.rounds * len(self.requests), time.monotonic()
        self.stream.sendall(b"".join(self.requests) * self.rounds)
        data = b""
        while data.count(b"\r\n\r\n") < count and (piece := self.stream.recv(65_536)):
            data += piece
        codes = bytes(MEANT.get(status, 255) for status in STATUS.findall(data))
        if len(codes) != count:
            self.wrong.append(f"{len(codes)} responses to {count} requests")
        self.look_at_each(codes, count)


class Load(changing_keys.Load):
    """Connections that ask all the time, plain, wide and over HTTP."""

    def __init__(self, daemon):
        frames = {GRANTED, REVOKED}, {GRANTED}
        makers = [
            *[(FrameAsker, daemon.path, requests_of(plain_verify, *frames), changing_keys.PLAIN_BATCH)] * 3,
            *[(FrameAsker, daemon.path, requests_of(dear_verify, *frames), changing_keys.WIDE_BATCH)] * 2,
            *[(WebAsker, daemon.http, requests_of(web_verify, *frames), WEB_BATCH)] * 2,
        ]
        self.begin([maker(path, requests, batch) for maker, path, requests, batch in makers])

    def await_each(self):
        """Once each connection was answered."""
        return awaited(lambda: all(one.asked for one in self.askers) or self.wrong())

    def await_turned(self):
        """Once each connection was told by its last replies that the tokens are gone."""
        return awaited(lambda: all(one.last[:2] == [REVOKED] * 2 for one in self.askers) or self.wrong())


def under_load(asked):
    """A token is taken back while requests go on, and given back."""
    folder, daemon = revoking(NONE)
    with folder:
        running = Load(daemon)
        try:
            running.await_each()
            running.await_asked(asked // 3)
            begin = time.monotonic()
            daemon.take_back(NONE + taken_back(("bank", GONE)))
            running.await_turned()
            running.await_asked(2 * asked // 3)
            # Each that asks has what is up once it has asked once more.
            time.sleep(UP_WITHIN)
            late = [one for one in running.askers for at in (0, 1) if one.granted[at] > begin + UP_WITHIN]
            yield "each connection is told within two seconds", len(late), 0
            yield "and turned once", [one.turned[:2] for one in running.askers], [[1, 1]] * 7
            yield "new connections are told so", [*answers(daemon)], [REVOKED, REVOKED, GRANTED, GRANTED] * 2
            daemon.take_back(NONE)
            probe = Probe(daemon.path)
            yield "it is given back in time", probe.await_reply(plain_verify("bank", "old", GONE), GRANTED, UP_WITHIN), True
            running.await_asked(asked)
        finally:
            running.end()
            daemon.close()
        yield "nothing lost, out of order or wrong", running.wrong(), []
        yield "no other token was refused", [sum(one.turned[2:]) for one in running.askers], [0] * 7
        yield "as many were asked", running.asked() >= asked, True


def answers(daemon):
    """What new connections are told, over frames and over HTTP."""
    for asked in requests_of(plain_verify, set(), set()):
        yield Probe(daemon.path).ask(asked)
    for asked in requests_of(web_verify, set(), set()):
        one = WebAsker(daemon.http, {asked: {GRANTED, REVOKED}}, 1)
        one.ask()
        yield one.last[0]


def order_of_refusals():
    """It is told behind the right signature, and before any caveat; of a name without keys as ever."""
    folder, daemon = revoking(taken_back(("bank", GONE), ("none", GONE)))
    with folder:
        probe = Probe(daemon.path)
        try:
            yield "before a caveat", probe.ask(plain_verify("bank", "old", GONE, "b = 2", facts=())), REVOKED
            yield "another one's caveat", Probe(daemon.path).ask(plain_verify("bank", "old", STAYS, "b = 2", facts=())), UNSATISFIED
            yield "behind the signature", Probe(daemon.path).ask(plain_verify("bank", "new", GONE)), changing_keys.BAD_SIGNATURE
            yield "behind the name", Probe(daemon.path).ask(plain_verify("none", "old", GONE)), changing_keys.NO_NAME
        finally:
            daemon.close()


# ---- files that are no lists

FAULTY = [
    "revoked bank 0\n", "revoked bank 0g\n", "revoked bank\n", "revoked bank 00 00\n", "revoked b*nk 00\n", "revoked  00\n",
    "revoke bank 00\n", "Revoked bank 00\n", " revoked bank 00\n", "revoked\tbank\t00\n", "revoked bank 00\r\n", "key bank 00\n",
    "alice:1\n", "revoked " + "n" * 65 + " 00\n", NONE + "revoked bank 616c6963653a32\nrevoked bank x\n", "\x00", "ä\n",
    "", "\n", "# no line\n",
]


def faulty_files():
    """Forty faulty files, one after the other: none changes anything."""
    text = taken_back(("bank", GONE))
    folder, daemon = revoking(text)
    with folder:
        try:
            probes = [Probe(daemon.path) for _ in range(2)]
            gone, stays = plain_verify("bank", "old", GONE), plain_verify("bank", "old", STAYS)
            for number, faulty in enumerate(itertools.chain(FAULTY, FAULTY)):
                daemon.take_back(faulty)
                awaited(lambda due=number + 1: len(daemon.told_of_list()) >= due, patience=10)
                yield f"{faulty[:30]!r}", (probes[0].ask(gone), probes[1].ask(stays)), (REVOKED, GRANTED)
            yield "each is told", len(daemon.told_of_list()), 2 * len(FAULTY)
            yield "and none is read", "read" in daemon.told_of_list(), False
            daemon.revoked.unlink()
            time.sleep(AWAITED)
            yield "a missing file", (probes[0].ask(gone), probes[1].ask(stays)), (REVOKED, GRANTED)
            daemon.take_back(taken_back(("bank", STAYS)))
            yield "a good one behind them", probes[1].await_reply(stays, REVOKED, UP_WITHIN), True
            yield "has its own tokens alone", probes[0].ask(gone), GRANTED
        finally:
            daemon.close()


def emptied():
    """A list that has lost all its lines is taken where an operator or the list itself says that this is meant."""
    text, gone = taken_back(("bank", GONE)), plain_verify("bank", "old", GONE)
    for what, none, words in (("an operator", "", ["--allow-empty-revoked"]), ("the list", NONE, [])):
        folder, daemon = revoking(text, *words)
        with folder:
            try:
                probe = Probe(daemon.path)
                yield f"{what}: before", (probe.ask(gone), come_to(daemon.lines_up, [1])), (REVOKED, [1])
                daemon.take_back(none)
                yield f"{what}: taken", probe.await_reply(gone, GRANTED, UP_WITHIN), True
                yield f"{what}: no line is up", come_to(daemon.lines_up, [0]), [0]
                daemon.take_back(text + taken_back(("bank", STAYS)))
                yield f"{what}: and back", probe.await_reply(gone, REVOKED, UP_WITHIN), True
                yield f"{what}: two lines are up", come_to(daemon.lines_up, [2]), [2]
            finally:
                daemon.close()


def of_others():
    """A list that others may read isn't taken, and is once they may not."""
    folder, daemon = revoking(taken_back(("bank", GONE)))
    with folder:
        try:
            probe, gone, stays = Probe(daemon.path), plain_verify("bank", "old", GONE), plain_verify("bank", "old", STAYS)
            beside = daemon.folder / "beside"
            put_keys(beside, taken_back(("bank", STAYS)))
            beside.chmod(0o644)
            beside.rename(daemon.revoked)
            told = awaited(daemon.told_of_list, patience=10)
            yield "it is told", [("mode 644" in one, "chmod 600" in one) for one in told], [(True, True)]
            yield "and the one before stays", (probe.ask(gone), probe.ask(stays)), (REVOKED, GRANTED)
            daemon.revoked.chmod(0o600)
            yield "it is taken", probe.await_reply(stays, REVOKED, UP_WITHIN), True
            yield "with its own tokens alone", probe.ask(gone), GRANTED
        finally:
            daemon.close()


def at_the_start():
    """A list that has a fault or is missing keeps a daemon from starting, and `serve` has one too."""
    with tempfile.TemporaryDirectory() as folder:
        keys, revoked, path = (f"{folder}/{name}" for name in ("keys", "revoked", "socket"))
        put_keys(keys, lines(bank=["old"], shop=["other"]))
        missing = refused(path, "--revoked", revoked, keys=keys)
        due = f"error: {revoked}: there is no list of tokens that were taken back\n"
        yield "a missing one", (missing.returncode, missing.stderr), (3, due)
        put_keys(revoked, NONE + "revoked bank\n")
        faulty = refused(path, "--revoked", revoked, keys=keys)
        due = f"error: {revoked}: line 2: the line is not of the form `revoked NAME HEX`\n"
        yield "a faulty one", (faulty.returncode, faulty.stderr), (1, due)
        put_keys(revoked, taken_back(("bank", GONE)))
        with ending(begun([*serve_command(path, accept=1, keys=keys), "--revoked", revoked])):
            probe = Probe(path)
            asked = [plain_verify("bank", "old", GONE), plain_verify("bank", "old", STAYS), plain_verify("shop", "other", GONE)]
            yield "serve", [probe.ask(one) for one in asked], [REVOKED, GRANTED, GRANTED]


def faults(asked=ASKED_IN_GATE):
    """What went otherwise than it must, and how many checks there were."""

    def taken_back_under_load():
        return under_load(asked)

    return judged(of_each(taken_back_under_load, order_of_refusals, faulty_files, emptied, of_others, at_the_start))


# ---- what a long list costs

def drawn():
    """An identifier as a mint draws it, another each time: 128 bits in hexadecimal."""
    return random.randbytes(16).hex().encode()


def write_list(path, count):
    """A list of so many identifiers, none of which is asked for."""
    with open(path, "w") as file:
        os.chmod(path, 0o600)
        for _ in range(count):
            file.write(f"revoked bank {drawn().hex()}\n")


def medians(clients, lists, times, words):
    """The median of the rates without a list, and for each list those of its ratios, of rate and time, in a round."""
    with contextlib.ExitStack() as stack:
        ways = [[], *[["--revoked", path] for path in lists.values()]]
        daemons = [stack.enter_context(listening(*way, *words)) for way in ways]
        without, ratios = rounds.compared(clients, daemons, times)
    return without, dict(zip(lists, ratios))


def compare(times):
    """Prints what lists leave of the rate without one, in each way, and gives the script's status."""
    with tempfile.TemporaryDirectory() as folder, multiprocessing.Pool(4) as clients:
        lists, least = {count: f"{folder}/{count}" for count in (TEN, MILLION)}, 1.0
        for count, path in lists.items():
            write_list(path, count)
        for way, words in WAYS.items():
            without, ratios = medians(clients, lists, times, words)
            told = "; ".join(f"{of:.3f} of it at {at:.3f} of the time with {count:,} lines" for count, (of, at) in ratios.items())
            print(f"{way}: {without:,.0f} verifies a second without a list; {told}", flush=True)
            least = min(least, ratios[MILLION][0])
    return 0 if least >= RATE_LEAST else 1


def main():
    words = argparse.ArgumentParser(description=__doc__, formatter_class=argparse.RawDescriptionHelpFormatter)
    words.add_argument("--asked", type=int, default=ASKED)
    words.add_argument("--million", type=int, nargs="?", const=ROUNDS, metavar="ROUNDS")
    given = words.parse_args()
    if given.million:
        return compare(given.million)
    wrong, count = faults(given.asked)
    for fault in wrong:
        print(f"FAULT: {fault}")
    print(f"{count - len(wrong)} of {count} are as they must be")
    return 1 if wrong else 0


if __name__ == "__main__":
    sys.exit(main())

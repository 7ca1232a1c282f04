"""Runs of `macaroond listen` whose key file changes while requests come, over sockets.

Each change is made as docs/OPERATING.md says, by a new file that is moved over the old one, but for
those that are there to show what comes of other ways.
"""
import contextlib
import itertools
import json
import threading
import time
from concurrent.futures import ThreadPoolExecutor

from check.daemon_rows import HELLO
from common.daemon import awaited, connected, frame, received, with_keys
from common.rows import judged
from common.tokens import signed, text_of, v1

import request

# How many seconds may pass until a change is up, and how long a change that must not be is awaited.
UP_WITHIN, AWAITED = 2, 1.7
# How many seconds anything else may take, on a machine that is busy with other work.
PATIENCE = 60
# The first byte of a reply: granted, and refused for want of the name or for a wrong signature.
GRANTED, NO_NAME, BAD_SIGNATURE = 0, 18, 23
# A reply of one byte in version two: its length, its place and itself.
REPLY = 4 + 8 + 1
# How many requests go on while a key changes, at least, and how many are sent at once.
REQUESTS, PLAIN_BATCH, WIDE_BATCH = 100_000, 500, 20
# Facts that make a request longer than a loop answers, with a token in JSON that is dear to verify.
WIDE_FACTS = ["a" * 250] * 20
DEAR_CAVEATS = [f"caveat {number}" for number in range(20)]
# How many faulty files stand in a row, before how many daemons.
FAULTY, DAEMONS = 40, 8
# How many seconds a file may lie untouched and still be one that is being written, and how many runs may be held up longer.
RESTS, HELD_UP = 0.4, 8
# How many times the file is swapped, and after how many the daemon gets time to take it.
SWAPS, SWAPS_AT_ONCE = 1000, 250
# What a name has.
NAME_BYTES = "letters, digits, dots, underscores or dashes"
SECRETS = {name: f"the long secret {name}".encode() for name in ("old", "new", "other")}


def lines(**keys):
    """The text of a key file, of the secrets that each name has."""
    pairs = [(name, secret) for name, secrets in keys.items() for secret in secrets]
    return "".join(f"key {name} {SECRETS[secret].hex()}\n" for name, secret in pairs)


def token(secret, *caveats):
    """A token of format one in binary."""
    return "hex:" + v1(SECRETS[secret], b"alice", [caveat.encode() for caveat in caveats], b"here").hex()


def json_token(secret, *caveats, identifier="alice"):
    """The same in JSON."""
    signature = text_of(signed(SECRETS[secret], identifier.encode(), [caveat.encode() for caveat in caveats]))
    told = {"v": 2, "l": "here", "i": identifier, "c": [{"i": caveat} for caveat in caveats], "s64": signature}
    return json.dumps(told)


def verify(name, secret):
    return frame(request.verify(name, token(secret), 0))


def dear_verify(name, secret):
    return frame(request.verify(name, json_token(secret, *DEAR_CAVEATS), 0, *DEAR_CAVEATS, *WIDE_FACTS))


def listening(text):
    """A daemon with a key file of its own."""
    return with_keys(text, "--workers", "2")


class Asker:
    """A connection that asks these requests again and again, many at once, and looks at each reply.

    `allowed` has the replies that each of them may have. `turned` says how often the replies to one
    of them changed, and `wrong` what was not as it must be.
    """

    HELLO = HELLO

    def __init__(self, path, requests, batch):
        self.stream = connected(path)
        self.stream.sendall(self.HELLO)
        self.requests = list(requests)
        self.allowed = list(requests.values())
        self.rounds = batch // len(self.requests)
        self.asked, self.last = 0, [None] * len(self.requests)
        self.turned, self.wrong = [0] * len(self.requests), []

    def ask(self):
        """Sends a batch, and takes its replies."""
        count = self.rounds * len(self.requests)
        self.stream.sendall(b"".join(self.requests) * self.rounds)
        data = received(self.stream, count * REPLY)
        codes = data[REPLY - 1 :: REPLY]
        due = b"".join((9).to_bytes(4, "big") + place.to_bytes(8, "big") + bytes([code])
                       for place, code in zip(itertools.count(self.asked), codes))
        if len(codes) < count or data != due:
            self.wrong.append(f"replies lost or out of order behind {self.asked}")
        self.look_at_each(codes, count)

    def look_at_each(self, codes, count):
        """Looks at the replies to a batch."""
        for one, may in enumerate(self.allowed):
            self.look(one, codes[one :: len(self.requests)], may)
        self.asked += count

    def look(self, one, codes, may):
        """Looks at the replies to one of the requests, in the order of their coming."""
        if not set(codes) <= may:
            self.wrong.append(f"request {one} is answered {sorted(set(codes) - may)}")
        if not codes:
            return
        changes = sum(codes.count(bytes(pair)) for pair in itertools.permutations(sorted(may), 2))
        self.turned[one] += changes + (self.last[one] not in (None, codes[0]))
        self.last[one] = codes[-1]

    def close(self):
        self.stream.close()


class Load:
    """Connections that ask all the time, plain and wide, each in a thread of its own."""

    def __init__(self, path, plain, wide):
        askers = [Asker(path, plain, PLAIN_BATCH) for _ in range(3)]
        self.begin(askers + [Asker(path, wide, WIDE_BATCH) for _ in range(2)])

    def begin(self, askers):
        self.askers, self.is_over, self.faults = askers, False, []
        self.threads = [threading.Thread(target=self.go_on, args=(one,)) for one in self.askers]
        for one in self.threads:
            one.start()

    def go_on(self, asker):
        try:
            while not self.is_over and not asker.wrong:
                asker.ask()
        except OSError as fault:
            self.faults.append(repr(fault))

    def asked(self):
        return sum(one.asked for one in self.askers)

    def await_asked(self, count):
        awaited(lambda: self.asked() >= count or self.wrong())

    def await_batch(self):
        """Waits until each connection has begun and ended a batch from now on; one that is under way doesn't count."""
        due = [one.asked + 2 * one.rounds * len(one.requests) for one in self.askers]
        awaited(lambda: all(one.asked >= count for one, count in zip(self.askers, due)) or self.wrong())

    def wrong(self):
        return self.faults + [wrong for one in self.askers for wrong in one.wrong]

    def end(self):
        self.is_over = True
        for one in self.threads:
            one.join()
        for one in self.askers:
            one.close()


@contextlib.contextmanager
def load(path, plain, wide):
    running = Load(path, plain, wide)
    try:
        yield running
    finally:
        running.end()


class Probe:
    """A connection that asks one request at a time."""

    def __init__(self, path):
        self.stream = connected(path)

    def ask(self, asked):
        self.stream.sendall(asked)
        return received(self.stream, 5)[-1]

    def seconds_until(self, asked, due):
        """How long it takes until this reply comes, and `PATIENCE` at most."""
        begin = time.monotonic()
        while self.ask(asked) != due and time.monotonic() < begin + PATIENCE:
            time.sleep(0.005)
        return time.monotonic() - begin

    def await_reply(self, asked, due, within=PATIENCE):
        """Whether this reply comes in time."""
        return self.seconds_until(asked, due) < within


def a_change(what, before, after, code_before, code_after):
    """A key is dropped or added while requests go on."""
    asked, dear = verify("bank", "old"), dear_verify("bank", "old")
    stays, dear_stays = verify("shop", "other"), dear_verify("shop", "other")
    both = {code_before, code_after}
    with listening(before) as listener:
        probe = Probe(listener.path)
        yield f"{what}: before", probe.ask(asked), code_before
        plain = {asked: both, stays: {GRANTED}, verify("none", "old"): {NO_NAME}}
        with load(listener.path, plain, {dear: both, dear_stays: {GRANTED}}) as running:
            running.await_asked(REQUESTS // 2)
            listener.put_keys(after)
            in_time = probe.await_reply(asked, code_after, UP_WITHIN)
            yield f"{what}: up in time, on the same connection", in_time, True
            yield f"{what}: on a new one", Probe(listener.path).ask(asked), code_after
            running.await_asked(REQUESTS)
            # Each that asks has what is up once it has asked once more.
            time.sleep(0.2)
        yield f"{what}: nothing lost, out of order or wrong", running.wrong(), []
        turns = [one.turned[0] for one in running.askers]
        yield f"{what}: each connection turned once", turns, [1] * 5
        yield f"{what}: to what is up", {one.last[0] for one in running.askers}, {code_after}
        yield f"{what}: as many were asked", running.asked() >= REQUESTS, True
        told = f"names: {len(names(after))}"
        yield f"{what}: told once", listener.await_told(1), [told]


def names(text):
    return {line.split()[1] for line in text.splitlines()}


def dropped():
    before, after = lines(bank=["new", "old"], shop=["other"]), lines(bank=["new"], shop=["other"])
    yield from a_change("a key dropped", before, after, GRANTED, BAD_SIGNATURE)


def added():
    before, after = lines(shop=["other"]), lines(shop=["other"], bank=["old"])
    yield from a_change("a key added", before, after, NO_NAME, GRANTED)


def faulty_files():
    """Key files that are no key files, with what is told of each."""
    texts = {
        "key bank 00\nkey shop\n": "line 2: the line is not of the form `key NAME HEX`",
        "key b*nk 00\n": f"line 1: the name is not 1 to 64 {NAME_BYTES}",
        "\nkey bank 0\n": "line 2: the secret is not in hexadecimal, two digits a byte",
        "# none\nkey bank \n": "line 2: the secret is empty",
        "key bank 00\nkey bank 01\nkey bank 02\n": "line 3: the name stands on two earlier lines",
        "": "the key file has no key",
        "# no key\n": "the key file has no key",
        "#" * (16 * 2**20) + "\n": "the key file is longer than a key file may be",
    }
    return list(texts.items())


def one_row_of_faulty(first):
    """Faulty files before one daemon, each of them another than the one before."""
    files = faulty_files()
    row = [files[(first + number) % len(files)] for number in range(FAULTY // DAEMONS)]
    asked = verify("bank", "old")
    with listening(lines(bank=["old"])) as listener:
        probe, due = Probe(listener.path), []
        for text, why in row:
            listener.put_keys(text)
            due.append(why)
            listener.await_told(len(due))
            yield "faulty files: the key stays", probe.ask(asked), GRANTED
        time.sleep(AWAITED)
        yield "faulty files: each is told once", listener.told_of_keys(), due
        listener.keys.unlink()
        yield "a missing file", listener.await_told(len(due) + 1)[-1], "there is no key file"
        listener.keys.mkdir()
        yield "a folder", listener.await_told(len(due) + 2)[-1], "the key file can't be read"
        yield "a folder: the key stays", probe.ask(asked), GRANTED
        listener.keys.rmdir()
        listener.put_keys(lines(bank=["new"]))
        yield "a good file behind them", probe.await_reply(asked, BAD_SIGNATURE), True
        yield "is told, too", listener.await_told(len(due) + 3)[-1], "names: 1"


def swapped():
    """The file is swapped many times between two good ones: each reply is right under one of them."""
    one, other = lines(bank=["old"], shop=["other"]), lines(bank=["new"], shop=["other"])
    either = {GRANTED, BAD_SIGNATURE}
    plain = {verify("bank", "old"): either, verify("bank", "new"): either}
    plain[verify("shop", "other")] = {GRANTED}
    wide = {dear_verify("bank", "old"): either, dear_verify("bank", "new"): either}
    with listening(one) as listener:
        probe = Probe(listener.path)
        with load(listener.path, plain, wide) as running:
            for swaps in range(SWAPS // SWAPS_AT_ONCE):
                for number in range(SWAPS_AT_ONCE):
                    listener.put_keys(other if (number + swaps) % 2 else one)
                    time.sleep(0.0005)
                last, gone = ("new", "old") if swaps % 2 == 0 else ("old", "new")
                is_gone = probe.await_reply(verify("bank", gone), BAD_SIGNATURE)
                yield "swapped: the last is up", is_gone, True
                yield "swapped: and grants", probe.ask(verify("bank", last)), GRANTED
            running.await_batch()
        yield "swapped: each reply is right under one", running.wrong(), []
        yield "swapped: never both at once", both_at_once(running), []


def both_at_once(running):
    """The connections whose last replies grant or refuse tokens of both keys."""
    return [one.last[:2] for one in running.askers if one.last[0] == one.last[1]]


def write_slowly(keys, text, probe, asked):
    """Writes a file piece by piece, and asks meanwhile: the replies, and how long the file lay untouched at most."""
    replies, longest, last = set(), 0, time.monotonic()
    with open(keys, "w") as file:
        for begin in range(0, len(text), 12):
            file.write(text[begin : begin + 12])
            file.flush()
            longest, last = max(longest, time.monotonic() - last), time.monotonic()
            while time.monotonic() < last + 0.2:
                replies.add(tuple(map(probe.ask, asked)))
                time.sleep(0.01)
    return replies, max(longest, time.monotonic() - last)


def written_in_place():
    """A file that is written in place, slowly: it is empty first, and has lines that are cut.

    Where this machine held the writer up, the file did rest for a while. That run says nothing, and another one is made.
    """
    for _ in range(HELD_UP):
        if checks := one_written_in_place():
            return checks
    return [("written in place: a writer that isn't held up", False, True)]


def one_written_in_place():
    """What is checked of one such file, or nothing, where it lay untouched for too long."""
    text = lines(bank=["old"], shop=["other"], inn=["new"])
    kept, added_last = verify("bank", "old"), verify("inn", "new")
    with listening(lines(bank=["old"])) as listener:
        probe = Probe(listener.path)
        replies, longest = write_slowly(listener.keys, text, probe, [kept, added_last])
        if longest >= RESTS:
            return []
        checks = [("written in place: nothing but the old table", replies, {(GRANTED, NO_NAME)})]
        checks.append(("written in place: taken once it rests", probe.await_reply(added_last, GRANTED), True))
        checks.append(("written in place: told once", listener.await_told(1), ["names: 3"]))
        with open(listener.keys, "w"):
            listener.await_told(2)
            checks.append(("emptied: the keys stay", probe.ask(kept), GRANTED))
        checks.append(("emptied: told once", listener.told_of_keys()[1:], ["the key file has no key"]))
        return checks


def faults():
    """What went otherwise than it must, and how many checks there were."""
    rows = [lambda first=first: one_row_of_faulty(first) for first in range(DAEMONS)]
    parts = [dropped, added, swapped, written_in_place, *rows]
    with ThreadPoolExecutor(len(parts)) as pool:
        return judged(check for checks in pool.map(lambda part: list(part()), parts) for check in checks)

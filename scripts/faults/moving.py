#!/usr/bin/env python3
"""Connections that go from loop to loop of `macaroond listen`, while they are asked much.

    moving.py [SECONDS]    each part lasts so long

Some connections ask much for a moment and then nothing, so that a loop can't keep up and gives some
away, and then one before it has time for them. Meanwhile memory is refused to slow readers: what
comes to them begins the replies to what they sent, each at its place. And key tables are put up
without pause: no connection is answered under one and then under an older one. Asks for a C compiler
`cc`, and for bin/macaroond.
"""
import contextlib
import itertools
import pathlib
import signal
import sys
import tempfile
import threading
import time

sys.path.insert(0, str(pathlib.Path(__file__).resolve().parents[1]))
from common.daemon import Daemon, connected, frame, received, stop_unless_there
from common.tokens import signed
from faults.refusing import PATIENCE, Watch, has_compiler, watching

import request

# How long each part goes on at least, and what it has to have seen by then; it goes on until it has.
SECONDS, MOVES, FALLS, TABLES, TABLES_MAX = 2, 20, 2, 40, 100_000
# How long a wave is, and for how much of it is asked, in seconds.
WAVE, CREST = 0.3, 0.15
# How many connections ask in waves, how many dear requests at a time at most, and in how many seconds
# these are to be answered.
WAVES, BATCH, ANSWERED = 6, 300, 0.02
DEAR = frame(request.mint("v2-binary", "bank", "here", "dear", *["a"] * 60))
# The least request for memory that is refused to slow readers, how many requests each sends, how much
# it reads at a time, and how many seconds it rests then; and the location that makes their tokens long.
REFUSED, ASKED, READ, REST = 1_048_576, 1500, 8192, 0.003
LONG = "a" * 1000
# Caveats that make a request longer than a loop answers.
WIDE = ["a" * 900] * 5


class Moved(Daemon):
    """A daemon whose requests for memory and whose moves are counted."""

    def __init__(self, folder):
        self.watch = Watch("memory", SIZE=str(REFUSED))
        super().__init__(folder, key_file(0), "--loops", "2", "--workers", "2", env=self.watch.environment)
        self.start()

    def close(self):
        super().close()
        self.watch.__exit__()


def key_file(number):
    return f"key bank {b'bank'.hex()}\nkey turn {secret(number).hex()}\n"


def secret(number):
    return f"the secret of table {number}".encode()


def signature(number, identifier, caveats):
    """What a token is signed with under a table."""
    return signed(secret(number), identifier.encode(), [caveat.encode() for caveat in caveats])


class Talker(threading.Thread):
    """A thread that talks to a daemon until it is told that it is over, and what it found wrong."""

    def __init__(self, path):
        super().__init__(daemon=True)
        self.path, self.is_over, self.wrong = path, False, []
        self.start()

    def run(self):
        try:
            while not self.is_over and not self.wrong:
                self.talk()
        except Exception as fault:
            self.wrong.append(repr(fault))


class Wave(Talker):
    """Asks much for a moment, and then nothing: as much at a time as is answered in some milliseconds."""

    def talk(self):
        with connected(self.path) as stream:
            one, count = self.asked(stream, 1), 1
            while not self.is_over and not self.wrong:
                begin = time.monotonic()
                if begin % WAVE > CREST:
                    time.sleep(WAVE / 20)
                    continue
                if self.asked(stream, count, len(one)) != one * count:
                    self.wrong.append("a reply to one of many like it is another")
                is_quick = time.monotonic() - begin < ANSWERED
                count = min(2 * count, BATCH) if is_quick else max(count // 2, 1)

    def asked(self, stream, count, size=None):
        """The replies to so many dear requests, each of this size."""
        stream.sendall(DEAR * count)
        if size:
            return received(stream, count * size)
        front = received(stream, 4)
        return front + received(stream, int.from_bytes(front, "big"))


class SlowReader(Talker):
    """Sends numbered mints ahead of what it reads, and reads slowly: in version two, where there is a hello."""

    def __init__(self, path, hello):
        self.hello, self.falls = hello, 0
        super().__init__(path)

    def talk(self):
        with connected(self.path) as stream:
            stream.settimeout(0)
            unsent = memoryview(self.hello + b"".join(map(numbered, range(ASKED))))
            rest, came = b"", 0
            while came < ASKED and not self.is_over:
                unsent = unsent[sent(stream, unsent) :]
                piece = read(stream)
                if piece == b"":
                    self.falls += 1
                    if rest:
                        self.wrong.append(f"reply {came} ends within")
                    return
                rest, came = self.taken(rest + (piece or b""), came)
                time.sleep(REST)

    def taken(self, data, came):
        """The bytes behind the last whole reply, and how many have come with these."""
        while len(data) >= 4 and len(data) >= (end := 4 + int.from_bytes(data[:4], "big")):
            reply, data = data[4:end], data[end:]
            if self.hello and int.from_bytes(reply[:8], "big") != came:
                self.wrong.append(f"place {int.from_bytes(reply[:8], 'big')} comes where {came} is due")
            if b"request %06d" % came not in reply:
                self.wrong.append(f"reply {came} is that to another request")
            came += 1
        return data, came


def numbered(number):
    return frame(request.mint("v2-binary", "bank", LONG, f"request {number:06}"))


def sent(stream, data):
    """How many bytes go without waiting."""
    with contextlib.suppress(BlockingIOError, ConnectionError):
        return stream.send(data[:65_536]) if data else 0
    return 0


def read(stream):
    """What comes without waiting: None where nothing is there, and nothing where nothing more comes."""
    try:
        return stream.recv(READ)
    except BlockingIOError:
        return None
    except ConnectionError:
        return b""


class Turning(Talker):
    """Mints under a key that each table has another of: no table that answers is older than one before."""

    def __init__(self, path, *caveats):
        self.caveats, self.numbers, self.number, self.asked = caveats, {}, 0, 0
        self.asks = frame(request.mint("v2-binary", "turn", "", "turn", *caveats))
        super().__init__(path)

    def talk(self):
        with connected(self.path) as stream:
            while not self.is_over and not self.wrong:
                stream.sendall(self.asks * 10)
                for _ in range(10):
                    size = int.from_bytes(received(stream, 4), "big")
                    self.look(received(stream, size)[-32:])

    def look(self, key):
        """Looks at the number of the table that signed, which is none before the last one."""
        while key not in self.numbers and len(self.numbers) < TABLES_MAX:
            number = len(self.numbers)
            self.numbers[signature(number, "turn", self.caveats)] = number
        number = self.numbers.get(key, -1)
        if number < self.number:
            self.wrong.append(f"table {number} answers behind table {self.number}")
        self.number, self.asked = number, self.asked + 1


def seen(talkers, seconds, holds):
    """Waits so long, and until it holds, and ends those who talk: what they found wrong."""
    until = time.monotonic() + PATIENCE
    least = time.monotonic() + seconds
    while time.monotonic() < until and not any(one.wrong for one in talkers):
        if time.monotonic() > least and holds():
            break
        time.sleep(0.02)
    for one in talkers:
        one.is_over = True
    for one in talkers:
        one.join(PATIENCE)
    return [wrong for one in talkers for wrong in one.wrong[:3]]


def fallen(seconds):
    """Memory is refused to slow readers, each of whom has replies that are unsent then."""
    with tempfile.TemporaryDirectory() as folder:
        daemon = Moved(folder)
        daemon.watch.set(2, 1)
        daemon.watch.set(1, daemon.watch.calls + 1)
        slow = [SlowReader(daemon.path, hello) for hello in (b"", b"\x02") * 2]
        waves = [Wave(daemon.path) for _ in range(WAVES)]
        falls = lambda: min(one.falls for one in slow)
        enough = lambda: daemon.watch.left >= MOVES and falls() >= FALLS
        wrong = seen(slow + waves, seconds, enough)
        print(f"moving: {daemon.watch.left} moves, {daemon.watch.refused} requests for memory refused")
        yield "slow readers to whom memory is refused: each reply at its place", wrong, []
        yield "slow readers: they fell, and connections were moved", enough() or wrong != [], True
        with connected(daemon.path) as stream:
            stream.sendall(frame(b""))
            yield "the daemon serves on", received(stream, 5), frame(b"\x10")
        daemon.close()


def published(seconds):
    """Key tables are put up without pause."""
    with tempfile.TemporaryDirectory() as folder:
        daemon = Moved(folder)
        turning = [Turning(daemon.path) for _ in range(4)] + [Turning(daemon.path, *WIDE) for _ in range(2)]
        waves = [Wave(daemon.path) for _ in range(WAVES)]
        publisher = Publishing(daemon)
        enough = lambda: daemon.watch.left >= MOVES and all(one.number >= TABLES for one in turning)
        wrong = seen(turning + waves + [publisher], seconds, enough)
        asked = sum(one.asked for one in turning)
        print(f"moving: {daemon.watch.left} moves, {publisher.count} key files, {asked} requests under them")
        yield "tables put up without pause: none answers behind a newer one", wrong, []
        yield "tables: they were put up, and connections were moved", enough() or wrong != [], True
        daemon.close()


class Publishing(Talker):
    """Puts one key file after the other in place, and has the daemon look at each."""

    def __init__(self, moved):
        self.moved, self.count = moved, 0
        super().__init__(moved.path)

    def talk(self):
        self.count += 1
        self.moved.put_keys(key_file(self.count))
        self.moved.run.send_signal(signal.SIGHUP)
        time.sleep(0.003)


def faults(seconds=SECONDS):
    """What went otherwise than it must, and how many checks there were."""
    with watching():
        checks = list(itertools.chain(fallen(seconds), published(seconds)))
    wrong = [check for check in checks if check[1] != check[2]]
    return [f"moving: {what}: {got!r}, not {due!r}" for what, got, due in wrong], len(checks)


def main():
    stop_unless_there()
    if not has_compiler():
        sys.exit("there is no C compiler `cc`")
    found, count = faults(float(sys.argv[1]) if sys.argv[1:] else SECONDS)
    if found:
        raise SystemExit("\n".join(found))
    print(f"{count} as they must be")


if __name__ == "__main__":
    main()

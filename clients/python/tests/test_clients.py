"""Both clients over a server that follows a script."""
import asyncio
import gc
import os
import random
import socket
import threading
import time
import unittest

from macaroond import AsyncClient, Client, Disconnected, Form, Refused, TimedOut, errors, inspect
from macaroond.connection import Connection

from .asked import BOTH, await_end
from .script import GRANTED, folder, running, server

VERIFY = ("verify", "bank", "!")
MINT = ("mint", "bank", "alice")


def grants(stream):
    stream.grant_all()


def cuts(stream):
    """Each reply's bytes come one by one."""
    while stream.request() is not None:
        for byte in stream.framed(GRANTED):
            stream.send(bytes((byte,)))


def glues(stream):
    """Five replies come in one piece, and a half of the last one late."""
    stream.requests(5)
    content = b"".join(stream.framed(GRANTED) for _ in range(5))
    stream.send(content[:-6])
    time.sleep(0.05)
    stream.send(content[-6:])


def turns(stream):
    """The second reply comes first."""
    stream.requests(2)
    stream.reply(GRANTED, 1)
    stream.reply(GRANTED, 0)


def leaves_in_a_frame(stream):
    stream.request()
    stream.send(stream.framed(GRANTED)[:7])


def leaves(stream):
    stream.request()


def lies(stream, size):
    """A reply's front tells a size that no reply has."""
    stream.requests(2)
    stream.send(size.to_bytes(4, "big") + bytes(8))


def answers_once(stream):
    stream.request()
    stream.reply(GRANTED)


def answers_too_much(stream):
    stream.request()
    stream.send(stream.framed(GRANTED) + stream.framed(GRANTED))
    stream.request()


def is_silent(stream):
    while stream.request() is not None:
        pass


class OverScripts(unittest.TestCase):
    """Tests of both clients."""

    def each(self, look, *scripts, **how):
        """Looks at each client over a server with these scripts."""
        for kind in BOTH:
            with self.subTest(kind.name), server(*scripts) as path:
                client = kind(path, **how)
                try:
                    look(client)
                finally:
                    client.close()


class Answered(OverScripts):
    """Each reply goes to who asked."""

    def test_cut_and_glued(self):
        for script in (cuts, glues):

            def look(client):
                self.assertTrue(all(client.at_once([VERIFY] * 5)))

            self.each(look, script)

    def test_each_its_own(self):
        calls = [("ask", b"%d" % number) for number in range(200)]

        def look(client):
            self.assertEqual(client.at_once(calls), [b"\x01" + payload for _, payload in calls])

        self.each(look, lambda stream: stream.echo_all())

    def test_hello_comes_first_and_once(self):
        seen = []

        def notes(stream):
            seen.append(stream.hello)
            seen.extend(stream.requests(2))
            stream.reply(GRANTED)
            stream.reply(GRANTED)

        def look(client):
            seen.clear()
            client.many("ask_many", [b"a", b"b"])
            self.assertEqual(seen, [b"\x02", b"a", b"b"])

        self.each(look, notes)

    def test_many_in_order(self):
        payloads = [b"%d" % number for number in range(20_000)]

        def look(client):
            self.assertEqual(client.many("ask_many", iter(payloads)), [b"\x01" + payload for payload in payloads])

        self.each(look, lambda stream: stream.echo_all())

    def test_many_large_ones_do_not_stall(self):
        """The server reads nothing while its own replies aren't read, and both directions are larger than the sockets hold."""
        payloads = [bytes(30_000)] * 300

        def look(client):
            self.assertEqual(sum(map(len, client.many("ask_many", payloads))), 300 * 30_001)

        self.each(look, lambda stream: stream.echo_all())

    def test_no_requests(self):
        def look(client):
            self.assertEqual(client.many("verify_many", "bank", []), [])

        self.each(look, grants)

    def test_identifiers(self):
        """One that is given goes out as it is, and where none is 32 digits do that nobody else has."""
        token = b"\x02\x02%c%b\x00\x00\x06\x20" + bytes(32)

        def mints(stream):
            while (payload := stream.request()) is not None:
                identifier = payload[11:-1]
                stream.reply(b"\x01" + token % (len(identifier), identifier))

        def look(client):
            made = [client.call("mint", "bank", form=Form.V2_BINARY) for _ in range(100)]
            drawn = {inspect(one).identifier for one in made}
            self.assertEqual(len(drawn), 100)
            for one in drawn:
                self.assertRegex(one, "^[0-9a-f]{32}$")
            for given in ("", "alice"):
                self.assertEqual(inspect(client.call("mint", "bank", given, form=Form.V2_BINARY)).identifier, given)

        self.each(look, mints)

    def test_verdicts_and_errors(self):
        """What each number of a refusal is raised as, or told as."""

        def refuses(stream):
            while (payload := stream.request()) is not None:
                stream.reply(payload[-1:] + (b"\x00\x05" if payload[-1] == 24 else b""))

        told = {0: True, 19: False, 20: False, 21: False, 22: False, 23: False, 24: False, 26: False, 29: False}
        raised = {**errors.CLASSES, 25: Refused}

        def look(client):
            for code, error in raised.items():
                with self.assertRaises(error) as caught:
                    client.call("attenuate", "!", bytes((code,)))
                self.assertEqual(caught.exception.code, code)
            for code in {**told, **raised}:
                came = client.at_once([("verify", "bank", "!", [bytes((code,))])])[0]
                self.assertEqual(bool(came) if code in told else type(came), told.get(code, raised.get(code)))
                self.assertEqual(getattr(came, "caveat", None), 5 if code == 24 else None)
                self.assertEqual(getattr(came, "is_revoked", False), code == 29)

        self.each(look, refuses)


class Ended(OverScripts):
    """What a request comes to whose connection ends, and what the next one does."""

    def test_faults_of_the_server(self):
        for script, words in (
            (turns, "a reply of place 1"),
            (leaves_in_a_frame, "connection"),
            (leaves, "connection"),
            (lambda stream: lies(stream, 8), "of place 0 and 8 bytes"),
            (lambda stream: lies(stream, 0xFFFFFFFF), "of place 0 and 4294967295 bytes"),
        ):

            def look(client):
                for came in client.at_once([VERIFY, VERIFY]):
                    self.assertIsInstance(came, Disconnected)
                    self.assertRegex(str(came), words)

            self.each(look, script)

    def test_a_reply_to_no_request_ends_the_connection(self):
        def look(client):
            client.call(*VERIFY)
            await_end(client)
            self.assertTrue(client.call(*VERIFY))

        self.each(look, answers_too_much, grants)

    def test_never_sent_twice(self):
        """Without `retry` nothing is, and with it no mint."""
        for how, call in (({}, VERIFY), ({"retry": True}, MINT), ({"retry": True}, ("ask", b"a"))):
            seen = []

            def look(client):
                with self.assertRaises(Disconnected):
                    client.call(*call)

            self.each(look, leaves, lambda stream: seen.append(stream.request()), **how)
            self.assertEqual(seen, [])

    def test_retry(self):
        """A verify and an attenuate are sent once more, and no third time."""
        for call in (VERIFY, ("attenuate", "!", "a")):
            for ends, kinds in ((1, (str, Refused)), (2, Disconnected)):

                def look(client):
                    self.assertIsInstance(client.at_once([call])[0], kinds)

                self.each(look, *[leaves] * ends, lambda stream: stream.echo_all(), retry=True)

    def test_retry_of_many(self):
        """The verdicts stay in order where the connection ends in the middle."""

        def leaves_in_the_middle(stream):
            for _ in range(1000):
                stream.request()
                stream.reply(GRANTED)

        asked = [("!", ())] * 5000

        def look(client):
            self.assertEqual(len(client.many("verify_many", "bank", asked)), 5000)

        self.each(look, leaves_in_the_middle, grants, retry=True)

    def test_a_reply_that_still_comes_is_given(self):
        """Though the next request can't be written any more."""

        def is_deaf(stream):
            first = stream.request()
            stream.stream.shutdown(socket.SHUT_RD)
            time.sleep(0.2)
            stream.reply(b"\x01" + first)

        with server(is_deaf) as path, Client(path) as client:
            came = []
            thread = threading.Thread(target=lambda: came.append(client.ask(b"first")))
            thread.start()
            time.sleep(0.1)
            with self.assertRaises(Disconnected):
                client.ask(b"second")
            thread.join()
            self.assertEqual(came, [b"\x01first"])

    def test_connects_again(self):
        def look(client):
            for number in range(3):
                self.assertTrue(client.call(*VERIFY))
                if number < 2:
                    await_end(client)

        self.each(look, answers_once, answers_once, grants)

    def test_waits_for_a_daemon_that_comes(self):
        for kind in BOTH:
            with self.subTest(kind.name), folder() as path:
                client = kind(path)
                stop = threading.Event()

                def comes():
                    time.sleep(0.2)
                    with running(path, grants):
                        stop.wait()

                thread = threading.Thread(target=comes)
                thread.start()
                self.assertTrue(client.call(*VERIFY))
                stop.set()
                thread.join()
                client.close()

    def test_no_daemon(self):
        for kind in BOTH:
            for call in (VERIFY, ("connect",)):
                with self.subTest(kind.name, call=call), folder() as path:
                    client = kind(path, timeout=0.2)
                    begin = time.monotonic()
                    with self.assertRaisesRegex(Disconnected, f"there is no connection to {path}: .*No such file"):
                        client.call(*call)
                    self.assertLess(time.monotonic() - begin, 3)
                    client.close()

    def test_connects_before_a_call(self):
        """Who connects waits for a daemon that comes, and the call behind it takes that connection."""
        for kind in BOTH:
            with self.subTest(kind.name), folder() as path:
                client = kind(path)
                stop = threading.Event()

                def comes():
                    time.sleep(0.2)
                    with running(path, grants):
                        stop.wait()

                thread = threading.Thread(target=comes)
                thread.start()
                client.call("connect")
                made = client.client._connection
                self.assertIsNotNone(made)
                client.call("connect")
                self.assertTrue(client.call(*VERIFY))
                self.assertIs(client.client._connection, made)
                stop.set()
                thread.join()
                client.close()

    def test_pauses_grow_while_connections_are_closed_at_once(self):
        """As past the daemon's limit on connections: few are made in a second."""
        made = []

        def look(client):
            made.clear()
            until = time.monotonic() + 1
            while time.monotonic() < until:
                client.at_once([VERIFY])
            self.assertLess(len(made), 12)

        self.each(look, *[lambda stream: made.append(1)] * 100, timeout=0.5)

    def test_a_storm(self):
        """Connections end at any moment: whoever is answered has its own reply, and each call ends."""
        rng = random.Random(5)

        def ends(stream):
            for _ in range(rng.randrange(1, 60)):
                payload = stream.request()
                if payload is None:
                    return
                if rng.random() < 0.02:
                    return stream.send(stream.framed(b"\x01" + payload)[:9])
                stream.reply(b"\x01" + payload)

        def look(client):
            answered = 0
            for _ in range(20):
                calls = [("ask", b"%d" % number) for number in range(40)]
                for (_, payload), came in zip(calls, client.at_once(calls)):
                    answered += came == b"\x01" + payload
                    self.assertTrue(came == b"\x01" + payload or isinstance(came, Disconnected), came)
            self.assertGreater(answered, 100)

        self.each(look, *[ends] * 2000)

    def test_who_waits_takes_no_processor_time(self):
        """Also behind a time in which the socket was full."""

        def look(client):
            client.many("ask_many", [bytes(30_000)] * 100)
            before = time.process_time()
            client.pause(0.3)
            self.assertLess(time.process_time() - before, 0.1)

        self.each(look, lambda stream: stream.echo_all())

    def test_closed(self):
        def look(client):
            client.leave()
            with self.assertRaises(Disconnected):
                client.call(*VERIFY)

        self.each(look, is_silent)


class Late(OverScripts):
    """What comes too late, or to nobody."""

    def test_timeout_leaves_the_order(self):
        def is_late(stream):
            first, second = stream.requests(2)
            stream.reply(b"\x01" + first)
            stream.reply(b"\x01" + second)

        def look(client):
            with self.assertRaises(TimedOut):
                client.call("ask", b"first")
            client.client.timeout = 5
            self.assertEqual(client.call("ask", b"second"), b"\x01second")

        self.each(look, is_late, timeout=0.2)

    def test_many_take_longer_than_a_timeout(self):
        """The time is for the next verdicts, and not for all."""

        def is_slow(stream):
            for number in range(2560):
                stream.request()
                if number % 256 == 0:
                    time.sleep(0.1)
                stream.reply(GRANTED)

        def look(client):
            self.assertEqual(len(client.many("verify_many", "bank", [("!", ())] * 2560)), 2560)

        self.each(look, is_slow, timeout=0.6)

    def test_a_full_socket_times_out(self):
        """A server that reads nothing: calls end in time all the same."""

        def look(client):
            begin = time.monotonic()
            with self.assertRaises(TimedOut):
                client.many("ask_many", [bytes(60_000)] * 100)
            self.assertLess(time.monotonic() - begin, 2.9)

        self.each(look, lambda stream: time.sleep(3), timeout=0.3)

    def test_cancelled_task(self):
        """Its reply is dropped, and the next task has its own."""

        async def cancels(path):
            async with AsyncClient(path) as client:
                first = asyncio.ensure_future(client.ask(b"first"))
                await asyncio.sleep(0.05)
                first.cancel()
                return await client.ask(b"second")

        def waits(stream):
            first, second = stream.requests(2)
            stream.reply(b"\x01" + first)
            stream.reply(b"\x01" + second)

        with server(waits) as path:
            self.assertEqual(asyncio.run(cancels(path)), b"\x01second")

    def test_abandoned_iterator(self):
        """Who takes some verdicts and goes leaves the client as it was."""
        with server(lambda stream: stream.echo_all()) as path, Client(path) as client:
            self.assertEqual(next(client.ask_many(b"%d" % number for number in range(5000))), b"\x010")
            self.assertEqual(client.ask(b"a"), b"\x01a")


class SlowRope:
    """A rope that rings twice: the thread that reads comes out of its wait before the second time."""

    def __init__(self, rope):
        self.rope = rope

    def send(self, text):
        self.rope.send(text)
        time.sleep(0.2)
        self.rope.send(text)

    def close(self):
        self.rope.close()


class Left(unittest.TestCase):
    def test_who_ends_a_connection_rings_before_it_is_closed(self):
        with server(grants) as path:
            connection = Connection(path, 5)
            connection.rope = SlowRope(connection.rope)
            connection.end(Disconnected("the client was closed"))
            self.assertTrue(connection.is_over)

    def test_a_client_that_nobody_has_ends_its_connection(self):
        ended = threading.Event()

        def notes_the_end(stream):
            stream.grant_all()
            ended.set()

        with server(notes_the_end) as path:
            client = Client(path)
            client.verify("bank", "!")
            del client
            gc.collect()
            self.assertTrue(ended.wait(5))


class Forked(unittest.TestCase):
    def test_child_connects_by_itself(self):
        with server(grants, grants) as path, Client(path) as client:
            self.assertTrue(client.verify("bank", "!"))
            child = os.fork()
            if child == 0:
                os._exit(0 if client.verify("bank", "!") else 1)
            self.assertEqual(os.waitpid(child, 0)[1], 0)
            self.assertTrue(client.verify("bank", "!"))


if __name__ == "__main__":
    unittest.main()

"""The middlewares, over a server that answers by the request's token."""
import asyncio
import contextlib
import json
import logging
import pathlib
import time
import unittest
import unittest.mock
import wsgiref.util
import wsgiref.validate

from macaroond import AsyncClient, Client, Form, NotPlain, asgi, attenuate, backoff, breaker, path_facts, wsgi

from .script import GRANTED, Stream, folder, running, server

# A token whose identifier is `alice`, without caveats; what signs it doesn't matter to the scripted server.
TOKEN = b"\x02\x02\x05alice\x00\x00\x06\x20" + bytes(32)
TEXT = "AgIFYWxpY2UAAAYg" + "A" * 43
# What tells that `carol` has it, at no location: the middlewares believe the reply.
OWNED = b"\x03\x00\x05carol\x00\x00"
REPLIES = {b"granted": GRANTED, b"owned": OWNED, b"forged": b"\x17", b"narrow": b"\x18\x00\x07", b"unknown": b"\x12", b"forbidden": b"\x1b", b"clockless": b"\x1c"}
REPLIES.update({b"untexted": b"\x13", b"malformed": b"\x14", b"third-party": b"\x15", b"limited": b"\x16", b"located": b"\x1a", b"revoked": b"\x1d"})
# The Authorization header and the one fact; the status, the challenge, what the application saw, and what the log has behind it.
CASES = [
    ("Bearer " + TEXT, "granted", 200, None, "alice", "granted"),
    ("bearer  " + TEXT, "granted", 200, None, "alice", "granted"),
    ("Bearer " + TEXT, "owned", 200, None, "carol", "granted"),
    ("MACAROON " + TEXT, "granted", 200, None, "alice", "granted"),
    (None, "granted", 401, "Macaroon", None, "no_token"),
    ("", "granted", 401, "Macaroon", None, "no_token"),
    ("Bearer", "granted", 401, "Macaroon", None, "no_token"),
    ("Bearer ", "granted", 401, "Macaroon", None, "no_token"),
    ("Basic " + TEXT, "granted", 401, "Macaroon", None, "no_token"),
    ("Bearers " + TEXT, "granted", 401, "Macaroon", None, "no_token"),
    ("Bearer " + TEXT, "forged", 401, 'Bearer error="invalid_token"', None, "23"),
    ("Macaroon " + TEXT, "forged", 401, 'Macaroon error="invalid_token"', None, "23"),
    ("Bearer " + TEXT, "narrow", 403, 'Bearer error="insufficient_scope"', None, "24 caveat=7"),
    ("Macaroon " + TEXT, "narrow", 403, 'Macaroon error="insufficient_scope"', None, "24 caveat=7"),
    ("Bearer " + TEXT, "untexted", 401, 'Bearer error="invalid_token"', None, "19"),
    ("Bearer " + TEXT, "malformed", 401, 'Bearer error="invalid_token"', None, "20"),
    ("Bearer " + TEXT, "third-party", 401, 'Bearer error="invalid_token"', None, "21"),
    ("Bearer " + TEXT, "limited", 401, 'Bearer error="invalid_token"', None, "22"),
    ("Bearer " + TEXT, "located", 401, 'Bearer error="invalid_token"', None, "26"),
    ("Bearer " + TEXT, "revoked", 401, 'Bearer error="invalid_token"', None, "29"),
    ("Macaroon " + TEXT, "revoked", 401, 'Macaroon error="invalid_token"', None, "29"),
    ("Bearer " + TEXT, "unknown", 503, None, None, "18"),
    ("Bearer " + TEXT, "clockless", 503, None, None, "28"),
    ("Bearer " + TEXT, "forbidden", 503, None, None, "27"),
    ("Bearer " + TEXT, "\ud800", 400, None, None, "facts"),
]
# What `Macaroon-Reason` has to tell: of a caveat that isn't satisfied, and else nothing.
TOLD = {"24 caveat=7": "24 7"}

# The ids of requests that are logged, and texts that aren't.
IDS = ["a", "8f14e45fceea167a5a36dedd4bea2543", "2030f39a-86d8-4bfd-aead-06f154c3e1f6", "A.b_c-0", "9" * 40]
NO_IDS = ["", "9" * 41, "a b", "a=b", "a\nb", "a\n", "\xe4", "a,b", "{}", TEXT]
# The fields of a request that brings two, of which each alone or none would be granted.
TWICE = [("Bearer " + TEXT, "Bearer " + TEXT), ("Bearer " + TEXT, "Basic x"), ("Basic x", "Macaroon " + TEXT), ("Bearer " + TEXT, "")]
# The paths that facts are told of, and those that are refused, for each client and the daemon.
CASES_FOLDER = pathlib.Path(__file__).resolve().parents[2] / "cases"
PATHS = json.loads((CASES_FOLDER / "paths.json").read_text())
# The facts of each method, for the same.
METHODS = json.loads((CASES_FOLDER / "methods.json").read_text())


def judges(stream):
    """Answers a verify by its one fact."""
    while (payload := stream.request()) is not None:
        stream.reply(next(reply for fact, reply in REPLIES.items() if payload.endswith(fact)))


@contextlib.contextmanager
def logged(case):
    """What the guards log meanwhile, behind a line that stands for itself: nothing may be logged at all."""
    with case.assertLogs("macaroond.guard", "INFO") as log:
        logging.getLogger("macaroond.guard").info("-")
        yield log


def lines(status, reason):
    """The lines of a log that has one refusal, or none."""
    level = "WARNING" if status == 503 else "INFO"
    refused = [f"{level}:macaroond.guard:macaroon refused: status={status} reason={reason}"]
    return ["INFO:macaroond.guard:-"] + (refused if status != 200 else [])


class Ids(unittest.TestCase):
    """The id of a request stands in the log, where it brings one that may."""

    def lines_of(self, told):
        """What a guard of WSGI logs of a request without a token that brings these fields, and one of ASGI."""
        environ = {} if told is None else {"HTTP_X_REQUEST_ID": ",".join(told)}
        headers = [(b"X-Request-Id", text.encode("latin-1")) for text in told or []]

        async def send(_):
            pass

        with logged(self) as log:
            wsgi.RequireMacaroon(None, Client("nowhere"), "bank")(environ, lambda status, fields: None)
            guard = asgi.RequireMacaroon(None, None, "bank")
            asyncio.run(guard({"type": "http", "headers": headers}, None, send))
        return [line.partition("reason=")[2] for line in log.output[1:]]

    def test_ids(self):
        for text in IDS:
            self.assertEqual(self.lines_of([text]), [f"no_token id={text}"] * 2)
        for told in (None, [], ["a", "b"], *([text] for text in NO_IDS)):
            with self.subTest(told=told):
                self.assertEqual(self.lines_of(told), ["no_token"] * 2)


class Clock:
    """A clock that goes as a test says."""

    def __init__(self):
        self.now = 1_000.0

    def monotonic(self):
        return self.now


class Breakers(unittest.TestCase):
    """When the daemon is asked, and when it is known to be away."""

    def setUp(self):
        self.clock = Clock()
        for module in (breaker, backoff):
            patched = unittest.mock.patch.object(module, "time", self.clock)
            patched.start()
            self.addCleanup(patched.stop)
        self.breaker = breaker.Breaker(1.0)

    def fail(self, count):
        for _ in range(count):
            self.assertTrue(self.breaker.allows())
            self.breaker.failed()

    def test_opens_at_the_third_failure(self):
        self.fail(2)
        self.breaker.succeeded()
        self.fail(3)
        self.assertFalse(self.breaker.allows())

    def test_one_call_tries(self):
        self.fail(3)
        self.clock.now += 2.0
        self.assertEqual([self.breaker.allows() for _ in range(3)], [True, False, False])
        self.breaker.succeeded()
        self.assertEqual([self.breaker.allows() for _ in range(3)], [True, True, True])

    def test_pauses_grow(self):
        """The pause behind the n-th failure is over after that time, and not after half of half of it."""
        self.fail(2)
        for pause in (0.05, 0.1, 0.2, 0.4, 0.8, 1.6, 2.0, 2.0):
            self.fail(1)
            self.clock.now += pause / 4
            self.assertFalse(self.breaker.allows())
            self.clock.now += pause

    def test_a_try_that_is_given_up(self):
        """Of a call that was cancelled nothing is told; another one tries after the patience."""
        self.fail(3)
        self.clock.now += 2.0
        self.assertTrue(self.breaker.allows())
        self.clock.now += 0.9
        self.assertFalse(self.breaker.allows())
        self.clock.now += 0.2
        self.assertTrue(self.breaker.allows())


class Away(unittest.TestCase):
    """Guards whose daemon isn't there, hangs, or comes back."""

    @staticmethod
    def guard(client, **how):
        return wsgi.RequireMacaroon(None, client, "bank", **how)

    def judged(self, guard):
        begin = time.monotonic()
        found = guard.judge({"HTTP_AUTHORIZATION": "Bearer " + TEXT})
        return f"{found}", time.monotonic() - begin

    def test_no_daemon(self):
        """Three wait, and then each is refused at once."""
        with folder() as path, Client(path) as client:
            guard = self.guard(client, timeout=0.2)
            came = [self.judged(guard) for _ in range(3)]
            self.assertTrue(all(reason == "status=503 reason=away" and took < 1 for reason, took in came), came)
            begin = time.monotonic()
            refused = [self.judged(guard)[0] for _ in range(200)]
            self.assertEqual(set(refused), {"status=503 reason=away"})
            self.assertLess(time.monotonic() - begin, 1)
            with running(path, Stream.grant_all):
                until = time.monotonic() + 10
                while self.judged(guard)[0] != "status=200 reason=granted" and time.monotonic() < until:
                    time.sleep(0.02)
                self.assertEqual(self.judged(guard)[0], "status=200 reason=granted")

    def test_a_daemon_that_hangs(self):
        with server(lambda stream: stream.requests(9)) as path, Client(path) as client:
            guard = self.guard(client, timeout=0.1)
            self.assertEqual([self.judged(guard)[0] for _ in range(3)], ["status=503 reason=late"] * 3)
            self.assertEqual(self.judged(guard)[0], "status=503 reason=away")

    def test_one_second_by_itself(self):
        with server(lambda stream: stream.requests(9)) as path, Client(path) as client:
            reason, took = self.judged(self.guard(client))
            self.assertEqual((reason, 0.9 < took < 3), ("status=503 reason=late", True))

    def test_tasks(self):
        async def judged_by(guard):
            return f"{await guard.judge({'headers': [(b'authorization', b'Bearer ' + TEXT.encode())]})}"

        async def tried(path):
            async with AsyncClient(path) as client:
                guard = asgi.RequireMacaroon(None, client, "bank", timeout=0.1)
                return [await judged_by(guard) for _ in range(4)]

        with server(lambda stream: stream.requests(9)) as path:
            came = asyncio.run(tried(path))
        self.assertEqual(came, ["status=503 reason=late"] * 3 + ["status=503 reason=away"])


class Wsgi(unittest.TestCase):
    def asked(self, client, header, fact):
        """The status, the challenge, the body, the reason that is told, and the judgements that the hook got."""

        def application(environ, start_response):
            start_response("200 OK", [("Content-Type", "text/plain")])
            return [environ["macaroond.identifier"].encode()]

        seen = []
        guarded = wsgi.RequireMacaroon(application, client, "bank", lambda environ: [fact], hook=lambda environ, found: seen.append(found))
        guard = wsgiref.validate.validator(guarded)
        environ = {"QUERY_STRING": "", **({} if header is None else {"HTTP_AUTHORIZATION": header})}
        wsgiref.util.setup_testing_defaults(environ)
        told = {}
        body = guard(environ, lambda status, headers, _=None: told.update(status=int(status[:3]), **dict(headers)))
        text = b"".join(body).decode()
        body.close()
        return told["status"], told.get("WWW-Authenticate"), text, told.get("Macaroon-Reason"), seen

    def test_cases(self):
        with server(judges) as path, Client(path) as client:
            for header, fact, status, challenge, identifier, reason in CASES:
                with self.subTest(header=header, fact=fact), logged(self) as log:
                    *came, seen = self.asked(client, header, fact)
                    self.assertEqual(came[:2], [status, challenge])
                    self.assertEqual(came[2] == identifier, status == 200)
                    self.assertEqual(came[3], TOLD.get(reason))
                    self.assertEqual([f"{found}" for found in seen], [f"status={status} reason={reason}"])
                    self.assertEqual(seen[0].identifier, identifier)
                self.assertEqual(log.output, lines(status, reason))

    def test_two_fields(self):
        """As servers put them together (RFC 9110, section 5.3)."""
        with server(judges) as path, Client(path) as client:
            for fields in TWICE:
                for between in (",", ", "):
                    with self.subTest(fields=fields, between=between):
                        self.assertEqual(self.asked(client, between.join(fields), "granted")[:2], (401, "Macaroon"))

    def test_json_has_commas(self):
        bare = attenuate(TEXT, form=Form.V2_JSON)
        with server(judges) as path, Client(path) as client:
            self.assertIn(",", bare)
            self.assertEqual(self.asked(client, "Bearer " + bare, "granted")[:3], (200, None, "alice"))

    def test_a_path_that_is_not_plain(self):
        def facts(environ):
            return path_facts("/a/../b")

        guard = wsgi.RequireMacaroon(None, Client("nowhere"), "bank", facts)
        found = guard.judge({"HTTP_AUTHORIZATION": "Bearer " + TEXT})
        self.assertEqual((f"{found}", found.told()), ("status=403 reason=path", "path"))
        self.assertEqual(f"{guard.judge({})}", "status=401 reason=no_token")

    def test_no_daemon(self):
        with folder() as path, Client(path, timeout=0.1) as client:
            self.assertEqual(self.asked(client, "Bearer " + TEXT, "granted")[0], 503)


class Asgi(unittest.TestCase):
    async def asked(self, client, header, fact, kind="http"):
        """What was sent, and the scope that the application saw; the hook is told the judgements."""
        sent, seen, self.judged = [], [], []

        async def application(scope, receive, send):
            seen.append(scope)

        async def send(message):
            sent.append(message)

        guard = asgi.RequireMacaroon(
            application, client, "bank", lambda scope: [fact], hook=lambda scope, found: self.judged.append(found)
        )
        fields = [] if header is None else [header] if isinstance(header, str) else header
        headers = [(b"Authorization", field.encode()) for field in fields]
        await guard({"type": kind, "headers": headers}, None, send)
        return sent, seen

    async def all_cases(self, path):
        async with AsyncClient(path) as client:
            for header, fact, status, challenge, identifier, reason in CASES:
                with self.subTest(header=header, fact=fact), logged(self) as log:
                    sent, seen = await self.asked(client, header, fact)
                    self.assertEqual([f"{found}" for found in self.judged], [f"status={status} reason={reason}"])
                    if status == 200:
                        self.assertEqual((sent, seen[0]["macaroond.identifier"]), ([], identifier))
                        continue
                    told = {name: value.decode() for name, value in sent[0]["headers"]}
                    self.assertEqual((seen, sent[0]["status"], told.get(b"www-authenticate")), ([], status, challenge))
                    self.assertEqual(told.get(b"macaroon-reason"), TOLD.get(reason))
                self.assertEqual(log.output, lines(status, reason))
            sent, seen = await self.asked(client, "Bearer " + TEXT, "forged", "websocket")
            self.assertEqual((sent, seen), ([{"type": "websocket.close", "code": 1008}], []))
            for fields in TWICE:
                sent, seen = await self.asked(client, fields, "granted")
                self.assertEqual((seen, sent[0]["status"]), ([], 401))
                self.assertEqual(dict(sent[0]["headers"])[b"www-authenticate"], b"Macaroon")
            sent, seen = await self.asked(client, None, "", "lifespan")
            self.assertEqual((sent, len(seen)), ([], 1))

    def test_cases(self):
        with server(judges) as path:
            asyncio.run(self.all_cases(path))


class Paths(unittest.TestCase):
    """The facts of a path, by the table that the daemon's answers are compared with too."""

    def each(self, facts_of, is_strict=False):
        for row in PATHS:
            with self.subTest(target=row["target"]):
                if row["facts"] is None or (is_strict and "odd" in row):
                    self.assertRaises(NotPlain, facts_of, row["target"])
                else:
                    self.assertEqual(facts_of(row["target"]), row["facts"])

    def test_targets(self):
        self.each(path_facts)
        self.each(lambda target: path_facts(target.encode()))

    def test_strict_targets(self):
        self.each(lambda target: path_facts(target, strict=True), is_strict=True)
        self.each(lambda target: asgi.strict_request_facts({"path": "/x", "raw_path": target.encode() or b"x"})[2:], is_strict=True)
        for odd in (b"\xc0\xae", b"\xc1", b"\xe0\x9f\xbf", b"\xf0\x8f"):
            self.assertRaises(NotPlain, path_facts, b"/a/" + odd, strict=True)
        for usual in ("\u00e9", "\u0800", "\U00010000"):
            path_facts("/a/" + usual, strict=True)
        environ = {"REQUEST_METHOD": "GET", "REQUEST_URI": "/a;b"}
        self.assertRaises(NotPlain, wsgi.strict_request_facts, environ)
        self.assertIn("path = /a;b", wsgi.request_facts(environ))

    def test_requests(self):
        def told(name):
            return lambda target: wsgi.request_facts({"REQUEST_METHOD": "PUT", "PATH_INFO": "/x", name: target or "x"})[1:]

        self.each(told("REQUEST_URI"))
        self.each(told("RAW_URI"))
        self.each(lambda target: asgi.request_facts({"path": "/x", "raw_path": target.encode() or b"x"})[2:])
        self.assertEqual(asgi.request_facts({"path": "/a", "method": "PUT"})[:2], ["method = PUT", "path = /a"])
        self.assertEqual(asgi.request_facts({"path": "/a"})[:2], ["method = GET", "method is safe"])
        for method, facts in METHODS.items():
            environ = {"REQUEST_METHOD": method, "PATH_INFO": "/a"}
            self.assertEqual(wsgi.request_facts(environ), [*facts, "path = /a", "path under /", "path under /a"])
            self.assertEqual(asgi.request_facts({"path": "/a", "method": method})[: len(facts)], facts)
        self.assertRaises(NotPlain, wsgi.request_facts, {"REQUEST_METHOD": "GET", "REQUEST_URI": "/\u20ac"})

    def test_decoded_paths(self):
        """Where a server tells a path decoded alone, it stands in facts as clients send it."""
        for path, due in {"/ä": "/%C3%A4", "/a b": "/a%20b", "/50%": "/50%25", "/a?b": "/a%3Fb", "/a:@!$&'()*+,;=-._~": None, "": "/"}.items():
            with self.subTest(path=path):
                decoded = path.encode().decode("latin-1")
                environ = {"REQUEST_METHOD": "GET", "SCRIPT_NAME": decoded[:2], "PATH_INFO": decoded[2:]}
                self.assertEqual(wsgi.request_facts(environ)[2], f"path = {due or path}")
                self.assertEqual(asgi.request_facts({"path": path or "/"})[2], f"path = {due or path}")
        for path in ("/a/../b", "/a//b", "/a\\b"):
            self.assertRaises(NotPlain, asgi.request_facts, {"path": path})
            self.assertRaises(NotPlain, wsgi.request_facts, {"REQUEST_METHOD": "GET", "PATH_INFO": path})


if __name__ == "__main__":
    unittest.main()

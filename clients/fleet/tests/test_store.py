"""Stores that are no etcd: each request ends in time, with an answer that is one or a fault that says what is wrong."""
import contextlib
import http.client
import json
import pathlib
import socket
import ssl
import subprocess
import tempfile
import threading
import time
import unittest

from macaroond_fleet import https
from macaroond_fleet.errors import FleetError, StoreAway
from macaroond_fleet.sealing import Identity
from macaroond_fleet.settings import Settings
from macaroond_fleet.store import Change, Store, User, text64

from .rooms import CURVE

PATIENCE = 1.0
KEY = "/macaroond-fleet/shop/head"


def answer(body, status="200 OK"):
    """A response of HTTP with this JSON."""
    text = body if isinstance(body, bytes) else json.dumps(body).encode()
    return f"HTTP/1.1 {status}\r\nContent-Type: application/json\r\nContent-Length: {len(text)}\r\n\r\n".encode() + text


def entry(value, key=KEY, revision="7"):
    return {"key": text64(key.encode()), "value": text64(value), "mod_revision": revision}


class Server:
    """A server of this machine that does with each connection what a function says."""

    def __init__(self, case, serve, context=None):
        self.context = context
        self.listener = socket.create_server(("127.0.0.1", 0))
        self.url = f"{'https' if context else 'http'}://127.0.0.1:{self.listener.getsockname()[1]}"
        self.serve, self.requests = serve, []
        threading.Thread(target=self.run, daemon=True).start()
        case.addCleanup(self.listener.close)

    def run(self):
        with contextlib.suppress(OSError):
            while True:
                stream, _ = self.listener.accept()
                threading.Thread(target=self.talk, args=(stream,), daemon=True).start()

    def talk(self, stream):
        with contextlib.suppress(OSError), self.context.wrap_socket(stream, server_side=True) if self.context else stream as stream:
            while True:
                head = b""
                while b"\r\n\r\n" not in head:
                    if not (piece := stream.recv(65_536)):
                        return
                    head += piece
                top, _, body = head.partition(b"\r\n\r\n")
                fields = dict(line.lower().split(b": ", 1) for line in top.split(b"\r\n")[1:])
                while len(body) < int(fields[b"content-length"]):
                    body += stream.recv(65_536)
                self.requests.append((top.split()[1].decode(), json.loads(body), fields.get(b"authorization", b"").decode()))
                if self.serve(stream, self.requests[-1]) is False:
                    return


def always(data):
    """A server that says this to everything."""
    return lambda stream, _: stream.sendall(data)


def dripping(stream, _):
    """A server that says a byte now and then, for ever."""
    for byte in b"HTTP/1.1 200 OK\r\n" + b"X: y\r\n" * 1000:
        stream.sendall(bytes([byte]))
        time.sleep(0.05)


def dripping_body(stream, _):
    stream.sendall(b"HTTP/1.1 200 OK\r\nContent-Length: 100000\r\n\r\n")
    for _ in range(1000):
        stream.sendall(b" ")
        time.sleep(0.05)


def endless(stream, _):
    """A server whose answer has no end."""
    stream.sendall(b"HTTP/1.1 200 OK\r\nTransfer-Encoding: chunked\r\n\r\n")
    while True:
        stream.sendall(b"10000\r\n" + b" " * 65_536 + b"\r\n")


class Hostile(unittest.TestCase):
    def store(self, *serves, user=None):
        self.servers = [Server(self, serve) for serve in serves]
        made = Store([server.url for server in self.servers], None, user, PATIENCE)
        self.addCleanup(made.close)
        return made

    def refuses(self, serve, why):
        store, begin = self.store(serve), time.monotonic()
        with self.assertRaises(StoreAway) as caught:
            store.get(KEY, 1000)
        self.assertIn(why, str(caught.exception))
        self.assertLess(time.monotonic() - begin, 10 * PATIENCE)

    def test_answers_that_are_none(self):
        for serve, why in {
            always(answer(b"")): "status 200",
            always(answer(b"{")): "status 200",
            always(answer([])): "status 200",
            always(answer(b"[" * 50_000)): "status 200",
            always(answer({"error": "etcdserver: request timed out", "code": 14}, "503 Service Unavailable")): "request timed out",
            always(answer({"error": {"message": "no leader"}})): "no leader",
            always(answer({"error": ["x"] * 1000}, "500 Oops")): "x",
            always(answer(b"gone", "302 Found\r\nLocation: http://127.0.0.1:1/")): "status 302",
            always(answer({"kvs": 7})): "isn't etcd's",
            always(answer({"kvs": [{"key": 7, "value": "", "mod_revision": "1"}]})): "isn't etcd's",
            always(answer({"kvs": [{"key": text64(KEY.encode()), "value": "!", "mod_revision": "1"}]})): "isn't etcd's",
            always(answer({"kvs": [entry(b"", revision="-1")]})): "isn't etcd's",
            always(answer({"kvs": [entry(b"", revision=True)]})): "isn't etcd's",
            always(answer({"kvs": [entry(b"", revision="9" * 100)]})): "isn't etcd's",
            always(answer({"kvs": [entry(b"", revision="\u00b2")]})): "isn't etcd's",
            always(answer({"kvs": [entry(b"0" * 1001)]})): "more than 1000 bytes",
            always(answer({"kvs": [entry(b"0" * 200_000)]})): "more than",
            always(b"SSH-2.0-OpenSSH\r\n"): "",
            always(b"HTTP/1.1 200 OK\r\n" + b"X: y\r\n" * 1000 + b"\r\n"): "100 headers",
            always(b"HTTP/1.1 200 " + b"x" * 100_000): "status line",
            lambda stream, _: False: "it ended the connection",
            lambda stream, _: time.sleep(60): "in time",
            dripping: "in time",
            dripping_body: "in time",
            endless: "more than",
        }.items():
            with self.subTest(why):
                self.refuses(serve, why)

    def test_a_connection_that_is_made_too_late(self):
        """The moment passes while it is made, as in a slow handshake: what is answered then may have no end."""

        class Late(http.client.HTTPConnection):
            def connect(self):
                time.sleep(1.2 * PATIENCE)
                super().connect()

        server = Server(self, dripping)
        late, begin = https.Server(server.url, None, PATIENCE), time.monotonic()
        late.connection = lambda: Late(late.host, late.port, timeout=PATIENCE)
        with self.assertRaisesRegex(https.Failed, "in time"):
            late.post("/", {}, {}, 1000)
        self.assertLess(time.monotonic() - begin, 10 * PATIENCE)
        self.assertEqual(server.requests, [])

    def test_what_isn_t_there(self):
        self.assertIsNone(self.store(always(answer({}))).get(KEY, 10))
        self.assertIsNone(self.store(always(answer({"kvs": []}))).get(KEY, 10))
        self.assertIsNone(self.store(always(answer({"kvs": [entry(b"x", key="/other")]}))).get(KEY, 10))

    def test_the_next_endpoint(self):
        store = self.store(always(answer(b"")), always(answer({"kvs": [entry(b"x")]})))
        self.assertEqual(store.get(KEY, 10).value, b"x")
        self.assertEqual(store.get(KEY, 10).revision, 7)
        self.assertEqual([len(server.requests) for server in self.servers], [1, 2])

    def test_an_endpoint_that_is_gone(self):
        with socket.create_server(("127.0.0.1", 0)) as gone:
            url = f"http://127.0.0.1:{gone.getsockname()[1]}"
        good = Server(self, always(answer({"kvs": [entry(b"x")]})))
        store = Store([url, good.url], None, None, PATIENCE)
        self.assertEqual(store.get(KEY, 10).value, b"x")
        store.close()

    def test_a_connection_that_was_ended_is_made_anew(self):
        def once(stream, _):
            stream.sendall(answer({"kvs": [entry(b"x")]}))
            return False

        store = self.store(once)
        for _ in range(3):
            self.assertEqual(store.get(KEY, 10).value, b"x")
        self.assertEqual(len(self.servers[0].requests), 3)

    def test_a_user_s_token_that_ended(self):
        tokens = iter(["first", "second"])

        def serve(stream, request):
            path, body, token = request
            if path == "/v3/auth/authenticate":
                self.assertEqual(body, {"name": "one", "password": "secret"})
                stream.sendall(answer({"token": next(tokens)}))
            elif token == "first":
                stream.sendall(answer({"error": "etcdserver: invalid auth token", "code": 16}, "401 Unauthorized"))
            else:
                stream.sendall(answer({"kvs": [entry(b"x")]}))

        store = self.store(serve, user=User("one", "secret"))
        self.assertEqual(store.get(KEY, 10).value, b"x")
        self.assertEqual([token for path, _, token in self.servers[0].requests if "range" in path], ["first", "second"])

    def test_a_token_by_which_a_restored_store_waits(self):
        """etcd waits with a token of later than all that it has, and answers by another one."""
        tokens = iter(["first", "second"])

        def serve(stream, request):
            path, _, token = request
            if path == "/v3/auth/authenticate":
                stream.sendall(answer({"token": next(tokens)}))
            elif token == "first" and len(self.servers[0].requests) > 2:
                time.sleep(2 * PATIENCE)
                return False
            else:
                stream.sendall(answer({"kvs": [entry(b"x")]}))

        store = self.store(serve, user=User("one", "secret"))
        self.assertEqual(store.get(KEY, 10).value, b"x")
        with self.assertRaisesRegex(StoreAway, "it doesn't answer in time"):
            store.get(KEY, 10)
        self.assertEqual(store.get(KEY, 10).value, b"x")
        self.assertEqual([token for path, _, token in self.servers[0].requests if "range" in path], ["first", "first", "second"])

    def test_tokens_that_are_none(self):
        for token in (None, 7, "", "a\r\nHost: b"):
            store = self.store(always(answer({"token": token})), user=User("one", "secret"))
            with self.subTest(token), self.assertRaises(StoreAway):
                store.get(KEY, 10)

    def test_a_change(self):
        store = self.store(always(answer({"succeeded": True})))
        self.assertTrue(store.change(Change({"a": b"1"}, ["b"]), ("c", 7)))
        path, body, _ = self.servers[0].requests[0]
        self.assertEqual(path, "/v3/kv/txn")
        self.assertEqual(body["compare"], [{"key": text64(b"c"), "target": "MOD", "result": "EQUAL", "mod_revision": "7"}])
        self.assertEqual(len(body["success"]), 2)
        for told in ({}, {"succeeded": "true"}, {"succeeded": 1}):
            self.assertFalse(self.store(always(answer(told))).change(Change({}), ("c", 7)))

    def test_leases(self):
        self.assertEqual(self.store(always(answer({"ID": "12"}))).grant(5), 12)
        for told in ({}, {"ID": "x"}, {"ID": None}, {"ID": "\u00b2"}):
            with self.subTest(told), self.assertRaises(StoreAway):
                self.store(always(answer(told))).grant(5)
        self.assertTrue(self.store(always(answer({"result": {"ID": "12", "TTL": "5"}}))).keep(12))
        for told in ({}, {"result": {}}, {"result": {"TTL": "0"}}, {"result": []}):
            self.assertFalse(self.store(always(answer(told))).keep(12))

    def test_a_watch(self):
        woken = threading.Event()

        def serve(stream, request):
            self.assertEqual(request[0], "/v3/watch")
            stream.sendall(b"HTTP/1.1 200 OK\r\nTransfer-Encoding: chunked\r\n\r\n")
            for line in (b'{"result":{"created":true}}\n', b'{"result":{"events":[{}]}}\n'):
                stream.sendall(f"{len(line):x}\r\n".encode() + line + b"\r\n")

        self.store(serve).watch("/a", woken.set)
        self.assertTrue(woken.wait(10))


class Tls(unittest.TestCase):
    """Who shows no certificate of the authority, for the host that is asked, is told no password."""

    def setUp(self):
        folder = tempfile.TemporaryDirectory()
        self.addCleanup(folder.cleanup)
        self.folder = pathlib.Path(folder.name)
        (self.folder / "password").write_text("secret")
        (self.folder / "password").chmod(0o600)
        self.good = self.certificate("good", "-addext", "subjectAltName=IP:127.0.0.1")

    def certificate(self, name, *words):
        made = Identity(f"{self.folder}/{name}.pem", f"{self.folder}/{name}.key")
        command = ["req", "-x509", *CURVE, "-subj", "/CN=127.0.0.1", *words, "-keyout", made.key, "-out", made.certificate]
        subprocess.run(["openssl", *command], check=True, capture_output=True)
        return made

    def store(self, shown, authority):
        """A server that shows a certificate, and the store of settings that name an authority."""
        context = ssl.SSLContext(ssl.PROTOCOL_TLS_SERVER)
        context.load_cert_chain(*shown)
        server = Server(self, always(answer({"token": "t", "kvs": [entry(b"x")]})), context)
        settings = Settings(*[""] * len(Settings._fields))._replace(endpoints=[server.url], authority=authority)
        store = settings._replace(user="one", password_file=f"{self.folder}/password").store(PATIENCE)
        self.addCleanup(store.close)
        return server, store

    def test_the_authority_s_own(self):
        server, store = self.store(self.good, self.good.certificate)
        self.assertEqual(store.get(KEY, 10).value, b"x")
        self.assertEqual(len(server.requests), 2)

    def test_somebody_else_s(self):
        """Another authority's, that of none that the system knows, and one that is for no host."""
        other, unnamed = self.certificate("other", "-addext", "subjectAltName=IP:127.0.0.1"), self.certificate("unnamed")
        for shown, authority in ((self.good, other.certificate), (self.good, ""), (unnamed, unnamed.certificate)):
            with self.subTest(authority):
                server, store = self.store(shown, authority)
                with self.assertRaisesRegex(StoreAway, "its certificate isn't believed: "):
                    store.get(KEY, 10)
                self.assertEqual(server.requests, [])


class Endpoints(unittest.TestCase):
    def test_those_that_are_none(self):
        for url in ("etcd:2379", "https://etcd", "https://etcd:2379/v3", "ftp://etcd:2379", "https://:2379", "https://etcd:x"):
            with self.subTest(url), self.assertRaisesRegex(FleetError, "no endpoint"):
                Store([url], None, None)

    def test_a_password_goes_over_tls(self):
        with self.assertRaisesRegex(FleetError, "has to be https"):
            Store(["http://etcd.example:2379"], None, None)
        Store(["http://127.0.0.1:2379", "http://[::1]:2379", "https://etcd.example:2379"], ssl.create_default_context(), None)

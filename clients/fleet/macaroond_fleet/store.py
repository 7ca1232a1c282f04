"""etcd by its JSON gateway: `/v3/kv/*`, `/v3/watch`, `/v3/lease/*` and `/v3/auth/authenticate`."""
from __future__ import annotations

import base64
import binascii
import http.client
import itertools
import json
import ssl
import threading
from typing import Any, Callable, Dict, List, NamedTuple, Optional, Sequence, Tuple

from .errors import StoreAway
from .https import Answer, Failed, Server

# The most bytes of an answer that isn't told how long it may be.
SHORT = 65_536
# The longest line of a watch: it is there to wake up, and what it says isn't read.
LINE_MAX = 4 << 20
# How many seconds a watch waits before it begins anew, rests behind a change, and believes that it is silent for good.
WATCH_PAUSE, WATCH_REST, WATCH_LONGEST = 1.0, 0.05, 60.0
# What a watch says last that etcd refuses or gives up. The stream is silent from then on.
CANCELED = b'"canceled":true'
# gRPC's number of the refusal of a token that isn't known any more.
UNAUTHENTICATED = 16


class Entry(NamedTuple):
    """What stands under a key, and the revision in which it was put there."""

    key: str
    value: bytes
    revision: int


class Change(NamedTuple):
    """What a transaction puts and takes away, and the lease of what it puts."""

    puts: Dict[str, bytes]
    deletes: Sequence[str] = ()
    lease: int = 0


class User(NamedTuple):
    """Who asks."""

    name: str
    password: str


def text64(data: bytes) -> str:
    return base64.b64encode(data).decode()


def bytes64(text: Any) -> bytes:
    """The bytes of base64; a text that is none comes from a store that isn't etcd."""
    try:
        return base64.b64decode(text, validate=True)
    except (TypeError, ValueError, binascii.Error) as fault:
        raise Failed("its answer isn't etcd's") from fault


def number(value: Any) -> int:
    """A number of the gateway, which stands in a text."""
    if isinstance(value, bool) or not isinstance(value, (str, int)) or not (str(value).isascii() and str(value).isdigit()) or len(str(value)) > 20:
        raise Failed("its answer isn't etcd's")
    return int(value)


def behind(prefix: str) -> bytes:
    """The end of the range of all keys that begin so."""
    raw = prefix.encode()
    return raw[:-1] + bytes([raw[-1] + 1])


class Store:
    """The endpoints of one etcd, asked one after the other until one answers; the last good one is asked first."""

    def __init__(self, endpoints: Sequence[str], context: Optional[ssl.SSLContext], user: Optional[User], patience: float = 5.0):
        self.servers = [Server(url, context, patience) for url in endpoints]
        self.user, self.token, self.at = user, "", 0

    def asked(self, path: str, body: Dict[str, Any], longest: int = SHORT) -> Any:
        """What the first endpoint says that answers as it must."""
        faults: Dict[str, str] = {}
        for _ in self.servers:
            server = self.servers[self.at]
            try:
                return self.told(server, path, body, longest)
            except Failed as fault:
                faults[server.url] = str(fault)
                server.close()
                self.at = (self.at + 1) % len(self.servers)
        # In the same order each time, so that the same fault is the same text.
        raise StoreAway("; ".join(f"{server.url}: {faults[server.url]}" for server in self.servers))

    def told(self, server: Server, path: str, body: Dict[str, Any], longest: int) -> Any:
        try:
            answer = server.post(path, body, self.headers(server), longest)
        except Failed:
            # A store that was begun anew or restored has its requests wait that have a token of before.
            self.token = ""
            raise
        if self.user is not None and is_unknown(answer):
            self.token = ""
            answer = server.post(path, body, self.headers(server), longest)
        return said(answer)

    def headers(self, server: Server) -> Dict[str, str]:
        """What tells who asks: a token of etcd's that ends by itself, and is asked for anew then."""
        if self.user is None:
            return {}
        if not self.token:
            asked = {"name": self.user.name, "password": self.user.password}
            told = said(server.post("/v3/auth/authenticate", asked, {}, SHORT)).get("token")
            if not isinstance(told, str) or not told or not told.isprintable():
                raise Failed("it gives the user no token")
            self.token = told
        return {"Authorization": self.token}

    def together(self, key: str, prefixes: Sequence[str], longest: int) -> List[Entry]:
        """What stands under a key, and under all keys that begin so, at one moment."""
        ranges = [{"key": text64(key.encode())}]
        ranges += [{"key": text64(prefix.encode()), "range_end": text64(behind(prefix))} for prefix in prefixes]
        told = self.asked("/v3/kv/txn", {"success": [{"requestRange": it} for it in ranges]}, 4 * longest // 3 + SHORT)
        responses = told.get("responses")
        if not isinstance(responses, list) or not all(isinstance(it, dict) for it in responses):
            raise StoreAway("its answer isn't etcd's")
        return [entry for it in responses for entry in entries(it.get("response_range") or {})]

    def get(self, key: str, longest: int) -> Optional[Entry]:
        """What stands under a key, of so many bytes at most."""
        # In JSON a value takes four thirds of its bytes, and its entry some more.
        told = self.asked("/v3/kv/range", {"key": text64(key.encode())}, 4 * longest // 3 + SHORT)
        found = [entry for entry in entries(told) if entry.key == key]
        if found and len(found[0].value) > longest:
            raise StoreAway(f"{key} has more than {longest} bytes")
        return found[0] if found else None

    def change(self, change: Change, where: Tuple[str, int]) -> bool:
        """Makes the change where a key is as it was put in this revision, or isn't there with 0; tells whether it did."""
        key, revision = where
        compare = [{"key": text64(key.encode()), "target": "MOD", "result": "EQUAL", "mod_revision": str(revision)}]
        told = self.asked("/v3/kv/txn", {"compare": compare, "success": steps(change)})
        return told.get("succeeded") is True

    def put(self, change: Change) -> None:
        """Makes the change, whatever is there."""
        self.asked("/v3/kv/txn", {"success": steps(change)})

    def grant(self, seconds: int) -> int:
        """A lease that ends so long behind the last time that it was kept."""
        told = self.asked("/v3/lease/grant", {"TTL": str(seconds)})
        try:
            return number(told.get("ID"))
        except Failed as fault:
            raise StoreAway(str(fault)) from fault

    def keep(self, lease: int) -> bool:
        """Keeps a lease; tells whether it was there still."""
        told = self.asked("/v3/lease/keepalive", {"ID": str(lease)}).get("result")
        return isinstance(told, dict) and str(told.get("TTL", "0")) not in ("0", "-1")

    def end(self, lease: int) -> None:
        """Ends a lease, and what stands under it goes."""
        self.asked("/v3/lease/revoke", {"ID": str(lease)})

    def watch(self, prefix: str, wake: Callable[[], None]) -> None:
        """Calls `wake` from a thread of its own whenever something changes, and whenever it can't tell."""
        Watch(self, prefix, wake).start()

    def close(self) -> None:
        for server in self.servers:
            server.close()


class Watch(threading.Thread):
    """Waits for changes, on a connection of its own. What it brings wakes somebody up, and nothing more is believed."""

    def __init__(self, store: Store, prefix: str, wake: Callable[[], None]) -> None:
        super().__init__(daemon=True)
        self.store, self.wake, self.pause = store, wake, threading.Event()
        self.asked = {"create_request": {"key": text64(prefix.encode()), "range_end": text64(behind(prefix))}}

    def run(self) -> None:
        """Follows one endpoint after the other, first that which answers."""
        for number in itertools.count():
            servers = self.store.servers
            try:
                self.follow(servers[(self.store.at + number) % len(servers)].connection(), self.store.token)
            except (OSError, http.client.HTTPException, ValueError):
                pass
            self.pause.wait(WATCH_PAUSE)

    def follow(self, connection: http.client.HTTPConnection, token: str) -> None:
        """Follows a watch until it ends. Without a leader it shall end, and one that is silent is begun anew."""
        headers = {"Grpc-Metadata-hasleader": "true", **({"Authorization": token} if token else {})}
        try:
            connection.request("POST", "/v3/watch", json.dumps(self.asked).encode(), headers)
            response = connection.getresponse()
            if connection.sock is not None:
                connection.sock.settimeout(WATCH_LONGEST)
            while response.status == 200 and (line := response.readline(LINE_MAX)):
                if CANCELED in line:
                    break
                self.wake()
                # Who is woken without end looks no oftener for it.
                self.pause.wait(WATCH_REST)
        finally:
            connection.close()


def is_unknown(answer: Answer) -> bool:
    """Whether the token isn't known any more, as after its time or after a change of users."""
    told = answer.json if isinstance(answer.json, dict) else {}
    return answer.status == 401 or told.get("code") == UNAUTHENTICATED or "auth" in str(told.get("error", ""))


def said(answer: Answer) -> Dict[str, Any]:
    """The JSON of a good answer."""
    told = answer.json
    if answer.status == 200 and isinstance(told, dict) and "error" not in told:
        return told
    why = told.get("error") if isinstance(told, dict) else None
    why = why.get("message") if isinstance(why, dict) else why
    raise Failed(str(why)[:200] if why else f"it answers with status {answer.status}")


def entries(told: Any) -> List[Entry]:
    found = told.get("kvs", []) if isinstance(told, dict) else None
    try:
        if not isinstance(found, list):
            raise Failed("its answer isn't etcd's")
        return [
            Entry(bytes64(it.get("key", "")).decode("utf-8", "replace"), bytes64(it.get("value", "")), number(it.get("mod_revision")))
            for it in found
            if isinstance(it, dict)
        ]
    except Failed as fault:
        raise StoreAway(str(fault)) from fault


def steps(change: Change) -> List[Dict[str, Any]]:
    lease = {"lease": str(change.lease)} if change.lease else {}
    puts = [{"requestPut": {"key": text64(key.encode()), "value": text64(value), **lease}} for key, value in change.puts.items()]
    return puts + [{"requestDeleteRange": {"key": text64(key.encode())}} for key in change.deletes]

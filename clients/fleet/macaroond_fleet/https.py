"""Requests to an HTTP server that may be slow or hostile: each has a deadline and a longest answer."""
from __future__ import annotations

import http.client
import json
import socket
import ssl
import threading
import urllib.parse
from typing import Any, Dict, Optional

from .errors import FleetError

# Hosts that a request may reach without TLS: this machine's own.
LOOPBACK = ("127.0.0.1", "::1", "localhost")


class Failed(Exception):
    """A request that came to nothing, and why."""


class Answer:
    """The status of an answer, and its JSON, or None where it has none."""

    def __init__(self, status: int, body: bytes) -> None:
        self.status = status
        try:
            self.json: Any = json.loads(body) if body else None
        except (ValueError, RecursionError):
            self.json = None


class Server:
    """A server at `https://HOST:PORT`; one connection is kept, and made anew where it has ended."""

    def __init__(self, url: str, context: Optional[ssl.SSLContext], patience: float) -> None:
        self.url, self.context, self.patience = url, context, patience
        try:
            parts = urllib.parse.urlsplit(url)
            self.host, self.port = parts.hostname, parts.port
        except ValueError as fault:
            raise FleetError(f"{url}: no endpoint: {fault}") from fault
        if not self.host or not self.port or parts.path.strip("/") or parts.scheme not in ("https", "http"):
            raise FleetError(f"{url}: no endpoint: it is https://HOST:PORT")
        if parts.scheme == "http" and self.host not in LOOPBACK:
            raise FleetError(f"{url}: a password goes there, so it has to be https://")
        self.is_plain = parts.scheme == "http"
        self.kept: Optional[http.client.HTTPConnection] = None

    def connection(self) -> http.client.HTTPConnection:
        """A new connection, whose first step is made by a request."""
        assert self.host
        if self.is_plain:
            return http.client.HTTPConnection(self.host, self.port, timeout=self.patience)
        return http.client.HTTPSConnection(self.host, self.port, timeout=self.patience, context=self.context)

    def post(self, path: str, body: Dict[str, Any], headers: Dict[str, str], longest: int) -> Answer:
        """What is answered within the patience, of so many bytes at most."""
        is_old, self.kept = self.kept, None
        connection = is_old or self.connection()
        try:
            with Deadline(connection, self.patience) as deadline:
                if connection.sock is None:
                    connection.connect()
                    deadline.require()
                connection.request("POST", path, json.dumps(body).encode(), {"Content-Type": "application/json", **headers})
                response = connection.getresponse()
                text = response.read(longest + 1)
        except (OSError, http.client.HTTPException, ValueError) as fault:
            connection.close()
            if is_old and isinstance(fault, (http.client.RemoteDisconnected, ConnectionError, http.client.CannotSendRequest)):
                return self.post(path, body, headers, longest)
            raise Failed(words_of(fault)) from fault
        if len(text) > longest:
            connection.close()
            raise Failed(f"it answers with more than {longest} bytes")
        if response.will_close:
            connection.close()
        else:
            self.kept = connection
        return Answer(response.status, text)

    def close(self) -> None:
        kept, self.kept = self.kept, None
        if kept is not None:
            kept.close()


def words_of(fault: BaseException) -> str:
    """What went wrong, in a few words."""
    if isinstance(fault, TimeoutError):
        return "it doesn't answer in time"
    if isinstance(fault, (ssl.SSLEOFError, http.client.RemoteDisconnected)):
        return "it ended the connection"
    if isinstance(fault, ssl.SSLCertVerificationError):
        return f"its certificate isn't believed: {fault.verify_message.rstrip('.')}"
    text = fault.strerror if isinstance(fault, OSError) and fault.strerror else str(fault)
    return " ".join((text or type(fault).__name__).split())[:200]


class Deadline:
    """Breaks a connection off that isn't done in time: a server may send a byte now and then, for ever."""

    def __init__(self, connection: http.client.HTTPConnection, seconds: float) -> None:
        self.connection, self.has_passed = connection, False
        self.timer = threading.Timer(seconds, self.cut)
        self.timer.daemon = True

    def cut(self) -> None:
        self.has_passed = True
        if (stream := self.connection.sock) is not None:
            try:
                stream.shutdown(socket.SHUT_RDWR)
            except OSError:
                pass

    def require(self) -> None:
        """A connection that was made too late is no good: a cut found no socket, or one that isn't it any more."""
        if self.has_passed:
            raise TimeoutError()

    def __enter__(self) -> Deadline:
        self.timer.start()
        return self

    def __exit__(self, _: Any, fault: Optional[BaseException], __: Any) -> None:
        self.timer.cancel()
        if self.has_passed:
            # What came until then ends like a whole answer.
            raise TimeoutError() from fault

"""A server that follows a script, in place of the daemon: it can cut, wait, lie and leave."""
import contextlib
import os
import socket
import struct
import tempfile
import threading

GRANTED = b"\x00"


class Stream:
    """The server's side of one connection."""

    def __init__(self, stream):
        self.stream = stream
        self.received = stream.makefile("rb")
        self.hello = self.received.read(1)
        self.place = 0

    def request(self):
        """The next request's payload, or None at the end."""
        front = self.received.read(4)
        return self.received.read(int.from_bytes(front, "big")) if len(front) == 4 else None

    def requests(self, count):
        return [self.request() for _ in range(count)]

    def send(self, content):
        self.stream.sendall(content)

    def reply(self, content, place=None):
        """Sends a reply, by default to the next place."""
        self.send(self.framed(content, place))

    def framed(self, content, place=None):
        if place is None:
            place, self.place = self.place, self.place + 1
        return struct.pack(">IQ", 8 + len(content), place) + content

    def echo_all(self):
        """Answers each request with a token that is the request itself, to the end."""
        while (payload := self.request()) is not None:
            self.reply(b"\x01" + payload)

    def grant_all(self):
        while self.request() is not None:
            self.reply(GRANTED)


def listening(path):
    made = socket.socket(socket.AF_UNIX)
    made.bind(path)
    made.listen(64)
    return made


@contextlib.contextmanager
def folder():
    """The path of a socket that isn't there yet."""
    with tempfile.TemporaryDirectory() as name:
        yield os.path.join(name, "socket")


@contextlib.contextmanager
def server(*scripts):
    """The path of a socket where the n-th connection goes by the n-th script; connections behind the last are closed at once."""
    with folder() as path:
        with running(path, *scripts):
            yield path


@contextlib.contextmanager
def running(path, *scripts):
    listener = listening(path)
    thread = threading.Thread(target=accept_all, args=(listener, list(scripts)), daemon=True)
    thread.start()
    try:
        yield
    finally:
        listener.shutdown(socket.SHUT_RDWR)
        listener.close()
        os.unlink(path)


def accept_all(listener, scripts):
    while True:
        try:
            stream, _ = listener.accept()
        except OSError:
            return
        if not scripts:
            stream.close()
            continue
        threading.Thread(target=follow, args=(scripts.pop(0), stream), daemon=True).start()


def follow(script, stream):
    with stream, contextlib.suppress(OSError):
        script(Stream(stream))
        # So that a client reads an end, and no reset, where it has sent more.
        stream.shutdown(socket.SHUT_WR)

"""One connection, shared by threads: whoever asks writes, and a thread of its own reads."""
from __future__ import annotations

import select
import socket
import threading
from typing import Optional

from .backoff import Deadline
from .errors import Disconnected, TimedOut
from .wire import HELLO, Batch, Ledger

READ_SIZE = 262_144
# Who asks waits while more bytes are unsent.
UNSENT_MAX = 1_048_576


class NotSent(Exception):
    """The connection had ended before anything of the request was sent."""


class Connection:
    """A connection from the hello to its end.

    Once `fault` says why, nothing more is sent; replies may still come, until it `is_over`.
    """

    def __init__(self, path: str, timeout: Optional[float]) -> None:
        self.socket = connected(path, timeout)
        self.ledger = Ledger()
        self.fault: Optional[Disconnected] = None
        self.is_over = False
        self.unsent = bytearray(HELLO)
        self.is_stuck = False
        self.lock = threading.Lock()
        self.room = threading.Condition(self.lock)
        # Who leaves bytes to the thread that reads rings.
        self.bell, self.rope = socket.socketpair()
        self.poller = select.poll()
        self.poller.register(self.bell, select.POLLIN)
        threading.Thread(target=self.run, name="macaroond", daemon=True).start()

    def was_answered(self) -> bool:
        return self.ledger.place > 0

    def send(self, frames: bytes, batch: Batch, deadline: Deadline) -> None:
        """Sends a batch's frames, or leaves them to the thread that reads where the socket is full."""
        with self.lock:
            while len(self.unsent) > UNSENT_MAX and self.fault is None:
                if not self.room.wait(deadline.left()):
                    raise TimedOut("the daemon took no request in time")
            if self.fault is not None:
                raise NotSent
            self.ledger.expect(batch)
            self.unsent += frames
            if not self.is_stuck:
                self.flush()
                if self.is_stuck:
                    self.rope.send(b"!")

    def flush(self) -> None:
        """Writes what the socket takes; the lock is held."""
        try:
            del self.unsent[: self.socket.send(self.unsent)]
        except BlockingIOError:
            pass
        except OSError as fault:
            self.send_no_more(Disconnected(f"the connection failed: {fault}"))
        self.is_stuck = bool(self.unsent)

    def run(self) -> None:
        """What the thread does that reads: turns, up to the end."""
        try:
            while not self.is_over:
                self.turn()
        except Disconnected as fault:
            self.end(fault)
        except OSError as fault:
            self.end(Disconnected(f"the connection failed: {fault}"))
        # Who ends the connection rings before it lets go of the lock.
        with self.lock:
            self.give_back()

    def turn(self) -> None:
        """Waits until there is something to read or room to write, and uses it."""
        self.poller.register(self.socket, select.POLLIN | (select.POLLOUT if self.is_stuck else 0))
        for descriptor, event in self.poller.poll():
            if descriptor == self.bell.fileno():
                self.bell.recv(READ_SIZE)
                continue
            if event & select.POLLOUT:
                self.write_on()
            if event & ~select.POLLOUT:
                self.read()

    def write_on(self) -> None:
        """Writes what others left unsent."""
        with self.lock:
            self.flush()
            if len(self.unsent) <= UNSENT_MAX:
                self.room.notify_all()

    def read(self) -> None:
        """Reads what is there, and hands each reply to who waits for it."""
        try:
            piece = self.socket.recv(READ_SIZE)
        except BlockingIOError:
            return
        if not piece:
            raise Disconnected("the daemon closed the connection")
        with self.lock:
            self.ledger.take(piece)

    def end(self, fault: Disconnected) -> None:
        """Ends the connection, and tells all who wait why."""
        with self.lock:
            if not self.is_over:
                self.is_over = True
                self.send_no_more(fault)
                self.ledger.end(fault)
                self.rope.send(b"!")

    def send_no_more(self, fault: Disconnected) -> None:
        """From now on who asks is told to take another connection; the lock is held."""
        self.fault = self.fault or fault
        self.unsent.clear()
        self.room.notify_all()

    def give_back(self) -> None:
        """Closes what it holds; in a forked child, whose parent goes on, too."""
        for held in (self.socket, self.bell, self.rope):
            held.close()


def connected(path: str, timeout: Optional[float]) -> socket.socket:
    """A socket that is connected, and doesn't wait."""
    made = socket.socket(socket.AF_UNIX)
    try:
        made.settimeout(timeout)
        made.connect(path)
    except BaseException:
        made.close()
        raise
    made.setblocking(False)
    return made

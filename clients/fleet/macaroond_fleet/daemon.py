"""What the daemon tells of itself at its status socket, and whether a file that was put is up there.

That a file was written says nothing: what the daemon tells has to have become another thing since.
"""
from __future__ import annotations

import functools
import http.client
import re
import socket
import time
from typing import Callable, Dict, Optional

from .files import Target
from .https import Deadline

NUMBER = re.compile(r"^macaroond_([a-z_]+) (\d{1,18})$", re.MULTILINE)
# How many seconds the daemon has for an answer, and the most bytes of one.
PATIENCE, ANSWER_MAX = 3.0, 1 << 20
# Within how many seconds behind its reading of a file a daemon that starts tells of it.
TOLD_WITHIN = 3
# Behind so many seconds a file that isn't up is put once more, so that the daemon reads it again.
AGAIN = 5.0

Numbers = Dict[str, int]


class StatusSocket(http.client.HTTPConnection):
    """A connection to the socket of what the daemon counts."""

    def __init__(self, path: str) -> None:
        super().__init__("localhost", timeout=PATIENCE)
        self.path = path

    def connect(self) -> None:
        self.sock = socket.socket(socket.AF_UNIX)
        self.sock.settimeout(PATIENCE)
        self.sock.connect(self.path)


def numbers(path: str) -> Optional[Numbers]:
    """What the daemon at this socket counts, or None where it doesn't answer."""
    connection = StatusSocket(f"{path}.status")
    try:
        with Deadline(connection, PATIENCE):
            connection.request("GET", "/metrics")
            response = connection.getresponse()
            text = response.read(ANSWER_MAX).decode("ascii", "replace")
        return {name: int(value) for name, value in NUMBER.findall(text)} if response.status == 200 else None
    except (OSError, http.client.HTTPException):
        return None
    finally:
        connection.close()


class Reading:
    """A file of the daemon's: which serial it has, and which one the daemon is known to have read."""

    def __init__(self, target: Target, ask: Callable[[], Optional[Numbers]]) -> None:
        self.target, self.ask = target, ask
        self.serial, self.up, self.is_up, self.text = 0, 0, False, b""
        self.why = "nothing is known of it yet"
        # When the file came there, what the daemon told before, and when to have it read once more.
        self.put_at, self.before, self.again_at = -1, -1, 0.0

    def number(self, told: Numbers) -> int:
        """What the daemon tells of its reading of the file, or -1."""
        raise NotImplementedError

    def is_read(self, at: int) -> bool:
        """Whether by this number it has read the file that is there."""
        raise NotImplementedError

    def is_of_it(self, told: Numbers) -> bool:
        """Whether what the daemon has read may be this file, and not another one that it was started with."""
        return True

    def is_refused(self, told: Numbers) -> bool:
        """Whether the daemon tells that it has refused the file."""
        return False

    def is_ambiguous(self, told: Optional[Numbers]) -> bool:
        """Whether a reading that came now couldn't be told from the last one."""
        return False

    def bring(self, text: bytes, serial: int, told: Optional[Numbers]) -> None:
        """Has the file be as it is wanted. One that the daemon is about to read isn't replaced before it was."""
        if not self.is_there(text):
            is_reading = not self.is_up and self.put_at >= 0 and told is not None and time.monotonic() < self.again_at
            if is_reading or self.is_ambiguous(told):
                return
            self.put(text, told)
        self.serial, self.text = serial, text

    def is_there(self, text: bytes) -> bool:
        """Whether the file is as it is wanted."""
        return self.target.content() == text

    def told_apart(self, text: bytes, told: Optional[Numbers]) -> bytes:
        """The text in a form whose reading can be told from that of the file before."""
        return text

    def put(self, text: bytes, told: Optional[Numbers]) -> None:
        """From now on another reading is one of the file that is there: the daemon looks at it twice before it reads it."""
        self.target.put(self.told_apart(text, told))
        told = self.ask()
        self.put_at, self.before = int(time.time()), self.number(told) if told else -1
        self.again_at = time.monotonic() + AGAIN
        self.is_up, self.why = False, "its daemon hasn't read it yet"

    def look(self, told: Optional[Numbers]) -> None:
        """Learns from what the daemon tells now."""
        self.is_up = False
        if self.put_at < 0:
            # Of a file that was there before this agent the daemon's reading is known to be later, or is had once more.
            self.put_at = self.target.changed_at()
        if told is None:
            self.why = "its daemon doesn't answer"
        elif self.is_refused(told):
            self.why = f"its daemon refuses {self.target.path}; its log says why"
        elif self.is_read(self.number(told)) and self.is_of_it(told):
            self.is_up, self.why, self.up = True, "", self.serial
        elif time.monotonic() > self.again_at and not self.is_ambiguous(told):
            self.put(self.text, told)
            self.why = f"its daemon doesn't take {self.target.path}; is it started with that, or a link to it? its log may say more"


class KeysReading(Reading):
    """The key file. The daemon tells when it took one last, to the second; so none is put in a second in which it did."""

    def number(self, told: Numbers) -> int:
        return told.get("keys_read_seconds", -1)

    def is_read(self, at: int) -> bool:
        """One that told nothing before may have been about to start, and have read what was there before this file."""
        return at > self.put_at + TOLD_WITHIN if self.before < 0 else at != self.before

    def is_of_it(self, told: Numbers) -> bool:
        """By how many names the daemon has: one that is started anew with another file has read that since, too."""
        names = names_in(self.target.content() or b"")
        return told.get("key_names", names) == names

    def is_refused(self, told: Numbers) -> bool:
        return told.get("keys_refused", 0) != 0

    def is_ambiguous(self, told: Optional[Numbers]) -> bool:
        return told is not None and self.number(told) == int(time.time())


class RevokedReading(Reading):
    """The revocations. The daemon tells how many lines it has up, and of a list that it refuses nothing.

    So a list of as many lines as the daemon has up already is put with its last line twice, which
    says the same and counts as one more.
    """

    def number(self, told: Numbers) -> int:
        return told.get("revoked", -1)

    def is_there(self, text: bytes) -> bool:
        return self.target.content() in (text, with_last_twice(text))

    def told_apart(self, text: bytes, told: Optional[Numbers]) -> bytes:
        is_alike = told is not None and self.number(told) == lines_in(text) > 0
        return with_last_twice(text) if is_alike else text

    def is_read(self, at: int) -> bool:
        """By the number of lines; where it isn't known what the daemon told before, the file has to be there for a while."""
        lines = lines_in(self.target.content() or b"")
        is_another = at != self.before if self.before >= 0 else time.time() > self.put_at + TOLD_WITHIN
        return at == lines and (lines == 0 or is_another)

    def look(self, told: Optional[Numbers]) -> None:
        super().look(told)
        if told is not None and not self.is_up and self.number(told) < 0:
            self.why = "its daemon tells of no revocations; is it started with `--revoked FILE`?"


@functools.lru_cache(maxsize=1)
def names_in(text: bytes) -> int:
    """How many names have a key."""
    return len({line.split(b" ")[1] for line in text.split(b"\n") if line.startswith(b"key ")})


def lines_in(text: bytes) -> int:
    """How many lines take tokens back. A name may end in the word that such a line begins with."""
    return (b"\n" + text).count(b"\nrevoked ")


def with_last_twice(text: bytes) -> bytes:
    """The lines, of which the last one stands there twice."""
    return text + text.splitlines(keepends=True)[-1]

"""When to connect again."""
from __future__ import annotations

import random
import time

# The first pause behind a failure, and the longest, in seconds.
FIRST_PAUSE, LONGEST_PAUSE = 0.05, 2.0


class Backoff:
    """Pauses that grow with each failure that follows another, each cut by chance, so that clients spread."""

    def __init__(self) -> None:
        self.pause = 0.0
        self.until = 0.0

    def failed(self) -> None:
        self.pause = min(max(2 * self.pause, FIRST_PAUSE), LONGEST_PAUSE)
        self.until = time.monotonic() + self.pause * random.uniform(0.5, 1)

    def succeeded(self) -> None:
        self.pause = self.until = 0.0

    def left(self) -> float:
        """The seconds until the next try."""
        return max(self.until - time.monotonic(), 0)


class Deadline:
    """The moment up to which a call waits; without a timeout it waits as long as it takes."""

    def __init__(self, timeout: float | None) -> None:
        self.at = None if timeout is None else time.monotonic() + timeout

    def left(self) -> float | None:
        """The seconds that are left."""
        return None if self.at is None else max(self.at - time.monotonic(), 0)

    def allows(self, seconds: float) -> bool:
        """Whether so many seconds are left."""
        left = self.left()
        return left is None or left > seconds


def shorter(one: float | None, other: float | None) -> float | None:
    """The shorter one of two timeouts, of which None is the longest."""
    return min((given for given in (one, other) if given is not None), default=None)

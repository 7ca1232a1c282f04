"""When the daemon isn't asked, since it is known to be away."""
from __future__ import annotations

import threading
import time

from .backoff import Backoff

# After so many failures in a row the daemon is taken to be away.
FAILURES = 3


class Breaker:
    """Tells whether to ask the daemon.

    After `FAILURES` failures in a row it says no for a pause, and yes to one call behind it. Others wait
    for what comes of that call, or for `patience` seconds. A pause follows each failure, longer than the
    last one and of two seconds at most; the first success ends it.
    """

    def __init__(self, patience: float) -> None:
        self.patience = patience
        self.lock = threading.Lock()
        self.failures = 0
        self.tried_until = 0.0
        self.backoff = Backoff()

    def allows(self) -> bool:
        """Whether a call may be made now; what comes of it is told by `failed` or `succeeded`."""
        with self.lock:
            if self.failures < FAILURES:
                return True
            now = time.monotonic()
            if now < self.tried_until or self.backoff.left() > 0:
                return False
            self.tried_until = now + self.patience
            return True

    def failed(self) -> None:
        with self.lock:
            self.failures += 1
            if self.failures >= FAILURES:
                self.tried_until = 0.0
                self.backoff.failed()

    def succeeded(self) -> None:
        with self.lock:
            self.failures = 0
            self.backoff.succeeded()

"""The client for threads."""
from __future__ import annotations

import collections
import os
import threading
import time
import weakref
from typing import Any, Deque, Iterable, Iterator, List, Literal, NamedTuple, Optional, Union, overload

from .backoff import Backoff, Deadline, shorter
from .calls import BATCHES_OUT, Asked, Call, attenuate_call, batches, mint_call, raw_call, verify_call
from .connection import Connection, NotSent
from .errors import Disconnected, TimedOut
from .forms import Form
from .text import Text
from .verdict import Verdict
from .wire import Batch

TextForm = Literal[Form.V1_TEXT, Form.V2_JSON, Form.V2_TEXT]
BinaryForm = Literal[Form.V2_BINARY]


class Sent(NamedTuple):
    """Calls that went out together, and the lock that is free once they are answered."""

    calls: List[Call]
    batch: Batch
    answered: threading.Lock
    deadline: Deadline


class Client:
    """A client of the daemon at a socket, for any number of threads.

    All calls share one connection, and none waits for another's reply. The connection is made by the
    first call and, once it has ended, by the next one, with pauses that grow while that fails. A call
    that can't be answered within `timeout` seconds (None: it waits as long as it takes) raises
    `TimedOut`, or `Disconnected` where there is no connection.

    A request that was out when the connection ended raises `Disconnected`. With `retry` a verify and
    an attenuate are sent once more instead: they come to the same however often they are asked. A
    mint is never sent twice.
    """

    def __init__(self, path: Union[str, os.PathLike[str]], *, timeout: Optional[float] = 5.0, retry: bool = False) -> None:
        self._begin()
        self._is_closed = False
        self.path = os.fspath(path)
        self.timeout = timeout
        self.retry = retry
        CLIENTS.add(self)

    def _begin(self) -> None:
        self._dialling = threading.Lock()
        self._connection: Optional[Connection] = None
        self._backoff = Backoff()

    def __enter__(self) -> Client:
        return self

    def __exit__(self, *_: object) -> None:
        self.close()

    def __del__(self) -> None:
        self.close()

    def connect(self) -> None:
        """Connects now, where a call would do so: it waits for the daemon as a call does."""
        self._connected(Deadline(self.timeout))

    def close(self) -> None:
        """Ends the connection, and with it all calls that wait."""
        self._is_closed = True
        connection, self._connection = self._connection, None
        if connection is not None:
            connection.end(Disconnected("the client was closed"))

    @overload
    def mint(
        self, key: Text, identifier: Optional[Text] = ..., location: Text = ..., caveats: Iterable[Text] = ..., form: TextForm = ...
    ) -> str: ...

    @overload
    def mint(
        self, key: Text, identifier: Optional[Text] = ..., location: Text = ..., caveats: Iterable[Text] = ..., *, form: BinaryForm
    ) -> bytes: ...

    def mint(
        self,
        key: Text,
        identifier: Optional[Text] = None,
        location: Text = "",
        caveats: Iterable[Text] = (),
        form: Form = Form.V2_TEXT,
    ) -> Any:
        """A new token under the daemon's key of this name: text, or bytes in V2 binary. Without an identifier
        it gets 128 random bits in hexadecimal, which `inspect(token).identifier` tells."""
        return self._made(mint_call(key, identifier, location, caveats, form))

    @overload
    def attenuate(self, token: str, *caveats: Text, form: None = ...) -> str: ...

    @overload
    def attenuate(self, token: bytes, *caveats: Text, form: None = ...) -> Union[str, bytes]: ...

    @overload
    def attenuate(self, token: Text, *caveats: Text, form: TextForm) -> str: ...

    @overload
    def attenuate(self, token: Text, *caveats: Text, form: BinaryForm) -> bytes: ...

    def attenuate(self, token: Text, *caveats: Text, form: Optional[Form] = None) -> Any:
        """The token with these caveats behind its own, in its own form where none is given."""
        return self._made(attenuate_call(token, caveats, form))

    def verify(
        self, key: Text, token: Text, facts: Iterable[Text] = (), at: Optional[float] = None, *, timeout: Optional[float] = None
    ) -> Verdict:
        """Whether the daemon's key grants the token, given these facts, at a moment in seconds since 1970.

        Without a moment it is that of the daemon's clock. A `timeout` of its own shortens the client's.
        """
        made: Verdict = self._made(verify_call(key, token, facts, at), timeout)
        return made

    def verify_many(self, key: Text, asked: Iterable[Asked], at: Optional[float] = None) -> Iterator[Verdict]:
        """The verdict on each token with its facts, in order.

        However many are asked, few are held: up to 2,048 are asked before the first verdict is given.
        `timeout` is for the next verdicts to come, and not for all.
        """
        return self._many(verify_call(key, token, facts, at) for token, facts in asked)

    def ask(self, payload: bytes) -> bytes:
        """The reply's payload to any request's payload, as docs/FORMATS.md has them; it is never sent twice."""
        made: bytes = self._made(raw_call(payload))
        return made

    def ask_many(self, payloads: Iterable[bytes]) -> Iterator[bytes]:
        """The replies' payloads, in order, as `verify_many` gives verdicts."""
        return self._many(map(raw_call, payloads))

    def _made(self, call: Call, timeout: Optional[float] = None) -> Any:
        return call.meaning(self._replies(self._sent([call], Deadline(shorter(self.timeout, timeout))))[0])

    def _many(self, calls: Iterable[Call]) -> Iterator[Any]:
        for sent in self._in_turn(calls):
            # Its time begins once those before it are answered.
            replies = self._replies(sent._replace(deadline=Deadline(self.timeout)))
            for call, reply in zip(sent.calls, replies):
                yield call.meaning(reply)

    def _in_turn(self, calls: Iterable[Call]) -> Iterator[Sent]:
        """Sends in batches, and gives each once as many are out as may be."""
        out: Deque[Sent] = collections.deque()
        for run in batches(calls):
            out.append(self._sent(run, Deadline(self.timeout)))
            if len(out) == BATCHES_OUT:
                yield out.popleft()
        while out:
            yield out.popleft()

    def _replies(self, sent: Sent) -> List[bytes]:
        """The replies to what was sent, or, where that may be, to what is sent once more."""
        try:
            return answers(sent)
        except Disconnected:
            if self._is_closed or not self.retry or not all(call.may_repeat for call in sent.calls):
                raise
        return answers(self._sent(sent.calls, sent.deadline))

    def _sent(self, calls: List[Call], deadline: Deadline) -> Sent:
        """Sends the calls, over a new connection where the last one has ended."""
        answered = threading.Lock()
        answered.acquire()
        sent = Sent(calls, Batch(len(calls), answered.release), answered, deadline)
        frames = calls[0].frame if len(calls) == 1 else b"".join([call.frame for call in calls])
        while True:
            try:
                self._connected(sent.deadline).send(frames, sent.batch, sent.deadline)
                return sent
            except NotSent:
                continue

    def _connected(self, deadline: Deadline) -> Connection:
        """The connection, made anew where it has ended."""
        connection = self._connection
        if connection is not None and connection.fault is None:
            return connection
        if not self._dialling.acquire(timeout=seconds(deadline)):
            raise Disconnected(f"there is no connection to {self.path}")
        try:
            return self._dialled(deadline)
        finally:
            self._dialling.release()

    def _dialled(self, deadline: Deadline) -> Connection:
        """The connection, for which one thread at a time tries until its deadline."""
        self._leave_ended()
        while self._connection is None:
            if self._is_closed:
                raise Disconnected("the client was closed")
            time.sleep(self._pause(deadline, "it fails again and again"))
            try:
                self._connection = Connection(self.path, deadline.left())
            except OSError as fault:
                self._backoff.failed()
                self._pause(deadline, str(fault))
        return self._connection

    def _leave_ended(self) -> None:
        """Lets go of a connection that has ended, and notes whether it was of use."""
        if self._connection is not None and self._connection.fault is not None:
            note = self._backoff.succeeded if self._connection.was_answered() else self._backoff.failed
            note()
            self._connection = None

    def _pause(self, deadline: Deadline, reason: str) -> float:
        """The seconds until the next try, where the deadline allows it."""
        pause = self._backoff.left()
        if not deadline.allows(pause):
            raise Disconnected(f"there is no connection to {self.path}: {reason}")
        return pause


def seconds(deadline: Deadline) -> float:
    """What is left, as a lock is told it."""
    left = deadline.left()
    return -1 if left is None else min(left, threading.TIMEOUT_MAX)


def answers(sent: Sent) -> List[bytes]:
    """Waits for the replies."""
    if not sent.answered.acquire(timeout=seconds(sent.deadline)):
        raise TimedOut("no reply came in time")
    return sent.batch.answers()


CLIENTS: weakref.WeakSet[Client] = weakref.WeakSet()


def begin_anew() -> None:
    """In a forked child each client connects by itself: the thread that reads stayed with the parent."""
    for client in list(CLIENTS):
        connection = client._connection
        client._begin()
        if connection is not None:
            connection.give_back()


os.register_at_fork(after_in_child=begin_anew)

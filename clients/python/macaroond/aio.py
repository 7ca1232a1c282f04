"""The client for tasks of asyncio."""
from __future__ import annotations

import asyncio
import collections
import os
from typing import Any, AsyncIterable, AsyncIterator, Callable, Deque, Iterable, List, NamedTuple, Optional, Union, overload

from .backoff import Backoff, Deadline, shorter
from .calls import BATCHES_OUT, Asked, Call, Run, attenuate_call, batches, mint_call, raw_call, verify_call
from .client import BinaryForm, TextForm
from .errors import Disconnected, TimedOut
from .forms import Form
from .text import Text
from .verdict import Verdict
from .wire import HELLO, Batch, Ledger


class AsyncConnection(asyncio.Protocol):
    """A connection from the hello to its end, of which `fault` tells."""

    def __init__(self) -> None:
        self.ledger = Ledger()
        self.fault: Optional[Disconnected] = None
        self.unsent: List[bytes] = []
        self.has_room = asyncio.Event()
        self.has_room.set()

    def was_answered(self) -> bool:
        return self.ledger.place > 0

    def connection_made(self, transport: asyncio.BaseTransport) -> None:
        assert isinstance(transport, asyncio.Transport)
        self.transport = transport
        transport.write(HELLO)

    def data_received(self, data: bytes) -> None:
        try:
            self.ledger.take(data)
        except Disconnected as fault:
            self.end(fault)

    def connection_lost(self, fault: Optional[Exception]) -> None:
        self.end(Disconnected(f"the connection failed: {fault}" if fault else "the daemon closed the connection"))

    def pause_writing(self) -> None:
        self.has_room.clear()

    def resume_writing(self) -> None:
        self.has_room.set()

    def send(self, frames: bytes, batch: Batch) -> None:
        """Sends a batch's frames, in one write with those of other tasks that ask in the same turn of the loop."""
        self.ledger.expect(batch)
        if not self.unsent:
            asyncio.get_running_loop().call_soon(self.flush)
        self.unsent.append(frames)

    def flush(self) -> None:
        if self.fault is None:
            self.transport.write(b"".join(self.unsent))
        self.unsent.clear()

    def end(self, fault: Disconnected) -> None:
        """Ends the connection. All who wait are told why, but who came after an earlier end."""
        if self.fault is None:
            self.fault = fault
            self.ledger.end(fault)
            self.has_room.set()
            self.transport.abort()


class Sent(NamedTuple):
    """Calls that went out together, and the future that is done once they are answered."""

    calls: List[Call]
    batch: Batch
    answered: asyncio.Future[None]
    deadline: Deadline


class AsyncClient:
    """A client of the daemon at a socket, for any number of tasks of one event loop.

    It has `Client`'s calls, to be awaited, and what is said there of connections, of `timeout` and of
    `retry` holds here. A task that is cancelled leaves its request's reply to be dropped.
    """

    def __init__(self, path: Union[str, os.PathLike[str]], *, timeout: Optional[float] = 5.0, retry: bool = False) -> None:
        self.path = os.fspath(path)
        self.timeout = timeout
        self.retry = retry
        self._dialling: Optional[asyncio.Lock] = None
        self._connection: Optional[AsyncConnection] = None
        self._backoff = Backoff()
        self._is_closed = False

    async def __aenter__(self) -> AsyncClient:
        return self

    async def __aexit__(self, *_: object) -> None:
        await self.close()

    async def connect(self) -> None:
        """Connects now, where a call would do so: it waits for the daemon as a call does."""
        await self._connected(Deadline(self.timeout))

    async def close(self) -> None:
        """Ends the connection, and with it all calls that wait."""
        self._is_closed = True
        connection, self._connection = self._connection, None
        if connection is not None:
            connection.end(Disconnected("the client was closed"))

    @overload
    async def mint(
        self, key: Text, identifier: Optional[Text] = ..., location: Text = ..., caveats: Iterable[Text] = ..., form: TextForm = ...
    ) -> str: ...

    @overload
    async def mint(
        self, key: Text, identifier: Optional[Text] = ..., location: Text = ..., caveats: Iterable[Text] = ..., *, form: BinaryForm
    ) -> bytes: ...

    async def mint(
        self,
        key: Text,
        identifier: Optional[Text] = None,
        location: Text = "",
        caveats: Iterable[Text] = (),
        form: Form = Form.V2_TEXT,
    ) -> Any:
        """A new token under the daemon's key of this name: text, or bytes in V2 binary. Without an identifier
        it gets 128 random bits in hexadecimal, which `inspect(token).identifier` tells."""
        return await self._made(mint_call(key, identifier, location, caveats, form))

    @overload
    async def attenuate(self, token: str, *caveats: Text, form: None = ...) -> str: ...

    @overload
    async def attenuate(self, token: bytes, *caveats: Text, form: None = ...) -> Union[str, bytes]: ...

    @overload
    async def attenuate(self, token: Text, *caveats: Text, form: TextForm) -> str: ...

    @overload
    async def attenuate(self, token: Text, *caveats: Text, form: BinaryForm) -> bytes: ...

    async def attenuate(self, token: Text, *caveats: Text, form: Optional[Form] = None) -> Any:
        """The token with these caveats behind its own, in its own form where none is given."""
        return await self._made(attenuate_call(token, caveats, form))

    async def verify(
        self, key: Text, token: Text, facts: Iterable[Text] = (), at: Optional[float] = None, *, timeout: Optional[float] = None
    ) -> Verdict:
        """Whether the daemon's key grants the token, given these facts, at a moment in seconds since 1970.

        Without a moment it is that of the daemon's clock. A `timeout` of its own shortens the client's.
        """
        made: Verdict = await self._made(verify_call(key, token, facts, at), timeout)
        return made

    def verify_many(
        self, key: Text, asked: Union[Iterable[Asked], AsyncIterable[Asked]], at: Optional[float] = None
    ) -> AsyncIterator[Verdict]:
        """The verdict on each token with its facts, in order.

        However many are asked, few are held: up to 2,048 are asked before the first verdict is given.
        `timeout` is for the next verdicts to come, and not for all.
        """
        return self._many(asked, lambda one: verify_call(key, one[0], one[1], at))

    async def ask(self, payload: bytes) -> bytes:
        """The reply's payload to any request's payload, as docs/FORMATS.md has them; it is never sent twice."""
        made: bytes = await self._made(raw_call(payload))
        return made

    def ask_many(self, payloads: Union[Iterable[bytes], AsyncIterable[bytes]]) -> AsyncIterator[bytes]:
        """The replies' payloads, in order, as `verify_many` gives verdicts."""
        return self._many(payloads, raw_call)

    async def _made(self, call: Call, timeout: Optional[float] = None) -> Any:
        replies = await self._replies(await self._sent([call], Deadline(shorter(self.timeout, timeout))))
        return call.meaning(replies[0])

    async def _many(self, asked: Any, call_of: Callable[[Any], Call]) -> AsyncIterator[Any]:
        async for sent in self._in_turn(asked, call_of):
            # Its time begins once those before it are answered.
            replies = await self._replies(sent._replace(deadline=Deadline(self.timeout)))
            for call, reply in zip(sent.calls, replies):
                yield call.meaning(reply)

    async def _in_turn(self, asked: Any, call_of: Callable[[Any], Call]) -> AsyncIterator[Sent]:
        """Sends in batches, and gives each once as many are out as may be."""
        out: Deque[Sent] = collections.deque()
        async for run in runs_of(asked, call_of):
            out.append(await self._sent(run, Deadline(self.timeout)))
            if len(out) == BATCHES_OUT:
                yield out.popleft()
        while out:
            yield out.popleft()

    async def _replies(self, sent: Sent) -> List[bytes]:
        """The replies to what was sent, or, where that may be, to what is sent once more."""
        try:
            return await answers(sent)
        except Disconnected:
            if self._is_closed or not self.retry or not all(call.may_repeat for call in sent.calls):
                raise
        return await answers(await self._sent(sent.calls, sent.deadline))

    async def _sent(self, calls: List[Call], deadline: Deadline) -> Sent:
        """Sends the calls, over a new connection where the last one has ended."""
        answered: asyncio.Future[None] = asyncio.get_running_loop().create_future()
        batch = Batch(len(calls), lambda: finish(answered))
        sent = Sent(calls, batch, answered, deadline)
        frames = calls[0].frame if len(calls) == 1 else b"".join([call.frame for call in calls])
        while True:
            connection = await self._connected(sent.deadline)
            await room(connection, sent.deadline)
            if connection.fault is None:
                connection.send(frames, batch)
                return sent

    async def _connected(self, deadline: Deadline) -> AsyncConnection:
        """The connection, made anew where it has ended."""
        if self._connection is not None and self._connection.fault is None:
            return self._connection
        try:
            return await asyncio.wait_for(self._dialled(deadline), deadline.left())
        except asyncio.TimeoutError:
            raise Disconnected(f"there is no connection to {self.path}") from None

    async def _dialled(self, deadline: Deadline) -> AsyncConnection:
        """The connection, for which one task at a time tries until its deadline."""
        self._dialling = self._dialling or asyncio.Lock()
        async with self._dialling:
            self._leave_ended()
            while self._connection is None:
                if self._is_closed:
                    raise Disconnected("the client was closed")
                await asyncio.sleep(self._pause(deadline, "it fails again and again"))
                try:
                    loop = asyncio.get_running_loop()
                    _, self._connection = await loop.create_unix_connection(AsyncConnection, self.path)
                except OSError as fault:
                    self._backoff.failed()
                    self._pause(deadline, str(fault))
            return self._connection

    def _leave_ended(self) -> None:
        """Lets go of a connection that has ended, and notes whether it was of use."""
        if self._connection is not None and self._connection.fault is not None:
            note = self._backoff.succeeded if self._connection.was_answered() else self._backoff.failed
            note()
            self._connection = None

    def _pause(self, deadline: Deadline, reason: str) -> float:
        """The seconds until the next try, where the deadline allows it."""
        pause = self._backoff.left()
        if not deadline.allows(pause):
            raise Disconnected(f"there is no connection to {self.path}: {reason}")
        return pause


async def room(connection: AsyncConnection, deadline: Deadline) -> None:
    """Waits while the connection has too much that is unsent."""
    if connection.has_room.is_set():
        return
    try:
        await asyncio.wait_for(connection.has_room.wait(), deadline.left())
    except asyncio.TimeoutError:
        raise TimedOut("the daemon took no request in time") from None


async def answers(sent: Sent) -> List[bytes]:
    """Waits for the replies."""
    left = sent.deadline.left()
    timer = None if left is None else asyncio.get_running_loop().call_later(left, expire, sent.answered)
    try:
        await sent.answered
    finally:
        if timer is not None:
            timer.cancel()
    return sent.batch.answers()


def finish(answered: asyncio.Future[None]) -> None:
    if not answered.done():
        answered.set_result(None)


def expire(answered: asyncio.Future[None]) -> None:
    if not answered.done():
        answered.set_exception(TimedOut("no reply came in time"))


async def runs_of(asked: Any, call_of: Callable[[Any], Call]) -> AsyncIterator[List[Call]]:
    """The calls in runs that go out together, of what is iterated over with `for` or with `async for`."""
    if not hasattr(asked, "__aiter__"):
        for calls in batches(map(call_of, asked)):
            yield calls
        return
    run = Run()
    async for one in asked:
        if run.takes(call_of(one)):
            yield run.taken()
    if run.calls:
        yield run.taken()

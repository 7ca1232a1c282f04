"""The same calls through either client, so that one table of cases is for both."""
import asyncio
import threading
import time

from macaroond import AsyncClient, Client


class Threads:
    """Calls by a `Client`."""

    name = "threads"

    def __init__(self, path, **how):
        self.client = Client(path, **how)

    def call(self, name, *words, **named):
        return getattr(self.client, name)(*words, **named)

    def many(self, name, *words):
        return list(getattr(self.client, name)(*words))

    def at_once(self, calls):
        """What each call comes to, or raises; each in a thread of its own."""
        made = [None] * len(calls)

        def work(number, call):
            try:
                made[number] = self.call(*call)
            except Exception as error:
                made[number] = error

        threads = [threading.Thread(target=work, args=one) for one in enumerate(calls)]
        for thread in threads:
            thread.start()
        for thread in threads:
            thread.join()
        return made

    @staticmethod
    def pause(seconds):
        time.sleep(seconds)

    def leave(self):
        """Closes the client, which may be asked all the same."""
        self.client.close()

    def close(self):
        self.leave()


class Tasks:
    """Calls by an `AsyncClient`, in an event loop of its own."""

    name = "tasks"

    def __init__(self, path, **how):
        self.loop = asyncio.new_event_loop()
        self.client = AsyncClient(path, **how)

    def run(self, task):
        return self.loop.run_until_complete(task)

    def call(self, name, *words, **named):
        return self.run(getattr(self.client, name)(*words, **named))

    def many(self, name, *words):
        async def all_of():
            return [one async for one in getattr(self.client, name)(*words)]

        return self.run(all_of())

    def at_once(self, calls):
        async def all_of():
            tasks = [getattr(self.client, name)(*words) for name, *words in calls]
            return await asyncio.gather(*tasks, return_exceptions=True)

        return self.run(all_of())

    def pause(self, seconds):
        """The loop goes on meanwhile."""
        self.run(asyncio.sleep(seconds))

    def leave(self):
        """Closes the client, which may be asked all the same."""
        self.run(self.client.close())

    def close(self):
        self.leave()
        self.run(asyncio.sleep(0))
        self.loop.close()


def await_end(client):
    """Waits until the client knows that its connection has ended."""
    for _ in range(500):
        if client.client._connection.fault is not None:
            return
        client.pause(0.01)


BOTH = [Threads, Tasks]

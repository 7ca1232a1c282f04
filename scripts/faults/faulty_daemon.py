"""The daemon, while a request for memory is refused to it, or a call of its sockets fails."""
import collections
import concurrent.futures
import contextlib
import errno
import signal
import socket
import subprocess
import tempfile
import threading

from check.daemon_rows import MINT, TOKEN
from common import KEYS
from common.daemon import Daemon, awaited, connected, frame, received, serve_command
from faults.refusing import Ended, PATIENCE, Row, Watch, in_turn

# What a client sends, a mint and an empty payload, and what is due.
ASKED = frame(MINT) + frame(b"")
DUE = [frame(b"\x01" + TOKEN), frame(b"\x10")]
ENDINGS = {
    (4, b""): "status 4 before it listens",
    (4, b"listening\n"): "status 4 once it has served",
    (0, b"listening\nserved 2 faults 0\n"): "both served",
    (0, b"listening\nserved 2 faults 1\n"): "one connection ended, the other served",
    (3, b"listening\n"): "status 3 at an accept",
    (3, b""): "status 3 before it listens",
}
# How many clients have all their replies then, at least.
WHOLE = {
    "status 4 before it listens": 0,
    "status 3 before it listens": 0,
    "status 3 at an accept": 0,
    "one connection ended, the other served": 1,
}
# How a call of a socket or of the key file fails, and what comes of it.
ONE_ENDS = "one connection ended, the other served"
SOCKETS = [
    ("recv", errno.ECONNRESET, "ECONNRESET", ONE_ENDS),
    ("recv", errno.EINTR, "EINTR", "both served"),
    ("recv", 0, "a byte", "both served"),
    ("send", errno.EPIPE, "EPIPE", ONE_ENDS),
    ("send", errno.ECONNRESET, "ECONNRESET", ONE_ENDS),
    ("send", errno.EINTR, "EINTR", "both served"),
    ("send", 0, "a byte", "both served"),
    ("accept4", errno.EINTR, "EINTR", "both served"),
    ("accept4", errno.EMFILE, "EMFILE", "status 3 at an accept"),
    ("read", errno.EIO, "EIO", "status 3 before it listens"),
    ("read", errno.EINTR, "EINTR", "both served"),
]
UNREMEMBERED = b"warning: no memory or no random bytes to remember tokens by; none is remembered\n"
# How many clients come at the same time behind the rounds.
CROWD = 64
# How many daemons stay up at a time: one whose client's thread is refused waits ten seconds for it.
DAEMONS = 20


class Client(threading.Thread):
    """Sends so many times both frames, and keeps what comes back until the connection ends."""

    def __init__(self, path, times):
        super().__init__(daemon=True)
        self.path, self.times, self.came = path, times, b""
        self.start()

    def run(self):
        try:
            with connected(self.path, PATIENCE) as stream:
                for _ in range(self.times):
                    stream.sendall(ASKED)
                stream.shutdown(socket.SHUT_WR)
                while piece := stream.recv(65_536):
                    self.came += piece
        except ConnectionError:
            pass
        except OSError as fault:
            self.came += repr(fault).encode()

    def replies(self):
        """How many replies came, or None where bytes came that aren't whole replies."""
        self.join()
        count, rest = 0, self.came
        while rest.startswith(DUE[count % 2]):
            rest, count = rest[len(DUE[count % 2]) :], count + 1
        return None if rest else count


def once(call, number, times, **variables):
    """A daemon that serves two clients, who talk at the same time: how it ended, and the replies of each."""
    with tempfile.TemporaryDirectory() as folder, Watch(call, number, **variables) as watch:
        path = folder + "/s"
        pipes = {"stdout": subprocess.PIPE, "stderr": subprocess.PIPE, "env": watch.environment}
        with subprocess.Popen(serve_command(path, accept=2), **pipes) as run:
            first = run.stdout.readline()
            clients = [Client(path, times) for _ in range(2)] if first else []
            try:
                output, error = run.communicate(timeout=PATIENCE)
            except subprocess.TimeoutExpired:
                run.kill()
                return None, watch.calls, True
            replies = tuple(client.replies() for client in clients)
            return (Ended(run.returncode, first + output, error), replies), watch.calls, watch.refused > 0


def served(times):
    """What came of both clients in words, or None where something was lost."""

    def judge(came):
        if came is None:
            return None
        ended, replies = came
        word = ENDINGS.get((ended.status, ended.output))
        fault = ended.error.removeprefix(UNREMEMBERED)
        if fault and not fault.startswith((b"error: ", b"fault 4\n")):
            return None
        whole = sum(count == 2 * times for count in replies)
        return word if None not in replies and whole >= WHOLE.get(word, 2) else None

    return judge


def starts(most=None, step=1):
    """From the first request for memory of the process on, until a run meets no refusal."""
    return in_turn("serve over sockets, from the start", lambda n: once("memory", n, 1), served(1), most, step)


def talks(times=250):
    """The same while two clients talk, for whom the daemon asks for memory once a round at least."""
    what = "serve over sockets, two clients talk"
    _, first, _ = once("memory", 0, 1)
    row, found = in_turn(what, lambda n: once("memory", n, times), served(times))
    if row.points < first + times - 1:
        found.append(f"{what}: {row.points} requests in {times} rounds, and {first} in the first one")
    return row, found


def devices():
    """The calls of the sockets fail, one in turn, while two clients talk."""
    for call, number, name, due in SOCKETS:
        once_failed = lambda n: once(call, n, 3, FILE="-1", ERROR=str(number))
        row, found = in_turn(f"serve over sockets, {call}: {name}", once_failed, served(3))
        if set(row.came) != {due}:
            found.append(f"{row.what}: {dict(row.came)} where {due} is due")
        yield row, found
    yield stopped()
    yield accepts_again()


def unremembered():
    """Without random bytes to remember tokens by both kinds of daemon warn, and serve all the same."""
    (ended, replies), _, _ = once("getentropy", 1, 1, every=1)
    yield warned("serve", (ended.error, list(replies)))
    with tempfile.TemporaryDirectory() as folder:
        daemon = Listening("getentropy", folder, refused=1, error=subprocess.PIPE)
        replies = daemon.two()
        daemon.run.send_signal(signal.SIGTERM)
        first = daemon.run.stderr.readline().encode()
        daemon.close()
    yield warned("listen", (first, replies))


def warned(word, came):
    """The row of a daemon without random bytes, by what it printed and the replies of its clients."""
    what = f"{word}, without random bytes"
    is_right = came == (UNREMEMBERED, [2, 2])
    return Row(what, 1, collections.Counter(["it warns and serves" if is_right else None])), [] if is_right else [f"{what}: {came}"]


def stopped():
    """A daemon whose sockets have timeouts is stopped while a client waits, and goes on: so does the client."""
    with tempfile.TemporaryDirectory() as folder:
        daemon = Listening("nothing", folder, "--idle", "30")
        with connected(daemon.path) as stream:
            is_right = is_served(stream)
            daemon.halt()
            daemon.run.send_signal(signal.SIGCONT)
            awaited(lambda: daemon.states() == {"S"})
            is_right &= is_served(stream)
        daemon.close()
    what = "listen with timeouts, stopped and continued"
    return Row(what, 1, collections.Counter(["served" if is_right else None])), [] if is_right else [f"{what}: the client is lost"]


def accepts_again():
    """An accept for which there is no descriptor is tried again."""
    with tempfile.TemporaryDirectory() as folder:
        daemon = Listening("accept4", folder, FILE="-1", ERROR=str(errno.EMFILE))
        daemon.refuse_behind(1, every=3)
        replies = [daemon.two() for _ in range(6)]
        failed = daemon.watch.refused
        daemon.close()
    what = "listen, accept4: EMFILE"
    found = [] if failed and replies == [[2, 2]] * 6 else [f"{what}: {failed} failed, and the replies were {replies}"]
    return Row(what, failed, collections.Counter({"both served": failed})), found


class Listening(Daemon):
    """A daemon that stays up, whose calls are watched."""

    def __init__(self, call, folder, *words, refused=0, every=0, error=subprocess.DEVNULL, **variables):
        self.watch = Watch(call, refused, every, **variables)
        super().__init__(folder, KEYS.read_bytes(), "--workers", "2", *words, stderr=error, env=self.watch.environment)
        self.start()

    def refuse_behind(self, number, every=0):
        """Refuses the call that comes so many calls from now."""
        self.watch.set(2, every)
        self.watch.set(1, self.watch.calls + number)

    def two(self, times=1):
        """How many replies two clients get that talk at the same time."""
        clients = [Client(self.path, times) for _ in range(2)]
        return [client.replies() for client in clients]

    def crowd(self):
        """How many of 64 clients that are there at the same time are served."""
        streams = [connected(self.path) for _ in range(CROWD)]
        with contextlib.ExitStack() as stack:
            for stream in streams:
                stack.enter_context(stream)
            return sum(is_served(stream) for stream in streams)

    def close(self):
        super().close()
        self.watch.__exit__()


def is_served(stream):
    """Whether a client gets a reply, and stays."""
    try:
        stream.sendall(frame(b""))
        return received(stream, 5) == DUE[1]
    except ConnectionError:
        return False


def rounds_of(numbers):
    """The rounds of these numbers at one daemon: the words for what came, how much was refused, and what was wrong."""
    came, found = collections.Counter(), []
    with tempfile.TemporaryDirectory() as folder:
        daemon = Listening("memory", folder)
        daemon.two()
        before = daemon.watch.calls
        daemon.two()
        calls = daemon.watch.calls - before
        for number in numbers:
            daemon.refuse_behind(number % calls + 1)
            replies = daemon.two()
            word = {2: "both served", 1: "one connection ended, the other served"}.get(replies.count(2))
            if word is None or None in replies:
                found.append(f"listen: with request {number % calls + 1} of a round refused the replies are {replies}")
            came[word] += 1
        refused = daemon.watch.refused
        daemon.watch.set(1, 0)
        served, status = daemon.crowd(), daemon.run.poll()
        if served != CROWD or status is not None:
            found.append(f"listen: {served} of {CROWD} clients are served after the rounds, and the daemon's status is {status}")
        daemon.close()
    return came, refused, found


def goes_on(rounds):
    """Daemons that stay up, some at a time: in each round two clients talk, and a request for memory is refused."""
    share = rounds // DAEMONS
    came, refused, found = collections.Counter(), 0, []
    with concurrent.futures.ThreadPoolExecutor(DAEMONS) as pool:
        for words, points, wrong in pool.map(rounds_of, (range(one * share, (one + 1) * share) for one in range(DAEMONS))):
            came, refused, found = came + words, refused + points, found + wrong
    return Row(f"listen, {DAEMONS} daemons, {share} rounds of two clients each", refused, came), found

"""How `macaroond listen` ends where it is told to: what has come is answered, and nothing is cut off;
how a socket is handed over to it; and what it tells a service manager."""
import contextlib
import os
import re
import signal
import socket
import subprocess
import threading
import time

from check.daemon_rows import MINT, NO_REQUEST, SLOW_TOKEN, TOKEN
from common import daemon, logged
from common.daemon import connected, frame, received
from common.rows import in_folders, judged

import request

# How many seconds anything may take, on a machine that is busy with other work.
PATIENCE = 60
# The requests of rolling restarts at least, how many clients send them, and how many stand out at a time.
ALL, CLIENTS, WINDOW = 200_000, 4, 100
# How many restarts there are at least, and how many seconds pass between two.
RESTARTS, BETWEEN = 6, 0.1
MINTING, MINTED = frame(MINT), frame(b"\x01" + TOKEN)
DEAR = frame(request.verify("bank", SLOW_TOKEN, 0))
MALFORMED = frame(b"\x14")


def started(path, *words, **how):
    """A daemon of two workers that clients can connect to."""
    return daemon.started(path, "--workers", "2", *words, **how)


def ended(run):
    """How a run ended, and what it said."""
    try:
        output, error = run.communicate(timeout=PATIENCE)
    except subprocess.TimeoutExpired:
        run.kill()
        return "it runs on"
    return run.returncode, output, [line[1:] for line in logged.read_all(error) if line.what != "start"]


def to_the_end(stream):
    """All that comes, until the stream's end."""
    pieces = []
    while piece := stream.recv(65_536):
        pieces.append(piece)
    return b"".join(pieces)


def said(left, cut=0):
    """How a daemon ends, and what it says of its connections."""
    return 0, "", [("drain", {"connections": str(left)}), ("end", {"connections": str(cut)})]


def quiet_clients(folder):
    """Clients that wait for nothing read an end."""
    for number in (signal.SIGTERM, signal.SIGINT):
        path = f"{folder}/quiet"
        run = started(path)
        with connected(path) as stream:
            stream.sendall(frame(b""))
            yield "a reply before the end", received(stream, len(NO_REQUEST)), NO_REQUEST
            run.send_signal(number)
            yield "an end", to_the_end(stream), b""
        yield f"how it ends at {number.name}", ended(run), said(1)


def owed_replies(folder, requests, reply):
    """Requests that were written before it was told are answered, all of them."""
    path = f"{folder}/owed"
    run = started(path)
    with connected(path) as stream:
        stream.sendall(frame(b""))
        received(stream, len(NO_REQUEST))
        count = 0
        stream.setblocking(False)
        try:
            while count < 20_000:
                stream.sendall(requests)
                count += 1
        except BlockingIOError:
            pass
        stream.settimeout(PATIENCE)
        run.send_signal(signal.SIGTERM)
        came = to_the_end(stream)
    whole, rest = divmod(len(came), len(reply))
    yield "whole replies", rest, 0
    yield "each as it must be", came, reply * whole
    yield f"as many as were sent, or one fewer: {whole} of {count}", count - 1 <= whole <= count + 1, True
    yield "how it ends", ended(run), said(1)


def short_requests(folder):
    yield from owed_replies(folder, MINTING, MINTED)


def dear_requests(folder):
    yield from owed_replies(folder, DEAR, MALFORMED)


def fill(stream, seconds=3):
    """Sends requests and takes no reply, until no more goes."""
    stream.setblocking(False)
    until = time.monotonic() + seconds
    while time.monotonic() < until:
        try:
            stream.send(MINTING * 100)
        except BlockingIOError:
            time.sleep(0.05)


def cut_off(folder):
    """A client that takes no reply is cut off once the time is up, or at a second signal."""
    for words, again in ((["--drain", "1"], False), ([], True)):
        path = f"{folder}/cut"
        run = started(path, *words)
        with connected(path) as stream:
            fill(stream)
            run.send_signal(signal.SIGTERM)
            begin = time.monotonic()
            if again:
                time.sleep(0.3)
                run.send_signal(signal.SIGTERM)
            yield "how it ends", ended(run), said(1, 1)
            took = time.monotonic() - begin
            yield "in time", took < 8, True


def hang_up(folder):
    """SIGHUP ends nothing."""
    path = f"{folder}/hang_up"
    run = started(path)
    run.send_signal(signal.SIGHUP)
    time.sleep(0.3)
    with connected(path) as stream:
        stream.sendall(frame(b""))
        yield "a reply after SIGHUP", received(stream, len(NO_REQUEST)), NO_REQUEST
    run.send_signal(signal.SIGTERM)
    yield "how it ends", ended(run)[0], 0


def handed_over(path):
    """What a daemon is started by that gets this socket as descriptor 3."""
    listener = socket.socket(socket.AF_UNIX)
    listener.bind(path)
    listener.listen(64)
    script = 'exec 3<&"$1"; shift; export LISTEN_PID=$$ LISTEN_FDS=1; exec "$@"'
    return listener, ["bash", "-c", script, "bash", str(listener.fileno())]


def start_handed(listener, before, path):
    return daemon.started(path, before=before, pass_fds=[listener.fileno()])


class Asking(threading.Thread):
    """A client that asks without end, and connects anew where its connection ends: what was out is sent again."""

    def __init__(self, path):
        super().__init__()
        self.path, self.is_over, self.fault = path, False, None
        # How many of the requests that were sent are owed a reply, how many were answered, and how often it connected.
        self.owed, self.answered, self.connected = 0, 0, 0

    def run(self):
        try:
            while self.owed > 0 or not self.is_over:
                with connected(self.path) as stream:
                    self.connected += 1
                    self.ask(stream)
        except (OSError, ValueError) as fault:
            self.fault = repr(fault)

    def ask(self, stream):
        """Asks until all is answered, or the connection ends."""
        while self.owed > 0 or not self.is_over:
            self.owed = asked = self.owed or WINDOW
            # Where the connection has ended, replies may be there all the same.
            with contextlib.suppress(BrokenPipeError):
                stream.sendall(MINTING * asked)
            came = received(stream, len(MINTED) * asked)
            whole, rest = divmod(len(came), len(MINTED))
            if rest or came != MINTED * whole:
                raise ValueError(f"{rest} bytes behind {whole} replies")
            self.owed -= whole
            self.answered += whole
            if whole < asked:
                return


def rolling_restart(folder):
    """Restarts behind one socket, while clients ask: each request is answered in the end, and no connection is refused."""
    path = f"{folder}/handed"
    listener, before = handed_over(path)
    run = start_handed(listener, before, path)
    yield "its first line", bool(re.match("listening at ", run.first)), True
    clients = [Asking(path) for _ in range(CLIENTS)]
    for one in clients:
        one.start()
    endings, until = [], time.monotonic() + PATIENCE
    while (len(endings) < RESTARTS or sum(one.answered for one in clients) < ALL) and time.monotonic() < until:
        time.sleep(BETWEEN)
        run.send_signal(signal.SIGTERM)
        endings.append(ended(run)[0])
        run = start_handed(listener, before, path)
    for one in clients:
        one.is_over = True
    for one in clients:
        one.join()
    run.send_signal(signal.SIGTERM)
    endings.append(ended(run)[0])
    listener.close()
    yield "how the daemons ended", endings, [0] * len(endings)
    yield "what clients met", [one.fault for one in clients], [None] * CLIENTS
    yield "requests without a reply", [one.owed for one in clients], [0] * CLIENTS
    yield "as many as were to be asked", sum(one.answered for one in clients) >= ALL, True
    yield "each restart met a client", sum(one.connected for one in clients) >= CLIENTS + RESTARTS, True


def no_listener(folder):
    """What is handed over and is no socket is told."""
    script = 'exec 3</dev/null; export LISTEN_PID=$$ LISTEN_FDS=1; exec "$@"'
    command = ["bash", "-c", script, "bash", *daemon.command(f"{folder}/none")]
    run = subprocess.run(command, capture_output=True, text=True, timeout=PATIENCE)
    told = "descriptor 3, which was handed over, is no Unix socket that listens"
    yield "no socket", (run.returncode, told in run.stderr), (3, True)


def told_manager(folder):
    """A service manager is told when clients can connect, and when the daemon ends."""
    for name in (f"{folder}/manager", "@macaroond-manager-%d" % os.getpid()):
        with socket.socket(socket.AF_UNIX, socket.SOCK_DGRAM) as manager:
            manager.bind("\0" + name[1:] if name.startswith("@") else name)
            manager.settimeout(PATIENCE)
            run = started(f"{folder}/told", env={**os.environ, "NOTIFY_SOCKET": name})
            yield "ready", manager.recv(100), b"READY=1"
            run.send_signal(signal.SIGTERM)
            yield "stopping", manager.recv(100), b"STOPPING=1"
            yield "how it ends", ended(run), said(0)


def faults():
    """What went otherwise than it must, and how many checks there were."""
    parts = [quiet_clients, short_requests, dear_requests, cut_off, hang_up, rolling_restart, no_listener, told_manager]
    return judged(in_folders(*parts), longest=300)

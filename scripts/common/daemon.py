"""A daemon that listens, the key file that it reads, what it tells, and clients of its socket by hand."""
import contextlib
import os
import pathlib
import random
import signal
import socket
import subprocess
import tempfile
import time

from common import KEYS, logged, programs

# The daemon: bin/macaroond, or the program that MACAROOND names.
PROGRAM = os.environ.get("MACAROOND", str(programs.path_of("macaroond")))
# How many seconds anything may take, on a machine that is busy with other work.
PATIENCE = 120
# How many seconds a client has rested once it gives way to one of its own socket, and some more.
REST = 0.3
# Ports that the system gives to no connection, so that one which is free now stays so.
PORTS = iter(random.sample(range(20_000, 30_000), 10_000))


def awaited(holds, patience=PATIENCE, pause=0.02):
    """What this call gives: once that is true, or after all patience."""
    until = time.monotonic() + patience
    while not (found := holds()) and time.monotonic() < until:
        time.sleep(pause)
    return found


def come_to(call, due, patience=PATIENCE, pause=0.02):
    """What this call gives: once that is due, or after all patience."""
    until = time.monotonic() + patience
    while (got := call()) != due and time.monotonic() < until:
        time.sleep(pause)
    return got


def free_port():
    """A port of this machine that nobody listens at, another each time."""
    for port in PORTS:
        with contextlib.suppress(OSError), socket.create_server(("127.0.0.1", port)):
            return port
    raise RuntimeError("there is no free port")


def stop_unless_there():
    """Ends the script where there is no daemon to start."""
    if "MACAROOND" not in os.environ:
        programs.stop_unless_built("macaroond")


def command(path, *words, keys=KEYS):
    """The command line of a daemon at this path."""
    stop_unless_there()
    return [PROGRAM, "listen", "--socket", path, "--keys", keys, *words]


def serve_command(path, accept, workers=2, keys=KEYS):
    """The command line of a daemon that ends behind so many clients."""
    stop_unless_there()
    return [PROGRAM, "serve", "--socket", path, "--keys", keys, "--workers", str(workers), "--accept", str(accept)]


def begun(whole, **how):
    """A run by this command line, with the line `first` that it printed."""
    run = subprocess.Popen(whole, **{"stdout": subprocess.PIPE, "stderr": subprocess.PIPE, "text": True, **how})
    run.first = run.stdout.readline() if run.stdout else ""
    return run


def started(path, *words, keys=KEYS, before=(), **how):
    """A daemon that clients can connect to, started behind these words."""
    return begun([*before, *command(path, *words, keys=keys)], **how)


def version():
    """What the program tells of its version, with the end of its line."""
    return subprocess.run([PROGRAM, "--version"], capture_output=True, text=True).stdout


def status(path, *words, **how):
    """How `macaroond status` of the daemon at this path ends, and what it prints."""
    command = [PROGRAM, "status", "--socket", path, *words]
    return subprocess.run(command, capture_output=True, text=True, timeout=PATIENCE, **how)


def numbers(path):
    """The numbers that `macaroond status` prints, by name: they stand behind the version, before what it tells of keys."""
    lines = status(path).stdout.splitlines()[1:]
    return dict(line.rsplit(" ", 1) for line in lines if not line.startswith("key "))


def refused(path, *words, keys=KEYS, **how):
    """How a daemon ends that can't begin, and what it prints."""
    pipes = {"capture_output": True, "text": True, "timeout": PATIENCE}
    return subprocess.run(command(path, *words, keys=keys), **{**pipes, **how})


def closed(run):
    """Kills a daemon, if it is there still, and closes what came of it."""
    run.kill()
    run.wait()
    for stream in (run.stdout, run.stderr):
        if stream:
            stream.close()


@contextlib.contextmanager
def ending(run):
    """A run that is ended behind this."""
    try:
        yield run
    finally:
        closed(run)


def running(path, *words, **how):
    """A daemon at this path, as long as this holds."""
    return ending(started(path, *words, **how))


def serving(path, accept, workers=2, **how):
    """The same of one that ends behind so many clients."""
    return ending(begun(serve_command(path, accept, workers), **how))


@contextlib.contextmanager
def listening(*words, **how):
    """The path of a daemon that listens in a folder of its own, and its process."""
    with tempfile.TemporaryDirectory() as folder:
        path = folder + "/socket"
        with running(path, *words, **{"stderr": subprocess.DEVNULL, **how}) as run:
            yield path, run


def put_keys(path, text):
    """Moves a new key file over the old one, as docs/OPERATING.md says."""
    beside = pathlib.Path(f"{path}.new")
    beside.touch(mode=0o600)
    beside.chmod(0o600)
    beside.write_bytes(text.encode() if isinstance(text, str) else text)
    beside.rename(path)


class Daemon:
    """A daemon in a folder, with a key file there of its own, if a text is given, and what it tells in a file."""

    def __init__(self, folder, text, *words, name="socket", keys="keys", **how):
        self.folder, self.path, self.keys = pathlib.Path(folder), f"{folder}/{name}", pathlib.Path(folder, keys)
        self.words, self.how, self.run, self.lives = words, how, None, 0
        self.errors = pathlib.Path(f"{self.path}.errors")
        if text is not None:
            put_keys(self.keys, text)

    def start(self):
        with self.errors.open("a") as errors:
            self.run = started(self.path, *self.words, keys=self.keys, **{"stderr": errors, **self.how})
        self.lives += 1
        return self

    def put_keys(self, text):
        put_keys(self.keys, text)

    def lines(self):
        """What it has told, and its predecessors here."""
        return logged.read_all(self.errors.read_text())

    def told(self, what):
        """How often it has told a line of this kind."""
        return sum(line.what == what for line in self.lines())

    def told_of_keys(self):
        """What it has told of its key file: how many names were read anew, or why none were."""
        fields = [line.fields for line in self.lines() if line.fields.get("file") == str(self.keys)]
        return [it["fault"] if "fault" in it else f"names: {it['names']}" for it in fields]

    def await_told(self, count):
        """The same, once these are so many lines."""
        awaited(lambda: len(self.told_of_keys()) >= count)
        return self.told_of_keys()

    def states(self):
        """What its threads are at: `S` waits, `T` is stopped (proc(5))."""
        tasks = pathlib.Path(f"/proc/{self.run.pid}/task").glob("*/stat")
        return {task.read_text().rpartition(")")[2].split()[0] for task in tasks}

    def halt(self):
        """Stops each thread of the daemon, until it is told to go on."""
        self.run.send_signal(signal.SIGSTOP)
        awaited(lambda: self.states() == {"T"})

    def end(self, number=signal.SIGTERM, patience=PATIENCE):
        """How it ends at a signal."""
        self.run.send_signal(number)
        try:
            return self.run.wait(patience)
        finally:
            self.close()

    def close(self):
        """Kills it, if it is there still."""
        if self.run is not None:
            closed(self.run)
            self.run = None


@contextlib.contextmanager
def with_keys(text, *words, **how):
    """A daemon with a key file of its own, in a folder of its own, as long as this holds."""
    with tempfile.TemporaryDirectory() as folder:
        daemon = Daemon(folder, text, *words, **how)
        try:
            yield daemon.start()
        finally:
            daemon.close()


def connected(path, patience=PATIENCE):
    stream = socket.socket(socket.AF_UNIX)
    stream.settimeout(patience)
    stream.connect(path)
    return stream


def frame(payload):
    return len(payload).to_bytes(4, "big") + payload


def received(stream, count):
    """So many bytes, or as many as come."""
    pieces = b""
    while len(pieces) < count and (piece := stream.recv(min(65_536, count - len(pieces)))):
        pieces += piece
    return pieces


def reply_to(stream, payload):
    """What a request is answered, without its length."""
    stream.sendall(frame(payload))
    return received(stream, int.from_bytes(received(stream, 4), "big"))

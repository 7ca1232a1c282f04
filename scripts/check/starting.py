"""Starts of `macaroond listen`: two at once on one path, behind one that was killed, and with a
standard descriptor closed; and a key file that others may use."""
import contextlib
import itertools
import os
import pathlib
import re
import signal
import subprocess
import tempfile
import time

from check.daemon_rows import END_FIRST, NO_REQUEST, answer, listening_line
from check.messages import listen, serve
from common import KEYS
from common.daemon import connected, frame
from common.rows import judged

# What is told where the file in the lock's place is none.
NO_LOCK = "beside it there is a .lock that is no lock; remove that, or give another path"
FOREIGN_LOCK = "beside it there is a .lock of another user; remove that, or give another path"
# A user who is neither root nor any that files here belong to.
OTHER_USER = 54_321
# For how many seconds another user puts a link into the lock's place and takes it away.
RACING_SECONDS = 3
# How often two daemons are started together on one path.
ROUNDS = 60


def started(path, keys=KEYS, words=(), **how):
    return subprocess.Popen([*listen(path, keys), *words], **{"stdout": subprocess.PIPE, "stderr": subprocess.PIPE, "text": True, **how})


def first_line(path):
    return first_line_of(listen(path))


def first_line_of(command):
    """What a daemon prints first; it is killed then."""
    with subprocess.Popen(command, stdout=subprocess.PIPE, stderr=subprocess.PIPE, text=True) as run:
        line = run.stdout.readline()
        run.kill()
        return line or unwarned(run.stderr.read())


def unwarned(error):
    """What is told but for the example's short secret, which each daemon warns of."""
    return "".join(line for line in error.splitlines(keepends=True) if "has fewer than 16 bytes" not in line)


def is_told(path, error):
    """Whether a daemon that didn't start says that another process has the path. Which one it is may
    not be written yet, or be the last one that had it: `daemon_rows` asks that later."""
    told = re.escape(f"error: {path}: ") + r"(process \d+|another process) has it; " + END_FIRST + "\n"
    return re.fullmatch(told, error) is not None


def one_round(path):
    """Whether of two that start together one stays up and serves, and the other one tells."""
    with started(path) as one, started(path) as other:
        try:
            lines = [run.stdout.readline() for run in (one, other)]
            if sorted(map(bool, lines)) != [False, True]:
                return f"first lines {lines}"
            winner, loser = (one, other) if lines[0] else (other, one)
            if loser.wait(20) != 3 or not is_told(path, error := unwarned(loser.stderr.read())):
                return f"status {loser.returncode}, {error!r}"
            with connected(path) as stream:
                reply = answer(stream, frame(b""))
            return "" if reply == NO_REQUEST and winner.poll() is None else f"reply {reply}"
        finally:
            one.kill()
            other.kill()


def together(folder):
    for number in range(ROUNDS):
        # Every other round on a path that the last one left.
        yield f"round {number} of two starts", one_round(f"{folder}/{number // 2}"), ""


def leftovers(folder):
    """What a killed run leaves doesn't stop a start; what is nobody's lock is left alone."""
    path = f"{folder}/left"
    due = listening_line(path, "1 worker")
    inside = pathlib.Path(path + ".new")
    inside.mkdir()
    yield "a folder that was left", first_line(path), due
    inside.mkdir()
    (inside / "s").write_text("")
    yield "a folder with a socket that was left", first_line(path), due
    pathlib.Path(path + ".lock").write_text(f"{os.getpid()}\n")
    yield "a lock that was left", first_line(path), due
    pathlib.Path(path + ".lock").write_text("")
    yield "an empty lock that was left", first_line(path), due
    for text in ("a page of somebody's\n", "12", "7" * 40):
        pathlib.Path(path + ".lock").write_text(text)
        yield "no lock", first_line(path), f"error: {path}: {NO_LOCK}\n"
        yield "it stays", pathlib.Path(path + ".lock").read_text(), text


def linked_locks(folder):
    """What is a link, or has a second name, is no lock: nothing is made or written where it leads."""
    path, victim = f"{folder}/linked", pathlib.Path(folder, "victim")
    lock = pathlib.Path(path + ".lock")
    refused = f"error: {path}: {NO_LOCK}\n"
    for text in ("a page of somebody's\n", f"{os.getpid()}\n", ""):
        victim.write_text(text)
        for make in (lock.symlink_to, lock.hardlink_to):
            make(victim)
            yield "a lock that leads elsewhere", (first_line(path), victim.read_text()), (refused, text)
            lock.unlink()
    victim.unlink()
    lock.symlink_to(victim)
    yield "a lock that leads nowhere", (first_line(path), victim.exists()), (refused, False)
    lock.unlink()
    pathlib.Path(path + ".next.lock").symlink_to(victim)
    yield "the turn", first_line_of([*listen(path), "--replace"]), refused
    yield "nothing is made there", victim.exists(), False


def foreign_locks(folder):
    """As root: another user's lock is left alone, and a link that he puts in its place meanwhile isn't followed."""
    path = f"{folder}/foreign"
    lock = pathlib.Path(path + ".lock")
    lock.write_text("1\n")
    os.chown(lock, OTHER_USER, OTHER_USER)
    yield "another user's lock", (first_line(path), lock.read_text()), (f"error: {path}: {FOREIGN_LOCK}\n", "1\n")
    lock.unlink()
    open_to_all, own = pathlib.Path(folder, "everyones"), pathlib.Path(folder, "own")
    open_to_all.mkdir()
    open_to_all.chmod(0o1777)
    own.mkdir(0o700)
    (own / "pid").write_text("1\n")
    pathlib.Path(folder).chmod(0o755)
    path = str(open_to_all / "socket")
    with racing(path + ".lock", own / "made", own / "pid"):
        until = time.monotonic() + RACING_SECONDS
        while time.monotonic() < until:
            first_line(path)
            for name in (path, path + ".lock"):
                with contextlib.suppress(OSError):
                    os.unlink(name)
    yield "nothing is made or written behind the link", {it.name: it.read_text() for it in own.iterdir()}, {"pid": "1\n"}


@contextlib.contextmanager
def racing(name, *targets):
    """Another user makes links to the targets, one after the other, in the place of a name, and takes them away."""
    child = os.fork()
    if child == 0:
        os.setgroups([])
        os.setresgid(OTHER_USER, OTHER_USER, OTHER_USER)
        os.setresuid(OTHER_USER, OTHER_USER, OTHER_USER)
        for target in itertools.cycle(targets):
            with contextlib.suppress(OSError):
                os.symlink(target, name)
            with contextlib.suppress(OSError):
                os.unlink(name)
    try:
        yield
    finally:
        os.kill(child, signal.SIGKILL)
        os.waitpid(child, 0)


def shared_keys(folder):
    """A key file that others may use is refused, or warned of where that was asked for; a change to
    such a one isn't taken. One that the daemon's own group may read is taken."""
    keys = pathlib.Path(folder, "keys")
    keys.write_text("key bank " + "5" * 64 + "\n")
    os.chown(keys, os.geteuid(), os.getegid())
    for mode in (0o644, 0o602, 0o620, 0o660, 0o604):
        keys.chmod(mode)
        why = f"{keys}: the file has mode {mode:o}, by which others than its owner may use it; `chmod 600` mends that"
        for words in (listen(f"{folder}/shared", keys), serve(f"{folder}/served", keys)):
            run = subprocess.run(words, capture_output=True, text=True, timeout=20)
            due = (3, "", f"error: {why}; or take it so by --keys-of-others\n")
            yield f"{words[1]}: keys of mode {mode:o}", (run.returncode, run.stdout, run.stderr), due
        with started(f"{folder}/shared", keys, words=["--keys-of-others"]) as run:
            run.stdout.readline()
            run.terminate()
            warned = [line for line in run.stderr if line.startswith("warning: ")]
            yield f"keys of mode {mode:o} that may be of others", warned, [f"warning: {why}\n"]
    for mode in (0o640, 0o440, 0o600, 0o400):
        keys.chmod(mode)
        with started(f"{folder}/shared", keys) as run:
            run.stdout.readline()
            run.terminate()
            yield f"keys of mode {mode:o}", [line for line in run.stderr if line.startswith("warning: ")], []
    keys.chmod(0o600)
    yield from opened_keys(folder, keys)
    if not os.geteuid():
        os.chown(keys, 1234, 0)
        run = subprocess.run(listen(f"{folder}/shared", keys), capture_output=True, text=True, timeout=20)
        why = f"error: {keys}: the file belongs to user 1234; `chown 0` mends that; or take it so by --keys-of-others\n"
        yield "keys of another user", (run.returncode, run.stderr), (3, why)


def opened_keys(folder, keys):
    """A key file that is opened to others while the daemon runs is told, and its keys stay."""
    with started(f"{folder}/opened", keys) as run:
        run.stdout.readline()
        keys.chmod(0o604)
        lines = [line for line in (run.stderr.readline() for _ in range(2)) if "keys_refused" in line]
        keys.chmod(0o600)
        run.terminate()
        run.stderr.read()
        yield "keys that are opened", len(lines) == 1 and "mode 604" in lines[0] and "chmod 600" in lines[0], True


def closed(folder):
    """With a descriptor closed, a client's stream has its replies and no more."""
    for name, gone in {"input": [0], "output": [1], "error": [2], "all": [0, 1, 2], "two": [0, 2]}.items():
        path = f"{folder}/{name}"
        close = lambda: [os.close(one) for one in gone]
        with started(path, preexec_fn=close, stdin=subprocess.DEVNULL) as run:
            try:
                while not os.path.exists(path) and run.poll() is None:
                    signal.sigtimedwait([], 0.01)
                with connected(path) as first, connected(path) as torn:
                    # The torn connection ends in a fault, which the daemon prints.
                    yield f"{name} closed: a torn stream", answer(torn, bytes(3)), b""
                    reply = answer(first, frame(b""))
                    yield f"{name} closed: a reply and no more", reply, NO_REQUEST
                links = [os.readlink(f"/proc/{run.pid}/fd/{one}") for one in gone]
                yield f"{name} closed: what is there", links, ["/dev/null"] * len(gone)
            finally:
                run.kill()


def faults():
    """What went otherwise than it must, how many checks there were, and what was left out."""
    is_root = os.geteuid() == 0
    parts = [together, leftovers, linked_locks, shared_keys, closed, *[foreign_locks] * is_root]
    with tempfile.TemporaryDirectory() as folder:
        found, count = judged(row for part in parts for row in part(folder))
    return found, count, [] if is_root else ["locks of another user: that asks for root"]

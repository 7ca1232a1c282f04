"""How `macaroond listen --replace` takes the sockets of a daemon over: under load, without a daemon, with a fault, and
twice at once. Nobody is refused, and each request is answered."""
import os
import pathlib
import signal
import socket
import subprocess
import time

from check.daemon_rows import MINT, NO_REQUEST, TOKEN
from check.ending import Asking, ended, fill, started
from check.http_sockets import asked, asking
from common import KEYS, daemon, processes
from common.daemon import awaited, come_to, connected, frame, received, refused
from common.rows import in_folders, judged

# How many requests are answered over all replacements at least, by how many clients, and how many replacements.
ALL, CLIENTS, REPLACED = 50_000, 4, 6
# How many seconds anything may take, on a machine that is busy with other work.
PATIENCE = 60
# How many clients wait at a socket that is replaced.
WAITING = 50
# What the name of the file ends in whose lock is the turn to have a path's lock next.
TURN = ".next.lock"
# How many lines a list has that takes a daemon some tenths of a second to read.
LONG_LIST = 500_000
# How many daemons start at once to take one place, and how often.
CROWD, ROUNDS = 6, 3
MINTING, MINTED = frame(MINT), frame(b"\x01" + TOKEN)


def lines(run):
    """How a run ended, and what it said but for its start. A daemon may see first that its status socket is another's."""
    status, _, said = ended(run)
    return status, [(what, {**fields, "socket": fields["socket"].removesuffix(".status")} if what == "replaced" else fields)
                    for what, fields in said]


def replaced(path, left, cut=0):
    """How a daemon ends whose place another one takes, and what it says."""
    told = ("drain", {"connections": str(left)}), ("end", {"connections": str(cut)})
    return 0, [("replaced", {"socket": path}), *told]


def left_behind(folder):
    """What lies in a folder but sockets and their locks, once a daemon had time to remove what it doesn't need."""
    return come_to(lambda: lying(folder), [])


def lying(folder):
    """What lies in a folder but sockets and their locks. The turn to have a lock is none."""
    names = sorted(it.name for it in pathlib.Path(folder).iterdir() if not it.is_socket())
    return [name for name in names if not name.endswith(".lock") or name.endswith(TURN)]


def under_load(folder):
    """One daemon after the other takes a socket, while clients ask."""
    path = f"{folder}/load"
    run = started(path)
    clients = [Asking(path) for _ in range(CLIENTS)]
    for one in clients:
        one.start()
    endings, until = [], time.monotonic() + PATIENCE
    while (len(endings) < REPLACED or sum(one.answered for one in clients) < ALL) and time.monotonic() < until:
        run, before = started(path, "--replace"), run
        endings.append(ended(before)[0])
    for one in clients:
        one.is_over = True
    for one in clients:
        one.join()
    yield "how the daemons ended", endings, [0] * len(endings)
    yield "what clients met", [one.fault for one in clients], [None] * CLIENTS
    yield "requests without a reply", [one.owed for one in clients], [0] * CLIENTS
    yield "as many as were to be asked", sum(one.answered for one in clients) >= ALL, True
    yield "nothing is left behind", left_behind(folder), []
    run.send_signal(signal.SIGTERM)
    yield "how the last one ends", ended(run)[0], 0


def alone(folder):
    """Where nobody has the path, it is as without the option; who comes without it is refused."""
    path = f"{folder}/alone"
    run = started(path, "--replace")
    yield "its first line", run.first.startswith(f"listening at {path}: "), True
    yield "its turn is given back", lying(folder), []
    second = refused(path)
    due = f"error: {path}: process {run.pid} has it; end that process first, or give another path\n"
    yield "one without the option", (second.returncode, second.stderr), (3, due)
    run.send_signal(signal.SIGTERM)
    yield "how it ends", ended(run)[0], 0


def twice_spelled(folder):
    """One path that is spelled in two ways is one: there is no second socket."""
    path, again = f"{folder}/spelled", f"{folder}/./spelled"
    for words in ([], ["--replace"]):
        run = started(path, "--verify-socket", again, *words)
        _, error = run.communicate(timeout=PATIENCE)
        due = f"error: {again}: process {run.pid} has it; end that process first, or give another path\n"
        yield f"it is refused: {words}", (run.returncode, error), (3, due)


def faulty(folder):
    """A daemon that can't begin takes nothing from the one that is there."""
    path = f"{folder}/faulty"
    run = started(path)
    keys = pathlib.Path(folder) / "keys"
    keys.write_text("key bank\n")
    occupied = socket.create_server(("127.0.0.1", 0))
    port = occupied.getsockname()[1]
    rows = (keys, [], 1), (KEYS, ["--http", f"127.0.0.1:{port}"], 3), (KEYS, ["--verify-socket", f"{folder}/none/side"], 3)
    for file, words, status in rows:
        yield f"it is refused: {words or file}", refused(path, "--replace", *words, keys=file).returncode, status
    time.sleep(1.2)
    with connected(path) as stream:
        stream.sendall(frame(b""))
        yield "the first one answers", received(stream, len(NO_REQUEST)), NO_REQUEST
    keys.unlink()
    yield "nothing is left behind", left_behind(folder), []
    run.send_signal(signal.SIGTERM)
    yield "and ends as ever", ended(run)[0], 0


def holds_back(run):
    """Whether a daemon that starts holds back the signal that tells it to end, for the thread that waits for it."""
    return int(processes.status(run.pid)["SigBlk"], 16) >> (signal.SIGTERM - 1) & 1 == 1


def told_as_it_starts(folder):
    """One that is told to end while it reads its files takes nothing from the one that is there."""
    path, revoked = f"{folder}/start", pathlib.Path(folder) / "revoked"
    run = started(path)
    revoked.write_text("".join(f"revoked bank {number:08x}\n" for number in range(LONG_LIST)))
    revoked.chmod(0o600)
    pipes = {"stdout": subprocess.PIPE, "stderr": subprocess.PIPE, "text": True}
    second = subprocess.Popen(daemon.command(path, "--replace", "--revoked", revoked), **pipes)
    awaited(lambda: holds_back(second))
    second.send_signal(signal.SIGTERM)
    said = second.communicate(timeout=PATIENCE)[0]
    yield "it ends and never listens", (second.returncode, said), (0, "")
    time.sleep(1.2)
    with connected(path) as stream:
        stream.sendall(frame(b""))
        yield "the first one answers", received(stream, len(NO_REQUEST)), NO_REQUEST
    revoked.unlink()
    yield "nothing is left behind", left_behind(folder), []
    run.send_signal(signal.SIGTERM)
    yield "and ends as ever", ended(run)[0], 0


def twice(folder):
    """While one waits for the lock of a daemon that drains, a further one is refused; then it may."""
    path = f"{folder}/twice"
    run = started(path, "--drain", "12")
    with connected(path) as stream:
        fill(stream)
        second = started(path, "--replace")
        third = refused(path, "--replace")
        due = f"error: {path}: another daemon is taking it over; wait until that is done\n"
        yield "a third one", (third.returncode, third.stderr), (3, due)
        yield "the turn is taken", lying(folder), ["twice" + TURN, "twice.status" + TURN]
        yield "the first one", lines(run)[0], 0
    yield "its turn is given back", left_behind(folder), []
    last = started(path, "--replace")
    yield "the second one", lines(second), replaced(path, 0)
    last.send_signal(signal.SIGTERM)
    yield "the last one", ended(last)[0], 0


def ended_early(folder):
    """One that ends before the daemon that it replaces gives its turn back; of one that is killed the next one does."""
    path = f"{folder}/early"
    run = started(path, "--drain", "60")
    with connected(path) as stream:
        fill(stream)
        second = started(path, "--replace")
        second.send_signal(signal.SIGTERM)
        yield "one that is told to end", (ended(second)[0], lying(folder)), (0, [])
        second = started(path, "--replace")
        second.kill()
        second.communicate()
        yield "one that is killed", lying(folder), ["early" + TURN, "early.status" + TURN]
        run.kill()
        run.communicate()
    last = started(path, "--replace")
    yield "the next one", lying(folder), []
    last.send_signal(signal.SIGTERM)
    yield "how it ends", ended(last)[0], 0


def crowded(folder):
    """Of many that start at once one is left in the end, and each other one was replaced or refused."""
    path = f"{folder}/crowded"
    for number in range(ROUNDS):
        runs = [daemon.started(path, "--replace", stdout=subprocess.DEVNULL) for _ in range(CROWD)]
        awaited(lambda: sum(run.poll() is None for run in runs) <= 1)
        statuses = [run.poll() for run in runs]
        yield f"round {number}: one is left", statuses.count(None), 1
        yield f"round {number}: the others", set(statuses) <= {None, 0, 3}, True
        with connected(path) as stream:
            stream.sendall(frame(b""))
            yield f"round {number}: its reply", received(stream, len(NO_REQUEST)), NO_REQUEST
        yield f"round {number}: nothing is left behind", left_behind(folder), []
        for run in runs:
            run.kill()
            run.communicate()


def told_besides(folder):
    """A daemon whose place is taken counts its own signals: the first one cuts nothing off, the second one does."""
    path = f"{folder}/told"
    run = started(path)
    with connected(path) as stream:
        fill(stream)
        second = started(path, "--replace")
        time.sleep(1.2)
        run.send_signal(signal.SIGTERM)
        time.sleep(0.3)
        yield "it goes on at the first signal", run.poll(), None
        run.send_signal(signal.SIGTERM)
        yield "and ends at the second", lines(run), replaced(path, 1, 1)
    second.send_signal(signal.SIGTERM)
    yield "the second one", ended(second)[0], 0


def all_sockets(folder):
    """The second socket, the one over HTTP and the one for operators go over with the first."""
    path, side, web = (f"{folder}/{it}" for it in ("first", "side", "web"))
    words = ["--verify-socket", side, "--http", f"unix:{web}"]
    run = started(path, *words)
    with connected(path) as stream:
        stream.sendall(frame(b""))
        received(stream, len(NO_REQUEST))
        second = started(path, *words, "--replace")
        yield "the first one", lines(run), replaced(path, 1)
        yield "its connection ends", stream.recv(1), b""
    for one in (path, side):
        with connected(one) as stream:
            stream.sendall(frame(b""))
            yield f"a reply at {pathlib.Path(one).name}", received(stream, len(NO_REQUEST)), NO_REQUEST
    yield "over HTTP", health(web), 200
    yield "its status", daemon.status(path).returncode, 0
    second.send_signal(signal.SIGTERM)
    yield "the second one", ended(second)[0], 0


def health(path):
    """The status of the page that tells how a daemon is."""
    with connected(path) as stream:
        return asked(stream, asking("/healthz"))


def waiting(folder):
    """Who waits at the socket that is replaced is answered there."""
    path = f"{folder}/waiting"
    run = started(path)
    os.kill(run.pid, signal.SIGSTOP)
    streams = [connected(path) for _ in range(WAITING)]
    for stream in streams:
        stream.sendall(MINTING)
    second = started(path, "--replace")
    os.kill(run.pid, signal.SIGCONT)
    yield "each is answered", {received(stream, len(MINTED)) for stream in streams}, {MINTED}
    for stream in streams:
        stream.close()
    yield "the first one ends", ended(run)[0], 0
    second.send_signal(signal.SIGTERM)
    yield "the second one", ended(second)[0], 0


def one_of_two(folder):
    """Another socket in the place of the second one ends a daemon, which names that path."""
    path, side, other = (f"{folder}/{it}" for it in ("first", "side", "other"))
    run = started(path, "--verify-socket", side)
    with socket.socket(socket.AF_UNIX) as foreign:
        foreign.bind(other)
        os.rename(other, side)
        yield "how it ends", lines(run), replaced(side, 0)


def moved(folder):
    """A daemon whose socket is moved away, with nothing in its place, goes on."""
    path = f"{folder}/moved"
    run = started(path)
    os.rename(path, path + ".away")
    time.sleep(1.2)
    with connected(path + ".away") as stream:
        stream.sendall(frame(b""))
        yield "a reply", received(stream, len(NO_REQUEST)), NO_REQUEST
    run.send_signal(signal.SIGTERM)
    yield "how it ends", ended(run)[0], 0


def faults():
    parts = [under_load, alone, twice_spelled, faulty, told_as_it_starts, twice, ended_early, crowded, told_besides, all_sockets]
    return judged(in_folders(*parts, waiting, one_of_two, moved))

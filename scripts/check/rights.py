"""The two sockets of `macaroond listen`: what each allows, to whom, and that none but the first mints."""
import contextlib
import os
import random
import stat
import subprocess
import sys
import tempfile

from check.daemon_rows import JSON_MAX, MINT, TOKEN, in_json
from common.daemon import PATIENCE, connected, frame, put_keys, received, refused, running
from common.rows import judged, of_each

import request

# Names with keys, of which the second socket allows the first two.
NAMES = ("bank", "shop", "mill")
ALLOWED = NAMES[:2]
# What a socket that doesn't allow a request answers, and what is answered of a name without a key.
GRANTED, GRANTED_TO = b"\x00", b"\x03"
NOT_ALLOWED, UNKNOWN_KEY, BAD_SIGNATURE = b"\x1b", b"\x12", b"\x17"
# The secret of README's key file: with it, TOKEN is what MINT is answered.
SECRET = "this is our super secret key; only we should know it"
# How many requests are made at random, how many are out at a time, and the seed of the dice.
RANDOM, WINDOW, SEED = 100_000, 200, 46
# Beside a token in JSON it makes a request that a loop hands on: its connection goes on wide.
WIDE = "f" * JSON_MAX


@contextlib.contextmanager
def listening(*words):
    """The paths of the two sockets of a daemon that is started with these words."""
    lines = [request.key(name, SECRET if name == "bank" else f"the secret of {name}") for name in NAMES]
    with tempfile.TemporaryDirectory() as folder:
        os.chmod(folder, 0o755)
        path, verify_path = folder + "/socket", folder + "/verify"
        put_keys(folder + "/keys", "".join(f"{line}\n" for line in lines))
        with running(path, "--verify-socket", verify_path, *words, keys=folder + "/keys", stderr=subprocess.DEVNULL) as run:
            if not run.first.startswith(f"listening at {path} and {verify_path}: 3 names, "):
                sys.exit(f"the line of two sockets is {run.first}")
            yield path, verify_path


def replies(stream, payloads):
    """What each of these payloads is answered, sent one behind the other."""
    stream.sendall(b"".join(frame(payload) for payload in payloads))
    return [received(stream, int.from_bytes(received(stream, 4), "big")) for _ in payloads]


def requests_of(name):
    """A request of each kind under a name, and one that is wide."""
    return {
        "mint": request.mint("v1-text", name, "http://mybank/", "we used our secret key"),
        "attenuate": request.attenuate("v1-text", TOKEN.decode(), "user = 7"),
        "verify": request.verify(name, TOKEN.decode(), 0),
        "wide mint": request.mint("v2-json", name, "http://mybank/", "we used our secret key", "c" * 4000, "d" * 1000),
        "wide verify": request.verify(name, in_json(TOKEN).decode(), 0, WIDE),
        "verify now": request.verify(name, TOKEN.decode()),
        "wide verify now": request.verify(name, in_json(TOKEN).decode(), "now", WIDE),
        "owner": request.owner(name, TOKEN.decode()),
        "wide owner": request.owner(name, in_json(TOKEN).decode(), WIDE),
        "no request": b"\x01\x09",
    }


def due(kind, name, may_mint, allowed):
    """What begins the reply to a request of a kind under a name, where so much is allowed."""
    if kind == "no request":
        return b"\x10"
    if kind == "attenuate":
        return b"\x01"
    if "mint" in kind and not may_mint:
        return NOT_ALLOWED
    if name not in NAMES or name not in allowed:
        return UNKNOWN_KEY
    if "mint" in kind:
        return b"\x01"
    if name != "bank":
        return BAD_SIGNATURE
    return GRANTED_TO if "owner" in kind else GRANTED


def matrix():
    """Sockets, kinds and names, each on a connection of its own and all on one, in order."""
    everyone = NAMES + ("nobody",)
    cases = [(kind, name, payload) for name in everyone for kind, payload in requests_of(name).items()]
    rules = (("the first", True, NAMES), ("the second", False, ALLOWED))
    with listening("--verify-names", ",".join(ALLOWED)) as paths:
        for path, (which, may_mint, allowed) in zip(paths, rules):
            expected = [due(kind, name, may_mint, allowed) for kind, name, _ in cases]
            with connected(path) as stream:
                told = replies(stream, [payload for _, _, payload in cases])
            yield f"{which} socket", [reply[:1] for reply in told], expected
            for (kind, name, payload), first in zip(cases, expected):
                with connected(path) as stream:
                    yield f"{which} socket: {kind} under {name}", replies(stream, [payload])[0][:1], first
        with connected(paths[0]) as stream:
            yield "a mint at the first socket", replies(stream, [MINT]), [b"\x01" + TOKEN]
    with listening("--names", "mill") as (path, verify_path):
        with connected(path) as stream:
            yield "the first socket, narrowed", replies(stream, [MINT]), [UNKNOWN_KEY]
        with connected(verify_path) as stream:
            verify = request.verify("bank", TOKEN.decode(), 0)
            yield "the second socket, of all names", replies(stream, [verify, MINT]), [GRANTED, NOT_ALLOWED]


def modes():
    """Each socket has its own mode, and a path of its own."""
    with listening("--mode", "600", "--verify-mode", "666") as (path, verify_path):
        found = [stat.S_IMODE(os.stat(each).st_mode) for each in (path, verify_path)]
        yield "modes", found, [0o600, 0o666]
        again = refused(path + "2", "--verify-socket", verify_path, keys=path[:-6] + "keys")
        yield "a path that is taken", again.returncode, 3
        yield "the path that is taken", f"error: {verify_path}: " in again.stderr, True
    with listening() as (path, verify_path):
        yield "mode left out", stat.S_IMODE(os.stat(verify_path).st_mode), 0o600
    yield "an unknown mode", refused("x", "--verify-mode", "700", keys="y").returncode, 2


CONNECT = "import socket, sys; socket.socket(socket.AF_UNIX).connect(sys.argv[1])"


def may_connect(path, who):
    """Whether a process of this user and group may connect."""
    command = ["setpriv", *who, "--clear-groups", sys.executable, "-c", CONNECT, path]
    return subprocess.run(command, capture_output=True, timeout=PATIENCE).returncode == 0


def users():
    """As the owner, a member of the group, and `nobody`; asks to be root."""
    nobody = ["--reuid=65534", "--regid=65534"]
    member = ["--reuid=65534", "--regid=0"]
    with listening("--mode", "600", "--verify-mode", "660") as paths:
        yield "the owner", [may_connect(path, ["--reuid=0", "--regid=0"]) for path in paths], [True, True]
        yield "a member", [may_connect(path, member) for path in paths], [False, True]
        yield "nobody", [may_connect(path, nobody) for path in paths], [False, False]
    with listening("--mode", "660", "--verify-mode", "666") as paths:
        yield "nobody, where everyone may verify", [may_connect(path, nobody) for path in paths], [False, True]


def random_payload(dice):
    """A payload of any kind: mints, whole and broken, are most of them."""
    name = dice.choice(NAMES + ("nobody", ""))
    texts = ["x" * dice.randrange(40) for _ in range(dice.randrange(4))]
    form = dice.choice(("v1-text", "v2-binary", "v2-json", "v2-text"))
    made = [
        lambda: request.mint(form, name or "bank", "here", "token " + "i" * dice.randrange(60), *texts),
        lambda: request.verify(name or "bank", TOKEN.decode(), dice.randrange(2**40), *texts),
        lambda: dice.randbytes(dice.randrange(60)),
    ]
    payload = bytearray(dice.choices(made, (6, 2, 1))[0]())
    if payload and dice.random() < 0.2:
        payload[dice.randrange(len(payload))] = dice.randrange(256)
    return bytes(payload[: len(payload) if dice.random() < 0.9 else dice.randrange(len(payload) + 1)])


def at_random():
    """Many requests on the second socket: no reply is a token but to an attenuate."""
    dice = random.Random(SEED)
    minted, answered = 0, 0
    with listening() as (_, path), connected(path) as stream:
        while answered < RANDOM:
            payloads = [random_payload(dice) for _ in range(WINDOW)]
            told = replies(stream, payloads)
            minted += sum(reply[:1] == b"\x01" and payload[:1] != b"\x02" for payload, reply in zip(payloads, told))
            answered += len(told)
    yield f"tokens minted by {RANDOM} requests at random", minted, 0


def faults():
    """What is wrong, how many checks there were, and what was left out."""
    is_root = os.geteuid() == 0
    parts = [matrix, modes, at_random, *[users] * is_root]
    return *judged(of_each(*parts)), [] if is_root else ["only root can connect as another user"]

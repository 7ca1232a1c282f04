"""What the clients tell of a caveat that isn't satisfied, which its holder wrote, beside the command line."""
import subprocess

from common import KEYS
from common.daemon import PROGRAM

from macaroond import Client

CAVEATS = [
    b"action = read", b"a\n2026-01-01T00:00:00Z granted to root", b"\x1b[2J\x1b]0;root\x07", b"\xff\xfe", "ä\u202e\u2028".encode(),
    b"\\x0a", b"\r\t\0 ~\x7f", bytes(range(256)), b"",
]


def tokens(client):
    """A token for each caveat."""
    return [client.mint("bank", "alice", caveats=[caveat]) for caveat in CAVEATS]


def by_command(token):
    """What the command line prints of the verdict, but for what its line begins with."""
    command = [PROGRAM, "verify", "--keys", KEYS, "--key", "bank", token]
    return subprocess.run(command, capture_output=True, text=True).stdout.removeprefix("refused 24: ").removesuffix("\n")


def faults(path):
    """Where the Python client tells a verdict otherwise than the command line, and how many were compared."""
    with Client(path, timeout=60) as client:
        pairs = [(by_command(token), client.verify("bank", token).reason) for token in tokens(client)]
    return [f"the client says {told!r} where {due!r} is due" for due, told in pairs if told != due], len(pairs)


def go_faults(path, program):
    """The same of the Go client, by go_client."""
    with Client(path, timeout=60) as client:
        made = tokens(client)
    run = subprocess.run([program, "words", path], input="".join(f"{token}\n" for token in made), capture_output=True, text=True)
    told, due = run.stdout.split("\n")[:-1], [by_command(token) for token in made]
    return [] if told == due else [f"Go's client says {told} where {due} is due"], len(made)

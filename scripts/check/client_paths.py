"""The facts of clients/cases/paths.json and methods.json, by which the clients' tests go, beside what the daemon says of
the paths and methods over HTTP."""
import json
import os
import tempfile

from check.http_sockets import bearing, response
from common import TOP
from common.daemon import connected, listening

from macaroond import Client

CASES = TOP / "clients" / "cases"
# Texts that are no facts of any row.
OTHERS = ["path under /ä", "path = ", "path under ", "path under /a/b/c", "time < 2020-01-01T00:00"]
# The longest caveat that a token has.
CAVEAT_MAX = 4_096


def answer(path, token, name, value):
    """What a gateway is answered that tells this of a request: the status, and the reason."""
    with connected(path) as stream:
        stream.sendall(bearing(token, f"{name}: {value}" if value else f"{name}:"))
        status, fields, _, _ = response(stream)
    return status, fields.get("macaroon-reason")


def of_methods(client, http):
    """What the daemon says of each method, and what the table says."""
    every = client.mint("bank", "alice", caveats=["method is safe"])
    for method, facts in json.loads((CASES / "methods.json").read_text()).items():
        token = client.mint("bank", "alice", caveats=facts)
        yield method, answer(http, token, "X-Forwarded-Method", method), (200, None)
        due = (200, None) if "method is safe" in facts else (403, "24 0")
        yield f"whether {method} is safe", answer(http, every, "X-Forwarded-Method", method), due


def of_paths(client, http):
    """What the daemon says of each path, and what the table says."""
    for row in json.loads((CASES / "paths.json").read_text()):
        target, facts = row["target"], row["facts"]
        caveats = [fact for fact in facts or [] if len(fact) <= CAVEAT_MAX]
        token = client.mint("bank", "alice", caveats=caveats)
        yield target, answer(http, token, "X-Forwarded-Uri", target), (200, None) if facts is not None else (403, "path")
        for other in OTHERS if facts is not None else []:
            narrow = client.attenuate(token, other)
            yield f"{target} with {other}", answer(http, narrow, "X-Forwarded-Uri", target), (403, f"24 {len(caveats)}")


def of_strict_paths(client, http):
    """The same where paths are read strictly: an odd one isn't plain."""
    token = client.mint("bank", "alice")
    for row in json.loads((CASES / "paths.json").read_text()):
        is_plain = row["facts"] is not None and "odd" not in row
        told = answer(http, token, "X-Forwarded-Uri", row["target"])
        yield f"{row['target']}, strictly", told, (200, None) if is_plain else (403, "path")


def faults():
    """Where the daemon says otherwise than the table, and how many answers were compared."""
    with tempfile.TemporaryDirectory() as folder:
        http = os.path.join(folder, "http")
        words = ("--http", f"unix:{http}", "--http-facts", "forwarded")
        with listening(*words) as (path, _), Client(path) as client:
            seen = [*of_paths(client, http), *of_methods(client, http)]
        with listening(*words, "--http-strict-paths") as (path, _), Client(path) as client:
            seen += of_strict_paths(client, http)
    return [f"of {what[:80]} the daemon says {got}, and not {due}" for what, got, due in seen if got != due], len(seen)

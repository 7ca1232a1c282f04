"""What the definitions' program `try_cases` is asked of each row, and what its lines come to.

Where several lines of one row tell the same, as a view of a token and a copy, they have to agree.
"""
import os
import pathlib
import re
import subprocess
import tempfile

from common import TOP, programs

import request
from vectors.spelling import shown

PROGRAM = TOP / "bin" / "try_cases"
REFUSALS = {
    16: "request",
    18: "key",
    19: "transport",
    20: "malformed",
    21: "third party",
    22: "limit",
    23: "signature",
    24: "caveat",
    26: "caveat location",
}
FORMS = {"v1-text": 1, "v2-binary": 2, "v2-json": 3, "v2-text": 4}
# A run of `rt try` prints a MiB at most, and no answer is much longer than its case.
PIECE = 300_000
# How many verdicts are asked for together.
TOGETHER = 16


class Disagreement(Exception):
    """Two lines of a row, or a row alone and among others, don't tell the same."""


# Words of a case


def word(content):
    return content.hex() or "-"


def listed(contents):
    return ",".join(map(word, contents)) or "none"


def field(content):
    return "hex:" + content.hex()


def key_lines(name, secrets):
    return "".join(f"{request.key(name, secret)}\n" for secret in secrets)


# Lines of a row


def lines_of(row):
    """The cases that a row is answered by."""
    return LINES[row.kind](**row.given)


def of_reading(token):
    return [f"read {word(token)}", f"raw {word(token)}"]


def of_writing(secret, location, identifier, caveats, form):
    parts = [field(location), field(identifier), *map(field, caveats)]
    payload = request.mint(form, "key", *parts)
    return [
        f"answer {word(key_lines('key', [secret]).encode())} {payload.hex()}",
        f"length {FORMS[form]} {word(location)} {word(identifier)} {listed(caveats)}",
    ]


def of_narrowing(token, caveats, form):
    payload = request.attenuate(form, field(token), *map(field, caveats))
    other = f"add {FORMS[form]} {word(token)} {listed(caveats)}" if caveats else f"rewrite {FORMS[form]} {word(token)}"
    pushed = [f"push {word(token)} {listed(caveats)}"] if caveats else []
    return [f"answer - {payload.hex()}", other, *pushed]


def verify_payload(name, given):
    return request.verify(name, field(given["token"]), given["moment"], *map(field, given["facts"])).hex()


def of_verdict(secrets, **given):
    return [f"answer {word(key_lines('key', secrets).encode())} {verify_payload('key', given)}"]


LINES = {
    "reading": of_reading,
    "writing": of_writing,
    "narrowing": of_narrowing,
    "hmac": lambda key, text: [f"hmac {word(key)} {word(text)}"],
    "root_key": lambda secret: [f"root {word(secret)}"],
    "signature": lambda secret, identifier, caveats: [f"chain {word(secret)} {word(identifier)} {listed(caveats)}"],
    "verdict": of_verdict,
    "bound": lambda caveat: [f"time {word(caveat)}"],
}


# What the lines come to


def result_of(row, answers):
    """The answer to a row, from those to its lines."""
    return RESULTS[row.kind](*answers)


def refusal_in(answer):
    found = re.match(r"refused (\d+)", answer)
    return REFUSALS[int(found[1])] if found else None


def unhexed(digits):
    return "" if digits == "-" else shown(bytes.fromhex(digits))


def parts_in(answer):
    """The parts of a token that are told in a line."""
    location, identifier, signature, *rest = answer.split(" ")
    caveats = []
    for it in rest:
        name, _, content = it.rpartition("=")
        if name:
            caveats[-1]["vid" if name == "vid" else "location"] = unhexed(content)
        else:
            caveats.append({"identifier": unhexed(it)})
    return {"location": unhexed(location), "identifier": unhexed(identifier), "caveats": caveats, "signature": signature}


def reading_result(read, raw):
    refusal = refusal_in(read)
    spelled = None if refusal_in(raw) else parts_in(raw)
    if refusal is None and parts_in(read) != spelled or spelled is None and refusal != refusal_in(raw):
        raise Disagreement(f"read as {read}, spelled as {raw}")
    return {"spells": spelled, "refusal": refusal}


def token_in(frame):
    """The token of a reply's frame, or the refusal."""
    payload = bytes.fromhex(frame)[4:]
    if payload[0] == 1:
        return payload[1:], None
    return None, REFUSALS[payload[0]]


def made_result(token, refusal):
    return {"token": None if token is None else shown(token), "refusal": refusal}


def writing_result(frame, length):
    token, refusal = token_in(frame)
    if refusal != refusal_in(length) or token is not None and len(token) != int(length):
        raise Disagreement(f"written as {frame}, of {length} bytes")
    return made_result(token, refusal)


def narrowing_result(frame, other, pushed=None):
    token, refusal = token_in(frame)
    told = refusal_in(other)
    if refusal != told or token is not None and other != word(token):
        raise Disagreement(f"narrowed as {frame}, and as {other}")
    return made_result(token, refusal)


def verdict_result(frame):
    payload = bytes.fromhex(frame)[4:]
    if payload == b"\0":
        return {"granted": True, "refusal": None, "caveat": None}
    caveat = int.from_bytes(payload[1:], "big") if payload[0] == 24 else None
    return {"granted": False, "refusal": REFUSALS[payload[0]], "caveat": caveat}


def bound_result(answer):
    words = answer.split(" ")
    second = int(words[-1]) if words != ["none"] else None
    return {"before": second if words[0] == "second" else None, "from": second if words[0] == "from" else None}


RESULTS = {
    "reading": reading_result,
    "writing": writing_result,
    "narrowing": narrowing_result,
    "hmac": lambda digest: {"digest": digest},
    "root_key": lambda digest: {"digest": digest},
    "signature": lambda digest: {"digest": digest},
    "verdict": verdict_result,
    "bound": bound_result,
}


# Verdicts that are asked for together, as a daemon works them out eight at a time


def together(rows):
    """Lines that ask for many verdicts at once, each with the places of its rows: neighbours, and rows far apart."""
    places = [at for at, row in enumerate(rows) if row.kind == "verdict"]
    names = {}
    for at in places:
        names.setdefault(tuple(rows[at].given["secrets"]), f"k{len(names)}")
    keys = word("".join(key_lines(name, secrets) for secrets, name in names.items()).encode())
    step = -(-len(places) // TOGETHER)
    groups = [places[at : at + TOGETHER] for at in range(0, len(places), TOGETHER)] + [places[at::step] for at in range(step)]
    return [(group, f"answers {keys} " + ",".join(payload_of(rows[at], names) for at in group)) for group in groups]


def payload_of(row, names):
    given = {name: value for name, value in row.given.items() if name != "secrets"}
    return verify_payload(names[tuple(row.given["secrets"])], given)


# The program


def is_built():
    """Whether bin/try_cases is there, and no source is newer."""
    sources = (path.stat().st_mtime for path in TOP.glob("crates/*/src/**/*.rt"))
    return os.access(PROGRAM, os.X_OK) and PROGRAM.stat().st_mtime > max(sources)


def answers_of(lines):
    """What the program prints for these lines: bin/try_cases, else one that is not proved."""
    if is_built():
        text = "".join(f"{line}\n" for line in lines)
        run = subprocess.run([PROGRAM], input=text, capture_output=True, text=True, check=True)
        return run.stdout.splitlines()
    programs.stop_without_toolchain()
    with tempfile.TemporaryDirectory() as folder:
        names = put_pieces(lines, pathlib.Path(folder))
        tried = subprocess.run(["rt", "try", "--steps", "1", "--cases", folder], cwd=TOP / "crates" / "try_cases", capture_output=True, text=True)
    if tried.returncode != 0:
        raise SystemExit(f"rt try ended with status {tried.returncode}:\n{(tried.stdout + tried.stderr)[-2000:]}")
    outputs = outputs_in(tried.stdout)
    return [line for name in names for line in outputs[name]]


def put_pieces(lines, folder, front=()):
    """Puts the lines into files that are short enough, each behind the same front. The files' names."""
    pieces, size = [[]], 0
    for line in lines:
        if size > PIECE:
            pieces.append([])
            size = 0
        pieces[-1].append(line)
        size += len(line)
    names = [f"{at:03}" for at in range(len(pieces))]
    for name, piece in zip(names, pieces):
        (folder / name).write_text("".join(f"{line}\n" for line in [*front, *piece]))
    return names


def outputs_in(text):
    """The lines that each case printed: they stand behind a line `== NAME`."""
    sections = re.split(r"^== ", text, flags=re.MULTILINE)[1:]
    return {name: output.splitlines() for name, _, output in (it.partition("\n") for it in sections)}

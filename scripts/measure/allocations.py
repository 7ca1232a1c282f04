#!/usr/bin/env python3
"""Counts how often `macaroond pipe` asks for memory at each request.

That is once for the payload that its line spells, and then to answer it. Asks for the program that
`make build` leaves in bin/, and for a C compiler.
"""
import base64
import pathlib
import subprocess
import sys

sys.path.insert(0, str(pathlib.Path(__file__).resolve().parents[1]))
from common import programs
from faults import refusing

import request

PROGRAM = programs.path_of("macaroond")
KEYS = "key bank 74686973206973206f757220737570657220736563726574206b6579\n\n"
CAVEATS = ["account = 3735928559", "time < 2030-01-01T00:00", "method = GET"]
FACTS = ["account = 3735928559", "method = GET"]
MOMENT = 1_780_272_000
# Two runs of so many requests: what differs between them is theirs alone.
FEW, MANY = 1_000, 3_000
# How often a request may ask for memory: a verify by the form of its token, a mint by the form of its reply, an
# attenuate by both. Base64 text is decoded into bytes of its own; a reply in it is made of bytes, and one in V2 binary is
# printed in digits.
VERIFY = {"v1-packets": 1, "v2-binary": 1, "v1-text": 2, "v2-text": 2}
MINT = {"v2-binary": 3, "v1-text": 3, "v2-text": 3}
MOST = {f"verify {form}": most for form, most in VERIFY.items()}
MOST |= {f"mint {form}": most for form, most in MINT.items()}
MOST |= {f"attenuate {old} {new}": VERIFY[old] + MINT[new] - 1 for old in VERIFY for new in MINT}
# A token in JSON is read into a tree, and written as V2 binary; JSON is made of what was signed.
MOST |= {"verify v2-json": 29, "mint v2-json": 4, "attenuate v2-json v2-json": 32}


def piped(line, count, watch=None):
    """What the pipe prints for so many of this line."""
    how = {"env": watch.environment} if watch else {}
    given = KEYS + (line + "\n") * count
    return subprocess.run([PROGRAM, "pipe"], input=given, text=True, check=True, capture_output=True, **how).stdout


def each(payload, answer):
    """How often memory is asked for, for each request of this payload; the nearest whole number."""
    counts = []
    for count in (FEW, MANY):
        with refusing.Watch("memory") as watch:
            printed = piped(payload.hex(), count, watch)
            counts.append(watch.calls)
        if printed != (answer + "\n") * count:
            sys.exit(f"the pipe doesn't answer as it should: {printed[:100]}")
    return round((counts[1] - counts[0]) / (MANY - FEW))


def token(form):
    """The bytes of a token in this form."""
    asked = "v1-text" if form == "v1-packets" else form
    printed = piped(request.mint(asked, "bank", "https://bank.example/", "user:1001", *CAVEATS).hex(), 1)
    text = printed.removeprefix("token ").rstrip("\n")
    if form != "v1-packets":
        return text
    return "hex:" + base64.urlsafe_b64decode(text + "=" * (-len(text) % 4)).hex()


def payloads():
    """A request of each kind, by the forms that it has to do with."""
    for form in (*VERIFY, "v2-json"):
        yield f"verify {form}", request.verify("bank", token(form), MOMENT, *FACTS)
    for form in (*MINT, "v2-json"):
        yield f"mint {form}", request.mint(form, "bank", "https://bank.example/", "user:1001", *CAVEATS)
    for old in (*VERIFY, "v2-json"):
        for new in (*MINT, "v2-json"):
            yield f"attenuate {old} {new}", request.attenuate(new, token(old), "amount < 100")


def counts():
    """How often memory is asked for at each of these requests."""
    for kind, payload in payloads():
        answer = piped(payload.hex(), 1).rstrip("\n")
        if not answer.startswith("granted" if kind.startswith("verify") else "token "):
            sys.exit(f"the pipe doesn't answer a {kind} as it should: {answer[:100]}")
        yield kind, each(payload, answer)


def faults():
    """What a request takes that it may not, and how many kinds of request were counted."""
    if not refusing.has_compiler():
        return [], 0, ["there is no C compiler `cc`"]
    with refusing.watching():
        return beyond(counts())


def beyond(counted):
    """Which of these kinds ask for more than they may, and how many kinds there are."""
    bounded = [it for it in counted if it[0] in MOST]
    above = [it for it in bounded if it[1] > MOST[it[0]]]
    return [f"{kind} asks for memory {count} times and not {MOST[kind]}" for kind, count in above], len(bounded)


def main():
    programs.stop_unless_built("macaroond")
    if not refusing.has_compiler():
        sys.exit("there is no C compiler `cc`")
    with refusing.watching():
        counted = list(counts())
    for kind, count in counted:
        print(f"{kind}: {count}")
    found, _ = beyond(counted)
    if found:
        sys.exit("\n".join(found))


if __name__ == "__main__":
    main()

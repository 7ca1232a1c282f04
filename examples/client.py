#!/usr/bin/env python3
"""Asks a `macaroond` that listens on a socket, and prints a line for each reply.

    client.py SOCKET mint FORM NAME LOCATION IDENTIFIER [CAVEAT ..]
    client.py SOCKET attenuate FORM TOKEN [CAVEAT ..]
    client.py SOCKET verify NAME TOKEN [MOMENT [FACT ..]]
    client.py SOCKET owner NAME TOKEN [FACT ..]
    client.py SOCKET

The words are those of request.py. Without them the requests are on standard input, a line each in
hexadecimal, as request.py prints them; all are sent without waiting for a reply. It is a use of the
package in clients/python, which need not be installed for it.
"""
import pathlib
import sys

import request

sys.path.insert(0, str(pathlib.Path(__file__).resolve().parent.parent / "clients" / "python"))
from macaroond import Client, MacaroondError


def parts(rest):
    """The identifier and the location of a reply that tells whose a token is."""
    middle = 2 + int.from_bytes(rest[:2], "big")
    return rest[2:middle], rest[middle + 2:]


def line(reply):
    """A reply as `macaroond pipe` prints it."""
    number, rest = reply[0], reply[1:]
    if number == 0:
        return "granted"
    if number == 3:
        return "granted to {} at {}".format(*(part.hex() for part in parts(rest)))
    if number == 1:
        return f"token hex:{rest.hex()}" if rest[:1] == b"\x02" else f"token {rest.decode()}"
    return f"refused 24 {int.from_bytes(rest, 'big')}" if number == 24 else f"refused {number}"


def asked(words):
    """The requests that the words ask for: one, or those of standard input."""
    payload = request.payload(words)
    if payload is not None:
        return [payload]
    if words:
        sys.exit(__doc__)
    return [bytes.fromhex(text) for text in sys.stdin]


def main(words):
    if words[:1] in (["--help"], ["-h"]):
        print(__doc__, end="")
        return
    if not words:
        sys.exit(__doc__)
    payloads = asked(words[1:])
    with Client(words[0]) as client:
        for reply in client.ask_many(payloads):
            print(line(reply))


if __name__ == "__main__":
    try:
        main(sys.argv[1:])
    except (MacaroondError, OSError, ValueError) as fault:
        sys.exit(str(fault))

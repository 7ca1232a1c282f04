#!/usr/bin/env python3
"""Writes the line of `macaroond pipe` for a request in readable fields.

    request.py key NAME [FILE]                                       a key line, for the key file
    request.py mint FORM NAME LOCATION IDENTIFIER [CAVEAT ..]        a new token
    request.py attenuate FORM TOKEN [CAVEAT ..]                      the token, narrowed
    request.py verify NAME TOKEN [MOMENT [FACT ..]]                  whether it is granted
    request.py owner NAME TOKEN [FACT ..]                            the same, and whose it is

FORM is v1-text, v2-binary, v2-json or v2-text. NAME is 1 to 64 letters, digits, dots, underscores
or dashes. MOMENT is in seconds since 1970-01-01T00:00:00Z, or `now` for that of the daemon's clock,
which is also meant where there is none and which `owner` asks for. TOKEN is `-` where it is the first line of
standard input, with the word `token` in front, as the pipe prints it, or without. Each other field is its
bytes as they are given, or `hex:` and its bytes in hexadecimal, as the pipe prints a binary token. A
key's secret is all that FILE holds, a line feed at its end too, or without FILE standard input: no word
of a command is secret, since every user of the machine can list them.
"""
import os
import re
import sys

FORMS = {"v1-text": 1, "v2-binary": 2, "v2-json": 3, "v2-text": 4}


def field(word):
    """The bytes that a word stands for."""
    if not word.startswith("hex:"):
        return os.fsencode(word)
    try:
        return bytes.fromhex(word[4:])
    except ValueError:
        sys.exit(f"{word} is not hexadecimal, two digits a byte")


def sized(content, width, name):
    """The bytes behind their length, a number of `width` bytes."""
    if len(content) >= 256**width:
        sys.exit(f"the {name} has {len(content)} bytes, more than its length can tell")
    return len(content).to_bytes(width, "big") + content


def listed(words, name):
    """How many there are, and each behind its length."""
    if len(words) > 255:
        sys.exit(f"a request has at most 255 {name}s")
    return bytes([len(words)]) + b"".join(sized(field(word), 2, name) for word in words)


def form_of(word):
    if word not in FORMS:
        sys.exit(f"{word} is no form: one of {', '.join(FORMS)}")
    return bytes([FORMS[word]])


def name_of(word):
    if not re.fullmatch("[A-Za-z0-9._-]{1,64}", word):
        sys.exit(f"the name `{word}` is not 1 to 64 letters, digits, dots, underscores or dashes")
    return word.encode()


def moment_of(word):
    if not re.fullmatch("[0-9]{1,20}", str(word)) or int(word) >= 2**64:
        sys.exit(f"the moment `{word}` is not a number of seconds from 0 to {2**64 - 1}")
    return int(word).to_bytes(8, "big")


def secret_in(path):
    """All bytes of a file, or of standard input."""
    if path is None:
        return sys.stdin.buffer.read()
    try:
        with open(path, "rb") as file:
            return file.read()
    except OSError as fault:
        sys.exit(f"{path}: {fault.strerror}")


def key(name, secret):
    """The line of a key file for a secret: its bytes, or a text as a field has it."""
    content = secret if isinstance(secret, bytes) else field(secret)
    if not content:
        sys.exit("the secret is empty")
    return f"key {name_of(name).decode()} {content.hex()}"


def mint(form, name, location, identifier, *caveats):
    fields = sized(field(location), 2, "location") + sized(field(identifier), 2, "identifier")
    front = b"\x01" + form_of(form) + sized(name_of(name), 1, "name")
    return front + fields + listed(caveats, "caveat")


def attenuate(form, token, *caveats):
    return b"\x02" + form_of(form) + sized(field(token), 2, "token") + listed(caveats, "caveat")


def verify(name, token, moment="now", *facts):
    if moment == "now":
        return at_the_clock(4, name, token, facts)
    fields = sized(field(token), 2, "token") + moment_of(moment)
    return b"\x03" + sized(name_of(name), 1, "name") + fields + listed(facts, "fact")


def owner(name, token, *facts):
    return at_the_clock(5, name, token, facts)


def at_the_clock(kind, name, token, facts):
    """A verify at the moment of the daemon's clock."""
    fields = sized(name_of(name), 1, "name") + sized(field(token), 2, "token")
    return bytes([kind]) + fields + listed(facts, "fact")


def token_of(word):
    """The token that a word gives: itself, or one that comes on standard input."""
    if word != "-":
        return word
    line = os.fsdecode(sys.stdin.buffer.readline())
    return line.rstrip("\n").removeprefix("token ")


def payload(words):
    """The request that these words ask for, or None where they ask for none."""
    match words:
        case ["mint", _, _, _, _, *_]:
            return mint(*words[1:])
        case ["attenuate", form, token, *caveats]:
            return attenuate(form, token_of(token), *caveats)
        case ["verify", name, token, *rest]:
            return verify(name, token_of(token), *rest)
        case ["owner", name, token, *facts]:
            return owner(name, token_of(token), *facts)
    return None


def main(words):
    match words:
        case ["--help" | "-h", *_]:
            print(__doc__, end="")
        case ["key", name]:
            print(key(name, secret_in(None)))
        case ["key", name, path]:
            print(key(name, secret_in(path)))
        case _:
            asked = payload(words)
            if asked is None:
                sys.exit(__doc__)
            print(asked.hex())


if __name__ == "__main__":
    main(sys.argv[1:])

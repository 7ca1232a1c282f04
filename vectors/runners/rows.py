"""The loop of a runner: a row in JSON on each line of the standard input, an answer in JSON on each line of the output.

A runner gives `run` a function for each kind of row that its library has a call for. It is given the
row's members, as bytes where they are any, and answers with bytes, with a tuple of a token's parts or
with a verdict. Any error that it raises says that the library refuses what is given.
"""
import base64
import json
import sys

# The members of rows that are no bytes.
PLAIN = ("form", "moment")


class Skip(Exception):
    """The library can't do what the row asks, for this reason."""


class Refused(Exception):
    """The library refuses, and says by this name why."""


def of(value):
    """The bytes that a text of a row stands for; of a list those of each."""
    if isinstance(value, list):
        return [of(it) for it in value]
    return bytes.fromhex(value[4:]) if value.startswith("hex:") else value.encode()


def shown(content):
    """Bytes as a row has them."""
    is_plain = all(0x20 <= byte < 0x7F for byte in content) and not content.startswith(b"hex:")
    return content.decode() if is_plain else "hex:" + content.hex()


def parts(location, identifier, caveats, signature):
    """A token's parts as a row has them; a caveat is its bytes, or a tuple of them, its vid and its location."""
    told = [dict(zip(("identifier", "vid", "location"), it if isinstance(it, tuple) else (it,))) for it in caveats]
    shown_caveats = [{name: shown(it[name]) for name in it if it[name] is not None} for it in told]
    return {"location": shown(location), "identifier": shown(identifier), "caveats": shown_caveats, "signature": signature.hex()}


def packets(text):
    """The parts that base64 of V1 packets spells, for a library that tells no caveats: what it writes tells them."""
    found, caveats, content = [], [], base64.urlsafe_b64decode(text + b"=" * (-len(text) % 4))
    while content:
        size = int(content[:4], 16)
        found.append(content[4 : size - 1].partition(b" ")[::2])
        content = content[size:]
    for key, value in found[2:-1]:
        caveats += [[value, None, None]] if key == b"cid" else []
        if key != b"cid":
            caveats[-1][1 if key == b"vid" else 2] = value
    return found[0][1], found[1][1], list(map(tuple, caveats)), found[-1][1]


def answer(kind, made):
    """The member of the result that the library told."""
    if kind == "reading":
        return {"spells": parts(*made)}
    if kind == "verdict":
        return {"granted": made}
    return {"token": shown(made)} if kind in ("writing", "narrowing") else {"digest": made.hex()}


def run(tells_why=False, **kinds):
    """Answers each row; a library that tells why it refuses tells by `refusal` None that it doesn't."""
    nothing = {"reading": {"spells": None}, "verdict": {"granted": False}}
    for line in sys.stdin:
        row = json.loads(line)
        kind, given = row["kind"], {name: it if name in PLAIN else of(it) for name, it in row["given"].items()}
        try:
            told = answer(kind, kinds[kind](**given)) if kind in kinds else {"skip": "it has no call for this"}
            told.update({"refusal": None} if tells_why and kind in kinds else {})
        except Skip as why:
            told = {"skip": str(why)}
        except Refused as why:
            told = {"refusal": str(why)}
        except Exception:
            told = nothing.get(kind, {"token": None})
        print(json.dumps(told), flush=True)

"""Runs `macaroond pipe` against the vectors: each row is asked as requests, and its answer looked for in the replies."""
from common import runs
from vectors import asking
from vectors.spelling import bytes_of, signature_of, v2

import request

CODES = {name: code for code, name in asking.REFUSALS.items()}
LARGEST = 2**64 - 1
# A run of the pipe takes 16 MiB at most.
ROOM = 8_000_000


def field(word):
    return asking.field(bytes_of(word))


def fields(words):
    return list(map(field, words))


def line_of(result):
    """The line that tells a token or a refusal."""
    if result["token"] is None:
        return f"refused {CODES[result['refusal']]}"
    token = bytes_of(result["token"])
    return f"token hex:{token.hex()}" if token[:1] == b"\x02" else f"token {token.decode()}"


# Each gives the secrets of a row, and pairs of a payload and the line that answers it.


def of_reading(given, result):
    """The token is written anew as V2 binary, which tells its parts."""
    payload = request.attenuate("v2-binary", field(given["token"]))
    if result["refusal"]:
        return [], [(payload, f"refused {CODES[result['refusal']]}")]
    parts = result["spells"]
    caveats = [bytes_of(it["identifier"]) for it in parts["caveats"]]
    binary = v2(bytes_of(parts["location"]), bytes_of(parts["identifier"]), caveats, bytes.fromhex(parts["signature"]))
    return [], [(payload, f"token hex:{binary.hex()}" if len(binary) <= 32_768 else f"refused {CODES['limit']}")]


def of_writing(given, result):
    words = [field(given[name]) for name in ("location", "identifier")]
    payload = request.mint(given["form"], "key", *words, *fields(given["caveats"]))
    return [given["secret"]], [(payload, line_of(result))]


def of_narrowing(given, result):
    return [], [(request.attenuate(given["form"], field(given["token"]), *fields(given["caveats"])), line_of(result))]


def of_signature(given, result):
    """The token that is minted has the signature."""
    identifier, caveats = bytes_of(given["identifier"]), list(map(bytes_of, given["caveats"]))
    payload = request.mint("v2-binary", "key", "", asking.field(identifier), *map(asking.field, caveats))
    return [given["secret"]], [(payload, f"token hex:{v2(b'', identifier, caveats, bytes.fromhex(result['digest'])).hex()}")]


def of_verdict(given, result):
    payload = request.verify("key", field(given["token"]), given["moment"], *fields(given["facts"]))
    index = "" if result["caveat"] is None else f" {result['caveat']}"
    return given["secrets"], [(payload, "granted" if result["granted"] else f"refused {CODES[result['refusal']]}{index}")]


def of_bound(given, result):
    """A token with the caveat is verified a second before its end and at it; one that is no bound never holds."""
    caveat, secret = bytes_of(given["caveat"]), b"secret"
    token = asking.field(v2(b"", b"i", [caveat], signature_of(secret, b"i", [caveat])))
    verify = lambda moment, holds: (request.verify("key", token, moment), "granted" if holds else "refused 24 0")
    moments = {0, 1, LARGEST} | {second + step for second in result.values() if second is not None for step in (-1, 0, 1)}
    holds = lambda moment: result["before"] is not None and moment < result["before"] or result["from"] is not None and moment >= result["from"]
    return ["secret"], [verify(moment, holds(moment)) for moment in sorted(moments) if 0 <= moment <= LARGEST]


ASKING = {
    "reading": of_reading,
    "writing": of_writing,
    "narrowing": of_narrowing,
    "signature": of_signature,
    "verdict": of_verdict,
    "bound": of_bound,
}


def pairs(rows):
    """What the pipe is asked of these rows: each payload's name of a key, the payload, its line and its row's number."""
    for row in rows:
        if row["kind"] in ASKING:
            secrets, asked = ASKING[row["kind"]](row["given"], row["result"])
            for payload, line in asked:
                yield tuple(secrets), payload, line, row["number"]


def under_keys(asked):
    """The same in runs, each of rows whose secrets are the same."""
    found = {}
    for secrets, payload, line, number in asked:
        of_secrets = found.setdefault(secrets, [[]])
        if sum(len(payload) for payload, *_ in of_secrets[-1]) * 2 > ROOM:
            of_secrets.append([])
        of_secrets[-1].append((payload, line, number))
    return [(secrets, part) for secrets, parts in found.items() for part in parts]


def case_of(secrets, part):
    keys = asking.key_lines("key", list(map(bytes_of, secrets)))
    return runs.Case(f"{keys}\n" + "".join(f"{payload.hex()}\n" for payload, *_ in part))


def faults(rows):
    """Which rows the pipe answers otherwise, and how many requests were made."""
    asked = under_keys(pairs(rows))
    cases = {f"{at:03}": case_of(*it) for at, it in enumerate(asked)}
    made, found = runs.of_cases(cases), []
    for name, (_, part) in zip(cases, asked):
        lines = made[name].output.splitlines()
        found += [f"the pipe answers row {number} otherwise: {came:.80}" for (_, line, number), came in zip(part, lines) if came != line]
        found += [] if len(lines) == len(part) else [f"the pipe gave {len(lines)} answers to {len(part)} requests"]
    return found, sum(len(part) for _, part in asked)

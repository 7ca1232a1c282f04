"""Twelve reasons for which a request is refused, and how each of the daemon's own lines and answers tells it.

A reason is told as `Macaroon-Reason` has it: a number, with the place of a caveat behind it, or `path`. What is read
here of a line is read of that line alone.
"""
import json
import pathlib
import re
import sys
import typing

sys.path.insert(0, str(pathlib.Path(__file__).resolve().parents[1]))
from check.http_rows import SECRET
from common import logged
from common.tokens import field, signed, text_of, v2

OTHER, HOLDER, GONE = b"a secret of somebody else", b"alice", b"alice:1"
SATISFIED = b"time < 9999-01-01T00:00"
ENDED, AHEAD, METHOD, UNDER = b"time < 2020-01-01T00:00", b"time >= 9999-01-01T00:00", b"method = GET", b"path under /a"
# How a path is told that isn't plain, and the number of a caveat that isn't satisfied.
NOT_PLAIN, UNSATISFIED = "path", 24


def placed():
    """A token with a caveat that has a location."""
    caveat = field(1, b"here") + field(2, METHOD) + b"\0"
    return b"\x02" + field(2, HOLDER) + b"\0" + caveat + b"\0" + field(6, signed(SECRET, HOLDER, [METHOD]))


def third_party():
    """A token with a caveat that somebody else is to judge."""
    caveat = field(1, b"there") + field(2, b"who") + field(4, b"verifier") + b"\0"
    return b"\x02" + field(2, HOLDER) + b"\0" + caveat + b"\0" + field(6, bytes(32))


class Reason(typing.NamedTuple):
    """A token with what is known of its request, and how it is refused."""

    what: str
    code: int
    token: str
    lacks: str = ""
    name: str = "bank"
    facts: typing.Sequence[str] = ()
    # The index of the caveat that isn't satisfied.
    caveat: typing.Optional[int] = None
    # Of which path HTTP is asked, where that is no plain one.
    path: str = ""
    # Whose token it is, where its signature is right.
    whose: typing.Optional[str] = None

    def told(self):
        """How it is told by faces that look at no path."""
        return str(self.code) if self.caveat is None else f"{self.code} {self.caveat}"

    def http_whose(self):
        """Whose it is over HTTP, where a token isn't judged whose path isn't plain."""
        return None if self.path else self.whose

    def method(self):
        """The method of a request of which the facts are true."""
        return "POST" if self.facts else "GET"

    def is_forbidden(self):
        """Whether HTTP has it that the request is forbidden, and not that the token is none."""
        return self.caveat is not None


def of_caveat(what, index, caveat, why, *facts, **more):
    """A caveat that isn't satisfied, behind so many that are, and why."""
    lacks = f"caveat {index}: {caveat.decode()}\n  {why}"
    token = text_of(v2(SECRET, HOLDER, [*[SATISFIED] * index, caveat]))
    return Reason(what, UNSATISFIED, token, lacks, facts=facts, caveat=index, whose=HOLDER.decode(), **more)


GOOD = text_of(v2(SECRET, HOLDER))
NO_NAME, TAKEN_BACK = "no key of this name", "the token was taken back"
REASONS = [
    Reason("no base64 text", 19, "!!!!"),
    Reason("no form of a token", 20, "AAAA"),
    Reason("a third-party caveat", 21, text_of(third_party())),
    Reason("a limit", 22, text_of(v2(SECRET, HOLDER, [b"a" * 5_000]))),
    Reason("another key", 23, text_of(v2(OTHER, HOLDER))),
    of_caveat("an end", 0, ENDED, "it ended at second 1577836800 since 1970, "),
    of_caveat("a beginning", 1, AHEAD, "it begins at second 253370764800 since 1970, "),
    of_caveat("another fact", 2, METHOD, "it differs behind its first 9 bytes from the nearest fact: method = POST", "method = POST"),
    of_caveat("a path that isn't plain", 3, UNDER, "no fact tells what the path is under: ", path="/a//b"),
    Reason("a caveat's location", 26, text_of(placed())),
    Reason(TAKEN_BACK, 29, text_of(v2(SECRET, GONE)), whose=GONE.decode()),
    # The last one: gateways ask by one name, whose key is dropped for it.
    Reason(NO_NAME, 18, GOOD, name="none"),
]
# Those for which a mint or an attenuate is refused too, asked by a call: these judge neither signatures nor caveats.
CALLED = [it for it in REASONS if it.code in (18, 19, 20, 21, 22, 26)]
# Which reason it is that is told so.
TOLD = {it.told(): it.what for it in REASONS} | {NOT_PLAIN: next(it.what for it in REASONS if it.path)}


def revoked_list():
    """The list of tokens that were taken back."""
    return f"revoked bank {GONE.hex()}\n"


def named(told):
    """The reason that is told so, where one is."""
    return TOLD.get(told)


def at_caveat(number, place):
    """How a reason is told of this number, and of this caveat if there is one."""
    return number if place is None else f"{number} {place}"


def of_frame(payload):
    """What a reply over the socket tells: a number, and of a caveat its place in two bytes."""
    place = int.from_bytes(payload[1:], "big") if payload[0] == UNSATISFIED else None
    return at_caveat(str(payload[0]), place)


def of_log(line):
    """What a line of the daemon's log tells."""
    fields = logged.read(line).fields
    if fields["verdict"] == "unsatisfied":
        return at_caveat(str(UNSATISFIED), fields["caveat"]) if "caveat" in fields else NOT_PLAIN
    return fields.get("code")


def of_whom(line):
    """Whose token it was by a line of the daemon's log, and by what the request was told apart."""
    fields = logged.read(line).fields
    return fields.get("identifier"), fields.get("id")


def of_page(status, body):
    """What the page's call answers: it has no path to judge, and a name without keys isn't there."""
    if status == 404:
        return "18"
    told = json.loads(body)
    return at_caveat(str(told["code"]), told.get("caveat"))


def of_words(line):
    """What the command line prints."""
    found = re.match(r"refused (\d+): (?:caveat (\d+))?", line)
    return found and at_caveat(*found.groups())


def of_guard(line):
    """What a guard logs: a number, and the place of a caveat behind it, or a word; and behind that a request's id."""
    found = re.search(r"macaroon refused: status=\d+ reason=(\w+)(?: caveat=(\d+))?(?: id=\S+)?$", line)
    return found and at_caveat(*found.groups())


def of_access_log(line):
    """What a gateway's access log tells, which has of a refusal what its client is told too."""
    found = re.search(r'macaroon="([^"]*)"$', line)
    return found[1] if found else json.loads(line)["resp_headers"].get("Macaroon-Reason", [""])[0]

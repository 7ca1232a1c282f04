"""What stands in the store: a signed head, and the objects that it names by their digests.

    FLEET/head              the head, signed by an operator (CMS)
    FLEET/objects/DIGEST    the key file, encrypted for all members; and pieces of the revocations
    FLEET/here/MEMBER       which run of the member's agent is there, under a lease of its own
    FLEET/told/MEMBER       what that run says is up, signed by the member (CMS)

The head's serial only grows. Nobody takes a head whose serial is lower than that of one he took.
"""
from __future__ import annotations

import collections
import json
import re
from typing import Any, Dict, List, NamedTuple, Sequence, Tuple

from .errors import NotTaken
from .sealing import certificates_in

FORM = "macaroond-fleet 1"
NAME = re.compile(r"[A-Za-z0-9._-]{1,64}")
DIGEST = re.compile(r"[0-9a-f]{64}")
KEY_LINE = re.compile(r"key ([A-Za-z0-9._-]{1,64}) ((?:[0-9A-Fa-f]{2})+)")
REVOKED_LINE = re.compile(r"revoked ([A-Za-z0-9._-]{1,64}) ((?:[0-9A-Fa-f]{2})*)")
# The most bytes of a head, of an object, of what a member tells, and of all revocations.
HEAD_MAX, OBJECT_MAX, TOLD_MAX, REVOKED_MAX = 512 << 10, 1 << 20, 4096, 16 << 20
# How many names a key file may have, by docs/FORMATS.md.
NAMES_MAX = 1000
# The most bytes of a piece of the revocations: what one more of them sends anew.
PIECE_MAX = 64 << 10
# A revocation file without lines is taken where it says so.
NO_LINES = "# none\n"
# A serial is the seconds since 1970 where it can be, so that a fleet that is begun anew has a later one.
SERIAL_MAX = 1 << 53


class Step(NamedTuple):
    """How far a key's change has come: `below`, `above`, or `kept` until a moment, when the old key is dropped."""

    word: str
    until: int = 0


class Head(NamedTuple):
    """What an operator signs."""

    fleet: str
    serial: int
    keys: str
    revoked: Tuple[str, ...]
    members: Dict[str, str]
    steps: Dict[str, Step]

    def text(self) -> bytes:
        """Its text, as it is signed."""
        steps = {name: [step.word, step.until] for name, step in self.steps.items()}
        told = {"form": FORM, **self._asdict(), "revoked": list(self.revoked), "steps": steps}
        return json.dumps(told, indent=1, sort_keys=True).encode()

    def objects(self) -> List[str]:
        """The digests of all that it names."""
        return [self.keys, *self.revoked]


class Told(NamedTuple):
    """What a member signs: which serial this run of its agent found to be up there, and why no later one is."""

    fleet: str
    member: str
    run: str
    serial: int
    why: str
    at: int

    def text(self) -> bytes:
        return json.dumps({"form": FORM, **self._asdict()}).encode()


def is_number(value: Any, most: int = SERIAL_MAX) -> bool:
    return isinstance(value, int) and not isinstance(value, bool) and 0 <= value <= most


def is_name(value: Any) -> bool:
    return isinstance(value, str) and NAME.fullmatch(value) is not None


def is_digest(value: Any) -> bool:
    return isinstance(value, str) and DIGEST.fullmatch(value) is not None


def loaded(text: bytes, members: Sequence[str], what: str) -> Dict[str, Any]:
    """The members of a JSON object of our form: these, and no others."""
    try:
        found = json.loads(text)
    except (ValueError, RecursionError) as fault:
        raise NotTaken(f"{what} isn't JSON") from fault
    if not isinstance(found, dict) or found.pop("form", None) != FORM:
        raise NotTaken(f"{what} isn't of the form `{FORM}`")
    if sorted(found) != sorted(members):
        raise NotTaken(f"{what} hasn't the members that it must have")
    return found


def require(holds: bool, what: str) -> None:
    if not holds:
        raise NotTaken(f"the head is faulty: {what}")


def head_in(text: bytes, fleet: str) -> Head:
    """The head of a text that was signed; one of another fleet isn't taken."""
    found = loaded(text, Head._fields, "the head")
    require(found["fleet"] == fleet, f"it is of another fleet than {fleet}")
    require(is_number(found["serial"]), "its serial is no number")
    require(is_digest(found["keys"]), "its keys are no digest")
    revoked, members, steps = found["revoked"], found["members"], found["steps"]
    require(isinstance(revoked, list) and all(map(is_digest, revoked)), "its revocations are no digests")
    require(isinstance(members, dict) and all(map(is_name, members)), "a member has no name")
    require(all(isinstance(it, str) and len(certificates_in(it)) == 1 for it in members.values()), "a member has no certificate")
    require(isinstance(steps, dict) and all(map(is_name, steps)), "a change has no name")
    made = {name: step_of(it) for name, it in steps.items()}
    return Head(fleet, found["serial"], found["keys"], tuple(revoked), members, made)


def step_of(value: Any) -> Step:
    require(isinstance(value, list) and len(value) == 2, "a change is at no step")
    word, until = value
    require(word in ("below", "above", "kept") and is_number(until), "a change is at no step")
    return Step(word, until)


def told_in(text: bytes, fleet: str, member: str) -> Told:
    """What a member told, in a text that it has signed."""
    found = Told(**loaded(text, Told._fields, "what it tells"))
    kinds = (is_name(found.run), is_number(found.serial), isinstance(found.why, str), is_number(found.at))
    if (found.fleet, found.member) != (fleet, member) or not all(kinds):
        raise NotTaken("what it tells is faulty, or another member's")
    return found


class KeyFile:
    """The lines of a key file, as docs/FORMATS.md has them, without what a line may say besides."""

    def __init__(self, text: bytes) -> None:
        self.lines: List[Tuple[str, str]] = []
        for number, raw in enumerate(text.split(b"\n"), 1):
            if raw and not raw.startswith(b"#"):
                found = KEY_LINE.fullmatch(raw.decode("latin-1"))
                if found is None:
                    raise NotTaken(f"the key file is faulty: line {number}")
                self.lines.append((found[1], found[2]))
        if not self.lines:
            raise NotTaken("the key file has no key")
        counted = collections.Counter(name for name, _ in self.lines)
        if len(counted) > NAMES_MAX:
            raise NotTaken(f"the key file is faulty: it has more than {NAMES_MAX} names")
        if crowded := [name for name, count in counted.items() if count > 2]:
            raise NotTaken(f"the key file is faulty: {crowded[0]} stands on three lines")

    def names(self) -> List[str]:
        return list(dict.fromkeys(name for name, _ in self.lines))

    def of(self, name: str) -> List[str]:
        """The secrets of a name; that of the first one mints."""
        return [secret for it, secret in self.lines if it == name]

    def with_secrets(self, name: str, secrets: Sequence[str]) -> KeyFile:
        """The file with these secrets in the place of a name's."""
        at = next(number for number, (it, _) in enumerate(self.lines) if it == name)
        others = [line for line in self.lines[at:] if line[0] != name]
        made = [*self.lines[:at], *((name, secret) for secret in secrets), *others]
        return KeyFile("".join(f"key {it} {secret}\n" for it, secret in made).encode())

    def text(self) -> bytes:
        return "".join(f"key {name} {secret}\n" for name, secret in self.lines).encode()


def revocations(pieces: Sequence[bytes]) -> List[Tuple[str, str]]:
    """The names and identifiers of pieces, in their order."""
    found = []
    for raw in b"".join(pieces).split(b"\n"):
        if raw and not raw.startswith(b"#"):
            line = REVOKED_LINE.fullmatch(raw.decode("latin-1"))
            if line is None:
                raise NotTaken("the revocations are faulty")
            found.append((line[1], line[2].lower()))
    return found


def revoked_line(name: str, identifier: str) -> str:
    return f"revoked {name} {identifier}\n"


def revoked_text(lines: Sequence[Tuple[str, str]]) -> bytes:
    """The file of these revocations, as `listen` takes it."""
    return ("".join(revoked_line(*line) for line in lines) or NO_LINES).encode()


def pieces_of(lines: Sequence[Tuple[str, str]]) -> List[bytes]:
    """The revocations in pieces that an object may have. Further lines change the last ones alone."""
    pieces, size = [[]], 0  # type: Tuple[List[List[bytes]], int]
    for raw in (revoked_line(*line).encode() for line in lines):
        if size + len(raw) > PIECE_MAX and pieces[-1]:
            pieces.append([])
            size = 0
        pieces[-1].append(raw)
        size += len(raw)
    return [b"".join(piece) for piece in pieces if piece]


def key_of(fleet: str, *parts: str) -> str:
    """Where something stands in the store."""
    return "/".join(("", "macaroond-fleet", fleet, *parts))

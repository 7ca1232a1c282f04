"""Doubts about caveats: those that can hardly hold, by the rules of clients/README.md.

A caveat is taken whatever it says. A mint and an attenuate warn of one that is seldom meant.
"""
from __future__ import annotations

import re
import time
import warnings
from typing import Iterable, List, Optional, Set

from .text import Text, bytes_of, shown

TIME = re.compile(rb"([0-9]{4})-([0-9]{2})-([0-9]{2})T([0-9]{2}):([0-9]{2})(?::([0-9]{2}))?Z?")
NEAR = re.compile(rb"time ?[<>]", re.IGNORECASE)
# An equals sign behind a name of which gateways tell facts, but not with one space on each side.
MISSPACED = re.compile(rb"(?:method|path|host|scheme|ip)(?! = ) ?=")
UNDER = b"path under /"
DAYS = (31, 28, 31, 30, 31, 30, 31, 31, 30, 31, 30, 31)


class CaveatWarning(UserWarning):
    """A caveat of a new token can hardly hold."""


def doubts(caveats: Iterable[Text], at: Optional[float] = None, earlier: Iterable[Text] = ()) -> List[str]:
    """What is told of those caveats that can hardly hold, a line for each, at a moment in seconds since
    1970, or now. `earlier` are caveats that the token has already."""
    moment, seen, told = time.time() if at is None else at, {bytes_of(caveat) for caveat in earlier}, []
    for caveat in map(bytes_of, caveats):
        words = doubt(caveat, seen, moment)
        if words is not None:
            told.append(f"a caveat {words}: {shown(caveat)}")
        seen.add(caveat)
    return told


def doubt(caveat: bytes, seen: Set[bytes], moment: float) -> Optional[str]:
    """The first doubt about a caveat, of which those were seen before."""
    limit = bound(b"time < ", caveat)
    if NEAR.match(caveat) and limit is None and bound(b"time >= ", caveat) is None:
        return "is no bound of time, and holds only as a fact"
    if limit is not None and limit <= moment:
        return "is a time limit that has passed, and holds only as a fact"
    if caveat.startswith(UNDER) and caveat.endswith(b"/") and caveat != UNDER:
        return "ends in a slash, and no path is under it"
    if MISSPACED.match(caveat):
        return "has not one space on each side of its equals sign"
    return "stands there twice" if caveat in seen else None


def bound(front: bytes, caveat: bytes) -> Optional[int]:
    """The second since 1970 of a bound of time that begins so, where the caveat is one (docs/FORMATS.md)."""
    spelled = TIME.fullmatch(caveat[len(front) :]) if caveat.startswith(front) else None
    if spelled is None:
        return None
    year, month, day, hour, minute, second = (int(part or 0) for part in spelled.groups())
    is_leap = year % 4 == 0 and (year % 100 != 0 or year % 400 == 0)
    if not 1 <= month <= 12 or not 1 <= day <= DAYS[month - 1] + (is_leap and month == 2) or hour > 23 or minute > 59 or second > 59:
        return None
    before = year - 1
    days = 365 * year + before // 4 - before // 100 + before // 400 + sum(DAYS[: month - 1]) + (is_leap and month > 2) + day - 1
    return 86_400 * (days - EPOCH) + 3_600 * hour + 60 * minute + second


# The days of `bound` to the first day of 1970.
EPOCH = 365 * 1970 + 1969 // 4 - 1969 // 100 + 1969 // 400


def warn_of(caveats: Iterable[Text], earlier: Iterable[Text] = (), level: int = 4) -> None:
    """Warns of caveats that can hardly hold, at the line of who calls so many calls above."""
    for told in doubts(caveats, earlier=earlier):
        warnings.warn(told, CaveatWarning, stacklevel=level)

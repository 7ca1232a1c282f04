"""What is known of a request's path, by the rules of the daemon's source `forwarded` (docs/HTTP.md)."""
from __future__ import annotations

import re
from typing import List

from .errors import NotPlain
from .text import Text, bytes_of, text_of

# The limits of a path that facts are told of.
PATH_MAX, SLASHES_MAX = 4_096, 64
# An empty segment, a backslash, an escape of a dot, a slash or a backslash, or a segment of one dot or two.
UNSAFE = re.compile(rb"//|\\|%2e|%2f|%5c|/\.\.?(?:/|\Z)", re.IGNORECASE)
# What some servers end a segment at, drop, or read in a way of their own: a semicolon, an escape of it, of a zero byte
# or of a tab, `%u`, and a character of UTF-8 in more bytes than it needs, as it is or escaped.
ODD = re.compile(rb";|%3b|%00|%09|%u|%c[01]|%e0%[89]|%f0%8|[\xc0\xc1]|\xe0[\x80-\x9f]|\xf0[\x80-\x8f]", re.IGNORECASE)
SLASH = ord("/")


def path_facts(target: Text, *, strict: bool = False) -> List[str]:
    """`path = /a/b`, and `path under ..` for each step of the path: `/`, `/a` and `/a/b`.

    The target is what the request's line has, up to a `?` and with its escapes: `/%C3%A4`, and not `/\u00e4`.
    A path that isn't plain is `NotPlain`; where it is read strictly, as by `--http-strict-paths`, so is an odd one.
    """
    path = bytes_of(target).partition(b"?")[0]
    if not is_plain(path) or (strict and ODD.search(path)):
        raise NotPlain("the path is not plain")
    return [text_of(fact) for fact in (b"path = " + path, *(b"path under " + step for step in steps(path)))]


def is_plain(path: bytes) -> bool:
    """Whether each server reads the path alike."""
    is_within = len(path) <= PATH_MAX and path.count(b"/") <= SLASHES_MAX
    return path.startswith(b"/") and is_within and UNSAFE.search(path) is None


def steps(path: bytes) -> List[bytes]:
    """`/`, and each front of the path that ends in no slash and has a slash or nothing behind it."""
    ends = [end for end in range(2, len(path) + 1) if path[end - 1] != SLASH and path[end : end + 1] in (b"/", b"")]
    return [path[:end] for end in (1, *ends)]

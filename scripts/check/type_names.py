"""Tells public types that share their name: one name, one thing, in the whole tree.

A type is public here where its line begins with `pub struct`, `pub enum` or `pub trait`, in a product
crate or in one that tries or times the others.
"""
import collections
import re

from common import TOP

TYPE = re.compile(r"^pub (?:struct|enum|trait) (\w+)", re.M)


def types():
    """The files that declare a public type of each name."""
    found = collections.defaultdict(list)
    for path in sorted(TOP.glob("crates/*/src/**/*.rt")):
        for name in TYPE.findall(path.read_text()):
            found[name].append(str(path.relative_to(TOP)))
    return found


def faults():
    """Which names stand for two things, and how many names there are."""
    found = types()
    twice = {name: files for name, files in found.items() if len(files) > 1}
    return [f"the type {name} stands twice: {', '.join(files)}" for name, files in twice.items()], len(found)

#!/usr/bin/env python3
"""Tells functions with more parameters than a reader keeps apart: what is passed together is one type."""
import pathlib
import re
import sys

sys.path.insert(0, str(pathlib.Path(__file__).resolve().parents[1]))
from check.unused import TRIALS
from common import TOP, crates
from wrong_bodies.functions import HEADER, functions_of

# How many a function has at most, its own value counted; and one of a crate that others take as a library.
MOST = 6
OF_LIBRARY = {"mac_plain": 5}
# What passes that, and why.
SERVER = "what a server is started or run with isn't one type yet"
MEANT = {
    "mac_serve::connection::serve": SERVER,
    "mac_serve::connection::run_both": SERVER,
    "mac_serve::inbound::Inbound::take_arrivals": SERVER,
    "mac_serve::inbound::Inbound::take_all": SERVER,
    "mac_serve::inbound::Inbound::read_to_end": SERVER,
    "mac_serve::inbound::Inbound::run": SERVER,
}


def count_of(head):
    """How many parameters stand between the parentheses of a function's head."""
    text = re.sub(r"//.*", "", head)
    at = behind_generics(text, re.search(r"\bfn \w+", text).end()) + 1
    depth, count, is_empty = 0, 0, True
    for at, letter in enumerate(text[at:], at):
        if letter == ")" and depth == 0:
            break
        is_arrow = letter == ">" and text[at - 1] in "-="
        depth += (letter in "(<[{") - (letter in ")>]}" and not is_arrow)
        if letter == "," and depth == 0:
            count, is_empty = count + 1, True
        elif not letter.isspace():
            is_empty = False
    return count + (not is_empty)


def behind_generics(text, at):
    """Where the parameters begin."""
    depth = 0
    while text[at] != "(" or depth:
        is_arrow = text[at] == ">" and text[at - 1] in "-="
        depth += (text[at] == "<") - (text[at] == ">" and not is_arrow)
        at += 1
    return at


def crowded():
    """Each function of the product with more parameters than its crate's may have, and how many."""
    for crate in (it for it in crates.uses() if not TRIALS.match(it)):
        folder = TOP / "crates" / crate
        for path in sorted((folder / "src").rglob("*.rt")):
            lines, file = path.read_text().split("\n"), str(path.relative_to(folder))
            for it in functions_of(lines, file, crate):
                head = next(at for at in range(it.first, it.end) if HEADER.match(lines[at]))
                count = count_of("\n".join(lines[head : it.start]))
                if count > OF_LIBRARY.get(crate, MOST):
                    yield it.path, count


def faults():
    """Each that isn't meant, and what is meant and has no more than others; and how many are looked for."""
    found = dict(crowded())
    told = [f"{path} has {count} parameters" for path, count in found.items() if path not in MEANT]
    told += [f"scripts/check/parameters.py: {it} has no more than others" for it in MEANT if it not in found]
    return told, len(MEANT) + 1


if __name__ == "__main__":
    print("\n".join(faults()[0]))

#!/usr/bin/env python3
"""Draws docs/architecture.svg of docs/architecture.dot, by Graphviz's `dot`, where that changed.

The picture tells the digest of the text that it was drawn of: other versions of `dot` draw the same
text in other bytes, so these aren't compared.
"""
import hashlib
import pathlib
import re
import shutil
import subprocess
import sys

sys.path.insert(0, str(pathlib.Path(__file__).resolve().parents[1]))
from common import TOP

TEXT = TOP / "docs" / "architecture.dot"
PICTURE = TEXT.with_suffix(".svg")
CRATE = re.compile(r"\b(?:mac_[a-z]+|sha256x8|macaroond)\b")


def mark():
    digest = hashlib.sha256(TEXT.read_bytes()).hexdigest()
    return f"<!-- of {TEXT.name}, SHA-256 {digest} -->\n"


def faults():
    """Whether the picture is of another text, and crates in it that aren't there; how much was asked."""
    drawn = PICTURE.read_text().endswith(mark())
    found = [] if drawn else [f"{PICTURE.relative_to(TOP)} is out of date: make pages"]
    named = sorted(set(CRATE.findall(TEXT.read_text())))
    missing = [name for name in named if not (TOP / "crates" / name).is_dir()]
    return found + [f"{TEXT.relative_to(TOP)}: no crate {name}" for name in missing], 1 + len(named)


def main():
    if PICTURE.exists() and PICTURE.read_text().endswith(mark()):
        return
    if shutil.which("dot") is None:
        sys.exit("draw: there is no command `dot` (Debian's package graphviz)")
    drawn = subprocess.run(["dot", "-Tsvg", TEXT], capture_output=True, text=True, check=True)
    PICTURE.write_text(drawn.stdout + mark())
    print(f"draw: {PICTURE.relative_to(TOP)} is drawn")


if __name__ == "__main__":
    main()

#!/usr/bin/env python3
"""Writes the texts of the page into macaroond's source: src/page_texts.rt, from the files of page/."""
import pathlib
import sys

CRATE = pathlib.Path(__file__).resolve().parents[2] / "crates" / "macaroond"
SOURCE = CRATE / "src" / "page_texts.rt"
FILES = {
    "DOCUMENT": ("page.html", "The document, in HTML."),
    "STYLE": ("page.css", "Its style, in CSS."),
    "SCRIPT": ("page.js", "What it does, in JavaScript."),
}
HEAD = """//! The texts of the page, which `scripts/build/page_texts.py` makes of `page/`.
"""
FURTHER = "\n    "


def constant(name, text, words):
    odd = sorted({letter for letter in text if not (" " <= letter <= "~" or letter == "\n")})
    if odd:
        sys.exit(f"page_texts.py: {name} has letters that are not printable ASCII: {odd}")
    hashes = "#"
    while f'"{hashes}' in text:
        hashes += "#"
    front, literal = f"pub(crate) const {name}: &str =", f'r{hashes}"{text}"{hashes};'
    # `rt fmt` breaks the line where it is long.
    fits = len(front) + 1 + len(literal.split("\n")[0]) <= 100
    return f"\n/// {words}\n{front}{' ' if fits else FURTHER}{literal}\n"


def made():
    files = ((name, (CRATE / "page" / file).read_text(), words) for name, (file, words) in FILES.items())
    return HEAD + "".join(constant(*each) for each in files)


def faults():
    """Whether the source isn't what is made here."""
    is_old = SOURCE.read_text() != made()
    return ["crates/macaroond/src/page_texts.rt is out of date: scripts/build/page_texts.py"] * is_old


def main():
    SOURCE.write_text(made())


if __name__ == "__main__":
    main()

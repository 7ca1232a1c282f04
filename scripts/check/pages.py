#!/usr/bin/env python3
"""What README, its neighbours and docs name is there, and their tables are whole.

A name, of a file, a crate, a function or a definition, stands between two backquotes. A path is
looked for by its ending among all files; a function or a definition, told as `NAME` (`PATH`), has
to stand in a file of this path, and one of a type (`TYPE::NAME`) in a file about that type. A link to
a file leads to one. Rows that don't begin with a heading and its rule were cut off their table.
Sentences have few words: in the mean of a page, and each.
"""
import collections
import functools
import pathlib
import re
import subprocess
import sys

sys.path.insert(0, str(pathlib.Path(__file__).resolve().parents[1]))
from common import TOP, crates

PAGES = [
    *sorted(TOP.glob("*.md")),
    TOP / "clients" / "README.md",
    *sorted((TOP / "docs").glob("*.md")),
    *sorted((TOP / "crates").glob("*/PROMISES.md")),
]
NAMED = re.compile(r"`([^`\n]+)`")
PATH = re.compile(r"[\w./-]+\.(?:rt|antt|py|sh|md|edit|c|go|txt|1)")
# What stands in the place of a name.
PLACEHOLDER = re.compile(r"THING|NAME")
CRATE = re.compile(r"(?:mac|try)_[a-z]+|time_blocks|sha256x8|macaroond")
PAIRED = re.compile(r"`([a-z_0-9:A-Z]+)` \(`((?:src|specs|crates)/[\w./-]+)`\)")
OF_TYPE = re.compile(r"`(?:\w+::)?([A-Z]\w*)::([a-z_]\w*)`")
# What declares a type, what a file is about, and what declares a function of it, or a member that contracts alone see.
TYPE = re.compile(r"\b(?:struct|enum|trait) (\w+)")
ABOUT = re.compile(r"^ *(?:pub )?(?:impl(?:<.*?>)? (?:[^{]*? for )?|trait )(\w+)", re.M)
FUNCTION = re.compile(r"\b(?:fn|ghost) (\w+)")
LINK = re.compile(r"\]\(([^)#\s:]+)(?:#[^)]*)?\)")
RULE = re.compile(r"\|[-| :]+\|?$")
# How many words a sentence has: the mean of a page, and the longest, in what is written by hand.
MEAN_MAX, WORDS_MAX = 25, 45
# Where README lists the toolchain's crates whose contracts are trusted.
PORTS = re.compile(r"^- The contracts of its ports of (.*)$", re.M)
# What is no sentence: code and comments, and what make pages writes.
ASIDE = re.compile(r"^```.*?^```$|<!-- (?:laws|bodies) -->.*?<!-- end -->|<!--.*?-->", re.M | re.S)
# What each passage begins with: a row's cell, an item of a list, or a blank line.
PASSAGE = re.compile(r"\n\s*\n|\n(?=[ ]*(?:[-*]|\d+\.) |#)|(?<!\\)\|")
SENTENCE = re.compile(r"(?<=[.?!])[\"')*]*\s+")


def tracked():
    """The files of the repository, those included that are new and not ignored."""
    command = ["git", "ls-files", "--cached", "--others", "--exclude-standard"]
    listed = subprocess.run(command, cwd=TOP, capture_output=True, text=True, check=True)
    return [name for name in listed.stdout.splitlines() if (TOP / name).exists()]


def is_there(path, files):
    path = path.removeprefix("./")
    return any(name == path or name.endswith("/" + path) for name in files)


def has_word(word, path, files):
    """Whether a file at this path has the word."""
    found = [TOP / name for name in files if name == path or name.endswith("/" + path)]
    return any(re.search(rf"\b{re.escape(word)}\b", file.read_text()) for file in found)


@functools.cache
def functions_of_types():
    """The types that crates declare, each with the functions of the files that are about it."""
    found = collections.defaultdict(set)
    texts = [path.read_text() for path in (TOP / "crates").glob("*/src/**/*.rt")]
    declared = {name for text in texts for name in TYPE.findall(text)}
    for text in texts:
        for name in declared.intersection(ABOUT.findall(text)):
            found[name].update(FUNCTION.findall(text))
    return found


def lost_functions(text):
    """The functions of a crate's types that a page names and that aren't there. What a type has for a trait may be told
    by both names in one."""
    known = functions_of_types()
    for owner, function in OF_TYPE.findall(text):
        owners = [owner] if owner in known else [it for it in known if owner.startswith(it)]
        if owners and not any(function in known[it] for it in owners):
            yield f"no {owner}::{function}"


def missing(text, files):
    """What a page's text names that isn't there."""
    for name in NAMED.findall(text):
        if PATH.fullmatch(name) and not PLACEHOLDER.search(name) and not is_there(name, files):
            yield f"no file {name}"
        if CRATE.fullmatch(name) and not (TOP / "crates" / name).is_dir():
            yield f"no crate {name}"
    for function, path in PAIRED.findall(text):
        if not has_word(function.split("::")[-1], path, files):
            yield f"no {function} in {path}"


def dead_links(page, text):
    """The links of a page that lead to no file."""
    for target in LINK.findall(text):
        if not (page.parent / target).exists():
            yield f"a link to {target}, which isn't there"


def cut_rows(text):
    """The numbers of rows that a blank line cuts off their table."""
    lines = [*text.splitlines(), "", ""]
    for number in range(1, len(lines) - 1):
        begins = lines[number].startswith("|") and not lines[number - 1].startswith("|")
        if begins and not RULE.match(lines[number + 1]):
            yield number + 1


def sentences(text):
    """The words of each sentence of a page, where code counts as one."""
    plain = re.sub(r"`[^`\n]*`", "`..`", ASIDE.sub("", text))
    for passage in PASSAGE.split(plain):
        for sentence in SENTENCE.split(passage):
            if words := re.findall(r"\S*[\w`]\S*", sentence):
                yield words


def long_sentences(text):
    """What is wrong with the length of the sentences of a page."""
    found = list(sentences(text))
    count = sum(map(len, found))
    if count > MEAN_MAX * len(found):
        yield f"its sentences have {count / len(found):.0f} words in the mean"
    for words in found:
        if len(words) > WORDS_MAX:
            yield f"a sentence of {len(words)} words: {' '.join(words[:8])} .."


def ports():
    """What README's list of trusted crates lacks of those that crates.txt names, or has besides."""
    used = {it for names in crates.uses().values() for it in names} - {*crates.uses()}
    told = {*NAMED.findall(PORTS.search((TOP / "README.md").read_text())[1])}
    return [f"README.md: its ports have {it} too much or too little" for it in sorted(used ^ told)]


def faults():
    """What is wrong with the pages, and how many pages there are."""
    files = tracked()
    found = ports()
    for page in PAGES:
        text = page.read_text()
        name = page.relative_to(TOP)
        wrong = (*missing(text, files), *lost_functions(text), *dead_links(page, text), *long_sentences(text))
        found += [f"{name}: {it}" for it in wrong]
        found += [f"{name}, line {number}: a row without its table" for number in cut_rows(text)]
    return found, len(PAGES)


if __name__ == "__main__":
    told, count = faults()
    print("\n".join(told) or f"pages: {count} pages are as they must be")
    sys.exit(1 if told else 0)

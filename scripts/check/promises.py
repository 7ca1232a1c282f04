#!/usr/bin/env python3
"""Writes into the pages of promises what the tree tells, or tells which are out of date.

The page of a crate is crates/NAME/PROMISES.md. Its words are written by hand, and so are the names
of the functions in the last column of a table that is headed WRONG: behind each such name this
script puts the wrong bodies of that function, those that the gate tries in bold. Between the lines
<!-- PART --> and <!-- end --> stands what it writes by itself: the counts, the laws, and the wrong
bodies of functions that no table names. docs/PROMISES.md has such a part with the counts of all, and one with what
came of wrong bodies that were tried (docs/wrong-bodies.txt).
"""
import pathlib
import re
import sys

sys.path.insert(0, str(pathlib.Path(__file__).resolve().parents[1]))
from common import TOP
from wrong_bodies.bodies import BadEdit, Source, read_body
from wrong_bodies.kept import is_as_tried, recorded

WRONG = "Wrong bodies refused"
# What stands behind a function's name in that column, and what parts one function from the next.
ENTRY = re.compile(r"`([\w:./]+)`: [^;|]*")
PART = re.compile(r"<!-- (counts|laws|bodies|tried) -->\n.*?<!-- end -->", re.S)
EMPTY = "<!-- {} -->\n<!-- end -->\n"


class Crate:
    """A crate's wrong bodies by the functions that they change, and its laws."""

    def __init__(self, folder):
        self.name, self.page = folder.name, folder / "PROMISES.md"
        source = Source(folder)
        self.functions = {it.path for it in source.functions}
        self.files = {it.file for it in source.functions}
        self.gate, self.all, self.at = set(), set(), {}
        for kind in ("must-fail", "wrong-bodies"):
            for edit in sorted((folder / kind).glob("*.edit")):
                self.all.add(edit.stem)
                if kind == "must-fail":
                    self.gate.add(edit.stem)
                for place in places_of(edit, source):
                    self.at.setdefault(place, set()).add(edit.stem)
        self.laws = laws_of(folder / "src" / "laws.rt")

    def named(self, name):
        """The places that this name means: a file, or functions by the end of their paths."""
        return {it for it in self.at if it == name or it.endswith("::" + name)}

    def is_known(self, name):
        ends = (it == name or it.endswith("::" + name) for it in self.functions | self.files)
        return any(ends)

    def listed(self, names):
        """Names of wrong bodies, those of the gate first and in bold."""
        order = sorted(names, key=lambda it: (it not in self.gate, it))
        return ", ".join(f"**`{it}`**" if it in self.gate else f"`{it}`" for it in order)


def places_of(edit, source):
    """The functions that a wrong body changes; else the files, where it changes something else."""
    try:
        body = read_body(edit, source)
    except BadEdit:
        return []
    return [it.path for it in body.functions] or list(body.lines)


def laws_of(file):
    """The public functions of a module of laws, each with the words above it."""
    found, words = {}, []
    for line in file.read_text().splitlines() if file.exists() else []:
        told, law = re.match(r"/// ?(.*)", line), re.match(r"pub fn (\w+)", line)
        if told:
            words.append(told[1])
        if law:
            found[law[1]] = re.sub(r"\[(`[^`]+`)\](\([^)]*\))?", r"\1", " ".join(words))
        if law or not line.strip():
            words = []
    return found


def counts_part(crate):
    """How many wrong bodies there are, and who tries them."""
    all_by = f"`make wrong-bodies {crate.name}` tries all"
    some = f"the gate tries {len(crate.gate)} (`must-fail/`), in bold below"
    gate = some if crate.gate else "the gate tries none"
    return f"Wrong bodies: {len(crate.all)}. Of these {gate}; {all_by}.\n"


def laws_part(crate):
    rows = "".join(f"| `{law}` | {words} |\n" for law, words in crate.laws.items())
    return f"| Law | What it says |\n|---|---|\n{rows}"


def bodies_part(crate, told):
    """The wrong bodies of the functions that no table names."""
    left = {place: names for place, names in sorted(crate.at.items()) if place not in told}
    if not left:
        return "The tables above name each function that has wrong bodies.\n"
    own = len(crate.name) + 2
    rows = [f"| `{it[own:] if '::' in it else it}` | {crate.listed(left[it])} |\n" for it in left]
    return f"| Function | {WRONG} |\n|---|---|\n{''.join(rows)}"


def filled(row, crate, told, faults):
    """A row with the wrong bodies of the functions that its last cell names."""
    front, _, last = row.rpartition(" | ")
    entries = ENTRY.findall(last)
    for name in entries:
        if not crate.is_known(name):
            faults.append(f"crates/{crate.name}/PROMISES.md: no function {name}")
        told.update(crate.named(name))
    if not entries:
        return row
    cells = [f"`{it}`: {crate.listed(bodies_at(crate, it)) or 'none yet'}" for it in entries]
    return f"{front} | {'; '.join(cells)} |"


def bodies_at(crate, name):
    return {body for place in crate.named(name) for body in crate.at[place]}


def crate_page(crate, faults):
    """The crate's page as it has to be."""
    told, lines, in_table = set(), [], False
    empty = PART.sub(lambda part: f"<!-- {part[1]} -->\n<!-- end -->", crate.page.read_text())
    for line in empty.split("\n"):
        in_table = line.startswith("|") and (in_table or line.endswith(f"| {WRONG} |"))
        is_row = in_table and not line.endswith((f"| {WRONG} |", "---|"))
        lines.append(filled(line, crate, told, faults) if is_row else line)
    parts = {
        "counts": lambda: counts_part(crate),
        "laws": lambda: laws_part(crate),
        "bodies": lambda: bodies_part(crate, told),
    }
    put = lambda part: f"<!-- {part[1]} -->\n{parts[part[1]]()}<!-- end -->"
    text = PART.sub(put, "\n".join(lines))
    missing = ["counts", *["laws"] * bool(crate.laws), *["bodies"] * bool(crate.all)]
    there = PART.findall(text)
    faults += [f"{crate.page.relative_to(TOP)}: no part {it}" for it in missing if it not in there]
    return text


def whole_page(crates):
    """docs/PROMISES.md with the counts of all crates."""
    counts = {f"[`{it.name}`](../crates/{it.name}/PROMISES.md)": sizes(it) for it in crates}
    counts["all"] = [sum(them) for them in zip(*counts.values())]
    rows = ["| Crate | Laws | Wrong bodies | Tried by the gate |", "|---|---|---|---|"]
    rows += [f"| {name} | {' | '.join(map(str, them))} |" for name, them in counts.items()]
    parts = {"counts": rows, "tried": tried_part(crates)}
    put = lambda it: f"<!-- {it[1]} -->\n" + "\n".join(parts[it[1]]) + "\n<!-- end -->"
    page = TOP / "docs" / "PROMISES.md"
    return page, PART.sub(put, page.read_text())


def tried_part(crates):
    """What came of wrong bodies where `make wrong-bodies` was run and recorded."""
    tried = recorded(TOP)
    left = [f"`{it.name}`" for it in crates if it.all and it.name not in tried]
    others = [f"`{it.name}`" for it in crates if it.name in tried and not is_as_tried(TOP, it.name, tried[it.name])]
    rows = [
        "| Crate | Tree | Tried | At a clause | By name alone | Not covered | Let through | Not compiling |",
        "|---|---|---|---|---|---|---|---|",
    ]
    sums = [0] * 6
    for crate in (it.name for it in crates if it.name in tried):
        commit, _, *counts = tried[crate]
        counts = [sum(map(int, counts)), *map(int, counts)]
        sums = [a + b for a, b in zip(sums, counts)]
        rows.append(f"| `{crate}` | {commit} | {' | '.join(map(str, counts))} |")
    rows.append(f"| all of these | | {' | '.join(map(str, sums))} |")
    return [*rows, *named_below("Not tried to the end yet", left), *named_below("Changed since, in their texts or their wrong bodies", others)]


def named_below(what, names):
    """A line below a table, that tells this of some crates."""
    return ["", f"{what}: {', '.join(names)}."] if names else []


def sizes(crate):
    return [len(it) for it in (crate.laws, crate.all, crate.gate)]


def all_crates():
    listed = (TOP / "crates.txt").read_text().splitlines()
    names = [it.partition(":")[0].split()[0] for it in listed if re.match(r"\w", it)]
    return [Crate(TOP / "crates" / it) for it in names]


def begin_pages():
    """Begins a page for each crate that has laws or wrong bodies and no page yet."""
    for crate in (it for it in all_crates() if (it.all or it.laws) and not it.page.exists()):
        table = f"| Promise | Contract | {WRONG} |\n|---|---|---|\n"
        laws = f"## Laws\n\n{EMPTY.format('laws')}\n" if crate.laws else ""
        bodies = f"## Wrong bodies of other functions\n\n{EMPTY.format('bodies')}" if crate.all else ""
        parts = [f"# What `{crate.name}` promises\n", EMPTY.format("counts"), table, laws, bodies]
        crate.page.write_text("\n".join(filter(None, parts)))
        print(f"promises: {crate.page.relative_to(TOP)} is begun: its table wants rows")


def pages():
    """Each page with the text that it has to have, and what is wrong with the names in them."""
    crates = all_crates()
    found, faults = [], []
    for crate in crates:
        if crate.page.exists():
            found.append((crate.page, crate_page(crate, faults)))
        elif crate.all or crate.laws:
            faults.append(f"crates/{crate.name} has no PROMISES.md: make pages")
    return [*found, whole_page([it for it in crates if it.page.exists()])], faults


def faults():
    """Which pages are not as they have to be, and how many there are."""
    found, wrong = pages()
    old = [page.relative_to(TOP) for page, text in found if page.read_text() != text]
    return [*wrong, *(f"{it} is out of date: make pages" for it in old)], len(found)


def main():
    begin_pages()
    found, wrong = pages()
    for page, text in found:
        page.write_text(text)
    print("\n".join([*wrong, f"promises: {len(found)} pages are written"]))
    sys.exit(1 if wrong else 0)


if __name__ == "__main__":
    main()

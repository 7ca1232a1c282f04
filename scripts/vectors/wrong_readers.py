#!/usr/bin/env python3
"""Tells which row of the vectors finds each wrong body of `mac_hmac` and `mac_token`.

    wrong_readers.py [--anew]   tries those that the record doesn't have as they are, or all

The wrong bodies are those that the prover refuses (crates/NAME/must-fail and wrong-bodies). Here
they are run, unproved, over a copy of the tree: all stand in one program, behind the right bodies of
their functions, and the first line of its input says which of them runs. So one build serves all;
a body that changes a constant has a build of its own. A row finds a body where an answer to it is
another, or where the program stops.

What came of each is written into docs/wrong-readers.txt as it comes, so that a run that was broken
off is gone on with.
"""
import hashlib
import pathlib
import re
import subprocess
import sys
import tempfile
import typing

sys.path.insert(0, str(pathlib.Path(__file__).resolve().parents[1]))
from common import TOP, programs
from vectors import asking, make, rows
from wrong_bodies.bodies import Body, Source, read_body
from wrong_bodies.wrong_bodies import edits_of
from wrong_bodies.wrong_runs import copy_tree

RECORD = TOP / "docs" / "wrong-readers.txt"
HEAD = """\
# Which row of vectors/ finds each wrong body, by `scripts/vectors/wrong_readers.py`: the crate and the
# edit, a digest of what was tried, and the number of a row whose answer is another, or why there is none.
"""
CRATES = ["mac_hmac", "mac_token"]
PROGRAM = "try_cases"
# A line that is longer, or whose answer is, is asked only of those bodies that no shorter one finds;
# and before all short ones every few of them are asked, which find nearly all bodies.
SHORT, EVERY = 2_000, 12
# A run of `rt try` prints a MiB at most. One that takes longer than so many seconds hangs.
ROOM, PATIENCE = 900_000, 600
# Which body runs: a number in the first line of standard input, which is a file.
CHOOSER = '''\
//! Which wrong body runs.

/// The number in the first line of standard input, behind `# `.
pub(crate) fn chosen() -> u32 {
    let mut front = [0; 5];
    if libc::pread(0, &mut front, 0) < 5 {
        return 0;
    }
    let mut number: u32 = 0;
    for digit in &front[2..] {
        number = number * 10 + (*digit - b'0') as u32;
    }
    number
}
'''
# Of bodies that no row can find: why.
BY_CALLS = "only calls over HTTP read so, which no row makes"
ONE_ROOM = "it shows where one room is used for two tokens, and no row shows that"
UNASKED = "nothing that answers a row asks for it"
REASONS = {
    "mac_token/bare_reads_the_room_as_it_was": ONE_ROOM,
    "mac_token/bare_room_not_emptied": ONE_ROOM,
    "mac_token/caveat_off_by_one": "only the command line asks for a caveat by its place, to tell of it",
    "mac_token/caveats_of_the_identifier": UNASKED,
    "mac_token/form_has_another_number": UNASKED,
    "mac_token/read_bare_decodes_again": BY_CALLS,
    "mac_token/read_bare_json_refused": BY_CALLS,
    "mac_token/walk_gives_vid": "it asks for a token with a vid, and such are refused before",
    "mac_token/want_of_memory_has_a_number": "no row is answered where memory is refused",
    "mac_token/write_length_of_packets_for_their_text": "the limit is told later, once memory was taken",
    "mac_token/write_limit_told_as_memory": "no row writes a token that is too long in another form: requests make drafts",
}


class Edit(typing.NamedTuple):
    """A wrong body, the crate that it is of, and the number by which it is chosen."""

    crate: str
    body: Body
    number: int
    digest: str

    def name(self):
        return f"{self.crate}/{self.body.name}"


class Case(typing.NamedTuple):
    """A line that the program is asked, the numbers of its rows, and the right answer."""

    line: str
    numbers: list
    answer: str


def edits(cases):
    """All wrong bodies of the crates."""
    asked = hashlib.sha256("".join(case.line for case in cases).encode()).digest()
    found = []
    for crate in CRATES:
        source = Source(TOP / "crates" / crate)
        for path in edits_of(crate):
            body = read_body(path, source)
            texts = [path.read_bytes(), *("\n".join(source.lines(file)).encode() for file in body.lines)]
            digest = hashlib.sha256(b"\0".join([asked, *texts])).hexdigest()[:12]
            found.append(Edit(crate, body, len(found) + 1, digest))
    return found


def cases():
    """What the rows ask, with the answers of the right bodies."""
    files, _ = rows.numbered(make.asked())
    found = [it for rows_of in files.values() for it in rows_of]
    lines = make.lines_of([row for _, row in found])
    answers = asking.answers_of([line for _, line in lines])
    return [Case(line, [found[at][0] for at in places], answer) for (places, line), answer in zip(lines, answers)]


# The program with wrong bodies


def put_chooser(tree):
    """Gives each crate the function that says which body runs."""
    for crate in CRATES:
        folder = tree / "crates" / crate / "src"
        (folder / "chosen.rt").write_text(CHOOSER)
        lib = folder / "lib.rt"
        lib.write_text(re.sub(r"^(pub )?mod ", lambda it: "mod chosen;\n" + it[0], lib.read_text(), count=1, flags=re.MULTILINE))
    listed = (tree / "crates.txt").read_text()
    (tree / "crates.txt").write_text(re.sub(rf"^(({'|'.join(CRATES)}):.*)$", r"\1 libc", listed, flags=re.MULTILINE))


def put_bodies(tree, chosen):
    """Puts these bodies in front of those of their functions, each behind its number."""
    for crate in CRATES:
        source = Source(TOP / "crates" / crate)
        own = [edit for edit in chosen if edit.crate == crate]
        for file in sorted({file for edit in own for file in edit.body.lines}):
            lines = source.lines(file)
            touched = {it.start: it for edit in own for it in edit.body.functions if it.file == file}
            for start in sorted(touched, reverse=True):
                function = touched[start]
                lines[start:start] = arms_of(function, [edit for edit in own if function in edit.body.functions], source)
            (tree / "crates" / crate / file).write_text("\n".join(lines))


def arms_of(function, own, source):
    """The lines that run one of the function's wrong bodies where it is chosen."""
    found = ["match crate::chosen::chosen() {"]
    for edit in own:
        changed = edit.body.lines[function.file]
        lines = source.lines(function.file)
        body = [changed.get(at, lines[at]) for at in range(function.start, function.end)]
        found += [f"{edit.number} => {{ return {{", *body, "}; }"]
    return [*found, "_ => {}", "}"]


def put_alone(tree, edit):
    """Puts one body in the place of the right one."""
    source = Source(TOP / "crates" / edit.crate)
    for file, changed in edit.body.lines.items():
        lines = [changed.get(at, line) for at, line in enumerate(source.lines(file))]
        (tree / "crates" / edit.crate / file).write_text("\n".join(lines))


# Runs


class Ran(typing.NamedTuple):
    """What a run printed of each case, and what was said of them all; `is_built` tells whether there was a program."""

    outputs: dict
    said: str
    is_built: bool


def run(tree, chosen, pieces):
    """A run of each body over each piece of the cases."""
    with tempfile.TemporaryDirectory() as folder:
        for edit in chosen:
            for at, piece in enumerate(pieces):
                text = f"# {edit.number:03}\n" + "".join(f"{case.line}\n" for case in piece)
                (pathlib.Path(folder) / f"{edit.number:03}_{at}").write_text(text)
        command = ["rt", "try", "--steps", "1", "--seconds", str(PATIENCE), "--cases", folder]
        tried = subprocess.run(command, cwd=tree / "crates" / PROGRAM, capture_output=True, text=True)
    return Ran(asking.outputs_in(tried.stdout), tried.stderr, re.search(r"^cases=", tried.stderr, re.M) is not None)


def in_pieces(asked):
    """The cases in pieces that one run takes."""
    pieces, size = [[]], 0
    for case in asked:
        if size + len(case.answer) > ROOM and pieces[-1]:
            pieces.append([])
            size = 0
        pieces[-1].append(case)
        size += len(case.answer) + 1
    return pieces


def finding(edit, pieces, ran):
    """The first of these rows that finds the body, or nothing."""
    for at, piece in enumerate(pieces):
        printed = ran.outputs.get(f"{edit.number:03}_{at}", [])[1:]
        for case, line in zip(piece, printed):
            if line != case.answer:
                return case.numbers[0]
        if len(printed) < len(piece):
            return piece[len(printed)].numbers[0]
    return None


def is_short(case):
    """Whether the case is soon asked; those of many verdicts at once are short enough."""
    return case.line.startswith("answers ") or max(len(case.line), len(case.answer)) <= SHORT


def found_by(tree, chosen, asked):
    """A row that finds each of these bodies, by the body's number, and what was said; None where it doesn't build."""
    short = [case for case in asked if is_short(case)]
    found = {}
    for part in (short[::EVERY], short, [case for case in asked if not is_short(case)]):
        left = [edit for edit in chosen if edit.number not in found]
        if left:
            pieces = in_pieces(part)
            ran = run(tree, left, pieces)
            if not ran.is_built:
                return None, ran.said
            rows_found = {edit.number: finding(edit, pieces, ran) for edit in left}
            found.update({number: row for number, row in rows_found.items() if row is not None})
    return found, ""


def tried(chosen, asked):
    """Pairs of a body and the row that finds it: 0 where none does, None where it doesn't compile."""
    with tempfile.TemporaryDirectory(prefix="wrong-readers-") as room:
        tree = pathlib.Path(room)
        copy_tree(PROGRAM, tree)
        is_alone = len(chosen) == 1 and chosen[0].body.is_alone
        if is_alone:
            put_alone(tree, chosen[0])
        else:
            put_chooser(tree)
            put_bodies(tree, chosen)
        found, said = found_by(tree, chosen, asked)
    if found is not None:
        return [(edit, found.get(edit.number, 0)) for edit in chosen]
    if len(chosen) == 1:
        print(f"{chosen[0].name()} does not compile: {said[-500:]}")
        return [(chosen[0], None)]
    half = len(chosen) // 2
    return [*tried(chosen[:half], asked), *tried(chosen[half:], asked)]


# The record


def recorded():
    """What the record says of each body: the digest of what was tried, and what came of it."""
    lines = RECORD.read_text().splitlines() if RECORD.exists() else []
    return {name: (digest, came) for name, digest, came in (line.split(" ", 2) for line in lines if not line.startswith("#"))}


def in_words(edit, row):
    if row is None:
        return "it does not compile"
    return str(row) if row else f"none: {REASONS.get(edit.name(), 'NOT FOUND')}"


def keep(all_edits, came):
    """Writes what is known, in the order of the bodies."""
    known = {**recorded(), **{edit.name(): (edit.digest, in_words(edit, row)) for edit, row in came}}
    names = [edit.name() for edit in all_edits if edit.name() in known]
    RECORD.write_text(HEAD + "".join(f"{name} {' '.join(known[name])}\n" for name in names))


def faults():
    """Which wrong bodies the record lacks, or that no row finds without a reason; and how many there are."""
    known, names = recorded(), [f"{crate}/{path.stem}" for crate in CRATES for path in edits_of(crate)]
    numbers = set(rows.ledger().values())
    found = [f"docs/wrong-readers.txt lacks {name} (run scripts/vectors/wrong_readers.py)" for name in names if name not in known]
    found += [f"docs/wrong-readers.txt has {name}, which isn't there" for name in known if name not in names]
    for name, (_, came) in known.items():
        if came.isdigit() and int(came) not in numbers or came.endswith("NOT FOUND"):
            found.append(f"docs/wrong-readers.txt: {name}: {came}")
    return found, len(names)


def main():
    programs.stop_without_toolchain()
    asked = cases()
    all_edits = edits(asked)
    known = {} if "--anew" in sys.argv else recorded()
    left = [edit for edit in all_edits if known.get(edit.name(), ("",))[0] != edit.digest]
    together = [edit for edit in left if not edit.body.is_alone]
    batches = [together] * bool(together) + [[edit] for edit in left if edit.body.is_alone]
    for batch in batches:
        keep(all_edits, tried(batch, asked))
    found, count = faults()
    print("\n".join([*found, f"{count - len(found)} wrong bodies of {count} are found, or it is said why not"]))
    sys.exit(1 if found else 0)


if __name__ == "__main__":
    main()

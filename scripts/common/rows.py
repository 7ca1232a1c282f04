"""Rows of a part: what was looked at, what came of it, and what is due."""
import os
import tempfile


def judged(rows, longest=2_000):
    """What is wrong with these rows, in so many letters of each at most, and how many there are."""
    seen = list(rows)
    wrong = [f"{what}: {repr(got)[:longest]} where {repr(due)[:longest]} is due" for what, got, due in seen if got != due]
    return wrong, len(seen)


def in_folders(*parts, mode=0o700, kind=str):
    """The rows of these parts, each of which gets a folder of its own."""
    for part in parts:
        with tempfile.TemporaryDirectory() as folder:
            os.chmod(folder, mode)
            yield from named(part, part(kind(folder)))


def of_each(*parts):
    """The rows of these parts, under their names."""
    for part in parts:
        yield from named(part, part())


def named(part, rows):
    return ((f"{part.__name__}: {what}", got, due) for what, got, due in rows)

"""Wrong bodies: what each edit changes in a crate, and which of them are tried together."""
from dataclasses import dataclass

from wrong_bodies.functions import functions_of


class BadEdit(Exception):
    """The edit cannot be applied."""


class Source:
    """A crate's source files as they stand."""

    def __init__(self, folder):
        self.folder = folder
        self.functions = []
        for it in sorted((folder / "src").rglob("*.rt")):
            file = str(it.relative_to(folder))
            self.functions += functions_of(self.lines(file), file, folder.name)

    def lines(self, file):
        return (self.folder / file).read_text().split("\n")


@dataclass
class Body:
    """The lines that a wrong body changes, and the functions whose bodies they are in.

    It is tried alone if it changes anything else.
    """

    name: str
    lines: dict
    functions: list
    is_alone: bool


def pairs_of(edit):
    file = old = None
    for line in edit.read_text().splitlines():
        word, _, rest = line.partition(":")
        if word == "file":
            file = rest.strip()
        elif word == "old":
            old = rest.removeprefix(" ")
        elif word == "new":
            yield file, old, rest.removeprefix(" ")


def read_body(edit, source):
    texts = {}
    for file, old, new in pairs_of(edit):
        if not file or not old or not (source.folder / file).is_file():
            raise BadEdit(f"it names no text of a file ({file})")
        text = texts.get(file) or "\n".join(source.lines(file))
        if text.count(old) != 1:
            raise BadEdit(f"an old text stands {text.count(old)} times in {file}")
        texts[file] = text.replace(old, new)
    if not texts:
        raise BadEdit("it has no pair of old and new")
    lines = {it: changed_lines(source.lines(it), text.split("\n")) for it, text in texts.items()}
    return placed(edit.stem, lines, source)


def changed_lines(before, after):
    """The lines that differ, by number: an edit neither adds nor removes any."""
    return {at: new for at, (old, new) in enumerate(zip(before, after)) if old != new}


def placed(name, changed, source):
    functions, is_alone = [], False
    for file, lines in changed.items():
        own = source.lines(file)
        for at, new in lines.items():
            # what is added behind the opening brace is in the body
            into = at + (new.startswith(own[at]) and own[at].endswith("{"))
            found = [
                it for it in source.functions if it.file == file and it.start <= into < it.end
            ]
            functions += [it for it in found if it not in functions]
            is_alone |= not found
    return Body(name, changed, functions, is_alone)


def batches_of(bodies):
    """Bodies that are tried together: each function is changed once at most."""
    batches = []
    for body in (it for it in bodies if not it.is_alone):
        paths = {it.path for it in body.functions}
        for taken, batch in batches:
            if not paths & taken:
                taken |= paths
                batch.append(body)
                break
        else:
            batches.append((paths, [body]))
    return [batch for _, batch in batches] + [[it] for it in bodies if it.is_alone]

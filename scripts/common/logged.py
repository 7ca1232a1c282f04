"""Lines of a daemon's log, by their form: `time level what key=value ..`."""
import re
import typing

# A moment in UTC, with its thousandths; a word; a value as it is, or between quotation marks.
FRONT = re.compile(r"\d{4}-\d\d-\d\dT\d\d:\d\d:\d\d\.\d{3}Z (info|warning|error) ([a-z_]+)")
FIELD = re.compile(r' ([a-z_]+)=(?:"([^"]*)"|([^ "=\\]+))')
ESCAPE = re.compile(r"\\x([0-9a-f]{2})")
# What stands at the end of a line whose last field was cut.
CUT = " ..."


class Line(typing.NamedTuple):
    """What a line says, but for its moment."""

    level: str
    what: str
    fields: dict


def read(text):
    """What a line says; a line of another form is a fault."""
    front = FRONT.match(text)
    if front is None:
        raise ValueError(f"no line of a log: {text!r}")
    return Line(front[1], front[2], fields_of(text[front.end() :]))


def fields_of(text):
    """The fields of a line, each behind a space; behind one that was cut stands a mark."""
    fields, at, end = {}, 0, len(text.removesuffix(CUT))
    while at < end:
        field = FIELD.match(text, at)
        if field is None:
            raise ValueError(f"no field of a log: {text[at:]!r}")
        key, quoted, bare = field.groups()
        fields[key] = bare if quoted is None else ESCAPE.sub(lambda it: chr(int(it[1], 16)), quoted)
        at = field.end()
    return fields


def read_all(text):
    """What each line of a log says, but for the warnings of a start, which stand before it."""
    return [read(line) for line in text.splitlines() if not line.startswith("warning: ")]


def read_whole(text):
    """What the lines say of these bytes that came whole."""
    return read_all(text[: text.rfind(b"\n") + 1].decode())

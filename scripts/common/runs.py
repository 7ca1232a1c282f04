"""Runs of `macaroond`: by bin/macaroond where it is up to date, else by one unproved build of the
toolchain's `rt try`."""
import os
import pathlib
import re
import subprocess
import tempfile
import typing

from common import TOP, programs

PROGRAM = programs.path_of("macaroond")
PROVED = programs.PROVED


class Case(typing.NamedTuple):
    """What a run is given: its standard input, and its words."""

    input: str
    words: typing.Sequence[str] = ("pipe",)


class Run(typing.NamedTuple):
    """How a run ended, and what it printed."""

    status: int
    output: str
    error: str


def is_built():
    """Whether bin/macaroond is there, and no source is newer than what it starts."""
    sources = (path.stat().st_mtime for path in TOP.glob("crates/*/src/**/*.rt"))
    is_there = os.access(PROGRAM, os.X_OK) and os.access(PROVED, os.X_OK)
    return is_there and PROVED.stat().st_mtime > max(sources)


def of_cases(cases):
    """The runs of these cases, both by name."""
    if is_built():
        return {name: built_run(case) for name, case in cases.items()}
    return tried_runs(cases)


def built_run(case, **how):
    """A run of the program; `how` may say what it reads from, writes to or is kept to."""
    programs.stop_unless_built("macaroond")
    given = {} if "stdin" in how else {"input": case.input}
    pipes = {"stdout": subprocess.PIPE, "stderr": subprocess.PIPE}
    run = subprocess.run([PROGRAM, *case.words], text=True, **given, **{**pipes, **how})
    return Run(run.returncode, run.stdout, run.stderr)


def tried_runs(cases):
    with tempfile.TemporaryDirectory() as folder:
        for name, case in cases.items():
            (pathlib.Path(folder) / name).write_text(case.input)
            words = "".join(f"{word}\n" for word in case.words)
            (pathlib.Path(folder) / f"{name}.args").write_text(words)
        command = ["rt", "try", "--steps", "1", "--cases", folder]
        crate = TOP / "crates" / "macaroond"
        tried = subprocess.run(command, cwd=crate, capture_output=True, text=True)
    if tried.returncode != 0:
        said = tried.stdout + tried.stderr
        raise SystemExit(f"rt try ended with status {tried.returncode}:\n{said}")
    outputs, endings = tried_outputs(tried.stdout), tried_endings(tried.stderr)
    return {name: Run(endings[name][0], outputs[name], endings[name][1]) for name in cases}


def tried_outputs(text):
    """What each case printed: it stands behind a line `== NAME`."""
    sections = re.split(r"^== ", text, flags=re.MULTILINE)[1:]
    return {name: output for name, _, output in (section.partition("\n") for section in sections)}


def tried_endings(text):
    """The status of each case and its standard error, which stands before its ending's line."""
    found, said = {}, ""
    for line in text.splitlines(keepends=True):
        ending = re.match(r"case=(\S+) run=ended status=(\d+) ", line)
        if ending:
            found[ending[1]] = int(ending[2]), said
        said = "" if ending else said + line
    return found

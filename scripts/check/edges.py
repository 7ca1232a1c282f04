"""Runs that only the built program can show: over devices that fail, with little memory, and with
a word that isn't UTF-8.

A full device takes nothing. A file that may not grow past so many bytes takes these and no more. A
socket whose other end was closed before it had read what it was sent gives what is on its way, and
then fails. `rt try` can give a program none of these, so without bin/macaroond these runs are not
made.
"""
import os
import resource
import socket
import tempfile

from check import statuses
from check.statuses import Ending
from common import runs
from common.runs import Case, Run

DEVICE = Ending(3, "", "fault 3\n")
NOT_UTF8 = statuses.bad("a word of the command line is not UTF-8\n")
ANSWER = "refused 16\n"
# Answers of more bytes than the program gathers before it writes them.
MANY = statuses.KEY + "\n" * 20_000
# Enough of the address space for the program, its stack and the C library, and too little for a
# long input.
LITTLE_MEMORY = 12 * 1024 * 1024


def to_full(words, text=""):
    with open("/dev/full", "w") as full:
        run = runs.built_run(Case(text, words), stdout=full)
    return Run(run.status, "", run.error)


def to_file_of(count):
    """The run of many requests whose output may have so many bytes."""
    with tempfile.TemporaryFile("w+") as given, tempfile.TemporaryFile("w+") as printed:
        given.write(MANY)
        given.seek(0)
        limit = lambda: resource.setrlimit(resource.RLIMIT_FSIZE, (count, count))
        how = {"stdin": given, "stdout": printed, "preexec_fn": limit, "restore_signals": False}
        run = runs.built_run(Case("", ["pipe"]), **how)
        printed.seek(0)
        return Run(run.status, printed.read(), run.error)


def from_broken(text):
    """The run that reads this and then a fault."""
    ours, theirs = socket.socketpair()
    with theirs:
        theirs.sendall(b"unread")
        ours.sendall(text.encode())
        ours.close()
        return runs.built_run(Case("", ["pipe"]), stdin=theirs)


def from_folder():
    folder = os.open("/", os.O_RDONLY)
    try:
        return runs.built_run(Case("", ["pipe"]), stdin=folder)
    finally:
        os.close(folder)


def with_little_memory():
    limit = lambda: resource.setrlimit(resource.RLIMIT_AS, (LITTLE_MEMORY, LITTLE_MEMORY))
    return runs.built_run(Case("#" * statuses.INPUT_MAX, ["pipe"]), preexec_fn=limit)


def faults():
    """Which of these runs end otherwise, and how many there are."""
    answers = ANSWER * 20_000
    ended = [
        ("not_utf8", runs.built_run(Case("", ["pipe", b"\xff"])), NOT_UTF8),
        ("help_to_full", to_full(["--help"]), DEVICE),
        ("pipe_help_to_full", to_full(["pipe", "--help"]), DEVICE),
        ("answers_to_full", to_full(["pipe"], "\n\n"), DEVICE),
        ("broken_input", from_broken("\n\n"), DEVICE),
        ("folder_as_input", from_folder(), DEVICE),
        ("little_memory", with_little_memory(), Ending(4, "", "fault 4\n")),
    ]
    found = [statuses.told(*it) for it in ended if not statuses.is_so(*it[1:])]
    counts = [0, 1, 65_535, 65_536, 100_000, len(answers) - 1]
    for count in counts:
        run = to_file_of(count)
        if run != Run(3, answers[:count], "fault 3\n"):
            wrote = f"{len(run.output)} bytes written"
            found.append(f"output of {count} bytes: {run.status}, {run.error!r}, {wrote}")
    return found, len(ended) + len(counts)

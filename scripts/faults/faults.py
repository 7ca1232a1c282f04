#!/usr/bin/env python3
"""Refuses programs each request for memory in turn, and fails each call of a device in turn; and asks, last of
all, whether the time of a refusal tells how much of a signature is right.

    faults.py          all of it, some minutes
    faults.py --few    what `make test` runs of it

What stands after a refusal is compared with what is to stand; a run that hangs, breaks down or loses something is
told. Asks for a C compiler `cc` and for the programs that `make build build-runs` leaves in bin/; with --few only
for bin/macaroond.
"""
import collections
import pathlib
import re
import sys

sys.path.insert(0, str(pathlib.Path(__file__).resolve().parents[1]))
from check import statuses, words
from check.daemon_rows import TOKEN
from common import TOP, programs, runs
from common.daemon import frame
from faults import faulty_daemon, flaky, refusing, timing
from faults.refusing import Ended, Row, in_turn, watched

import request

CRATES = TOP / "crates"
NO_MEMORY = Ended(4, b"", b"fault 4\n")
NO_MEMORY_FOR_PEOPLE = Ended(4, b"", b"error: memory ran out\n")
DEVICE = b"fault 3\n"
# Calls of try_refused that take no memory.
WITHOUT_MEMORY = {"bare:v1", "bare:v2", "bare:json"}
# How a warning of a caveat begins, and how the names of the uses that ask why a caveat fails. Where there is no memory
# to tell either, the token or the verdict stands alone.
WARNING, EXPLAINED = b"warning: ", "explain_"
UNTOLD = "its token without the warning, or its verdict without the reason"
BARE = b"made", b"refused, and made once more", b"refused elsewhere"
MINT = bytes.fromhex("01010462616e6b000e687474703a2f2f6d7962616e6b2f001677652075736564206f757220736563726574206b657900")
REPLIES = [frame(b"\x01" + TOKEN), frame(b"\x10")]
NO_CASE = b"the line is no case\n"
KEY = b"key bank 74686973206973206f757220737570657220736563726574206b65793b206f6e6c792077652073686f756c64206b6e6f77206974\n\n"


def pipe_input(count):
    """The key line, and so many times a mint in each form, a narrowing, a verify and a line that is no request."""
    forms = [MINT[:1] + bytes([form]) + MINT[2:] for form in (1, 2, 3, 4)]
    narrowing = request.attenuate("v2-json", TOKEN.decode(), "test = caveat")
    verify = request.verify("bank", TOKEN.decode(), 0)
    lines = [payload.hex().encode() for payload in (*forms, narrowing, verify)] + [b"zz"]
    return KEY + b"\n".join(lines * count) + b"\n"


def pipe(count, most=None, step=1):
    """The pipe ends with status 4 and a beginning of its output."""
    given = pipe_input(count)
    command = [runs.PROGRAM, "pipe"]
    whole, _, _ = watched(command, given, "memory", 0)

    def judge(ended):
        if ended == whole:
            return "all its output, status 0"
        if ended and ended[::2] == NO_MEMORY[::2] and whole.output.startswith(ended.output):
            return "status 4 and a beginning of its output" if ended.output else "status 4 and no output"
        return None

    row, found = in_turn(f"pipe, {7 * count} requests", lambda n: watched(command, given, "memory", n), judge, most, step)
    if whole.status or TOKEN not in whole.output:
        found.append(f"pipe: it ends with {whole.status} and prints {whole.output[:80]}")
    return row, found


def lines_of(uses, most=None, step=1):
    """Each command line: it ends as with ample memory, or with status 4 and a line that says so.

    A use that warns may also end without its warning, and does where that is what is refused; and so one that
    explains, which may tell the reason and have no memory for the verdict behind it.
    """
    for name, case in uses:
        command = [runs.PROGRAM, *case.words]
        given = case.input.encode()
        ample, _, _ = watched(command, given, "memory", 0)
        is_told_besides = ample.error.startswith(WARNING) or (name.startswith(EXPLAINED) and ample.error != b"")
        behind_it = NO_MEMORY_FOR_PEOPLE._replace(error=ample.error + NO_MEMORY_FOR_PEOPLE.error)

        def judge(ended):
            if ended == ample or (name == "keygen" and ended and ended.status == 0):
                return "as with ample memory"
            if is_told_besides and ended == ample._replace(error=b""):
                return UNTOLD
            if ended == behind_it and name.startswith(EXPLAINED):
                return "status 4"
            return "status 4" if ended in (NO_MEMORY, NO_MEMORY_FOR_PEOPLE) else None

        row, found = in_turn(name, lambda n: watched(command, given, "memory", n), judge, most, step)
        if is_told_besides and most is None and not row.came[UNTOLD]:
            found.append(f"{name}: no request of the warning or the reason itself was refused")
        yield row, found


def together(what, rows):
    """One row of many, and all that was wrong."""
    came, points, found = collections.Counter(), 0, []
    for row, wrong in rows:
        came.update(row.came)
        points += row.points
        found += wrong
    return Row(what, points, came), found


def calls():
    """Single calls of the crates, by try_refused."""
    for word in (CRATES / "try_refused" / "args").read_text().split():
        command = [programs.path_of("try_refused"), word]

        def judge(ended):
            if ended and ended.status and not ended.output:
                return BARE[2].decode()
            word = ended and ended.output.removesuffix(b"\n")
            return word.decode() if word in BARE and not ended.status and not ended.error else None

        row, found = in_turn(word, lambda n: watched(command, b"", "memory", n), judge)
        if not row.came["refused, and made once more"] and word not in WITHOUT_MEMORY:
            found.append(f"{word}: no request of the call itself was refused")
        yield row, found


def report(text):
    """Fault, ending, replies and bytes of a report of try_serve, or None."""
    told = re.fullmatch(r"fault (\d) (\w+) arrived (\d+) sent (\d+) written (\d+): ([0-9a-f]*)", text)
    return told and (int(told[1]), told[2], int(told[4]), bytes.fromhex(told[6]))


def served(told):
    """What a connection with both frames came to, or None where that can't be."""
    if told is None:
        return None
    fault, ending, sent, written = told
    if written != b"".join(REPLIES[:sent]):
        return None
    if (fault, ending, sent) == (0, "clean", 2):
        return "all"
    return "memory" if (fault, ending) == (3, "broken") else None


def serve(word, connections):
    """Connections over memory: the frames of the first replies; the books of the pool are whole."""
    command = [programs.path_of("try_serve"), word]

    def judge(ended):
        if ended and (ended.status, ended.output) == (0, b"refused\n") or ended and ended.status and not ended.output:
            return "refused before or after"
        told = ended and re.fullmatch(r"put (\d+) claimed (\d+) left 0 (.*)\n", ended.output.decode())
        if not told or told[1] != told[2]:
            return None
        came = [served(report(text)) for text in told[3].split("; ")]
        if len(came) != connections or None in came or came.count("memory") > 1:
            return None
        return "fault 3 and the frames of the first replies" if "memory" in came else "all replies"

    return in_turn(f"serve, {word}", lambda n: watched(command, b"", "memory", n), judge)


def rows():
    """A few rows of try_cases of each kind: the row's answer, or an end since memory ran out."""
    folder, seen = CRATES / "try_cases", collections.Counter()
    for line, due in zip((folder / "stdin").read_bytes().splitlines(), (folder / "stdout").read_bytes().splitlines()):
        kind = line.split()[0]
        if kind == b"#" or len(line) > 2_000 or seen[kind] >= 2:
            continue
        seen[kind] += 1

        def judge(ended):
            if ended and (ended.status, ended.output) == (0, due + b"\n"):
                return "the row's answer"
            if ended and ended.status == 0 and (ended.output == NO_CASE or b" otherwise" in ended.output):
                return "refused to what the row is read by, or to one of two that it compares"
            return "out of memory" if ended and ended.status == 1 and not ended.output else None

        command = [programs.path_of("try_cases")]
        yield in_turn(f"try_cases: {line[:60].decode()}", lambda n: watched(command, line + b"\n", "memory", n), judge)


def devices():
    """The pipe over devices that fail at each of their calls, that are interrupted, and that move a byte at a time."""
    command, given = [runs.PROGRAM, "pipe"], pipe_input(300)
    whole, _, _ = watched(command, given, "memory", 0)

    def judge(ended):
        if ended == whole:
            return "all its output, status 0"
        is_beginning = ended and ended[::2] == (3, DEVICE) and whole.output.startswith(ended.output)
        return "status 3 and a beginning of its output" if is_beginning else None

    for call, file in (("read", "0"), ("write", "1")):
        for error, name in ((5, "EIO"), (4, "EINTR"), (0, "a byte")):
            once = lambda n: watched(command, given, call, n, FILE=file, ERROR=str(error))
            row, found = in_turn(f"pipe, {call}: {name}", once, judge)
            due = "status 3 and a beginning of its output" if name == "EIO" else "all its output, status 0"
            if set(row.came) != {due}:
                found.append(f"pipe, {call}: {name}: it ends otherwise than with {due}: {dict(row.came)}")
            yield row, found


def few():
    """What fits beside the other tests."""
    yield pipe(1)
    yield together("uses by people", lines_of([(name, case) for name, (case, _) in words.RIGHT.items()][::5], 40, 17))
    yield from devices()
    yield faulty_daemon.stopped()
    yield faulty_daemon.starts(60, 9)
    yield faulty_daemon.goes_on(60)
    yield from faulty_daemon.unremembered()
    yield from flaky.rows(flaky.SEEDS[:1], 2)


def many():
    """All of it."""
    yield pipe(1)
    yield pipe(100, step=3)
    yield together("uses by people", lines_of((name, case) for name, (case, _) in words.USES.items()))
    yield together("command lines", lines_of((name, case) for name, (case, _) in statuses.ENDINGS.items() if len(case.input) < 1_000))
    yield from calls()
    yield serve("stream:two_frames:1:64", 1)
    yield serve("stream:two_frames:2:1", 1)
    yield serve("two:two_frames:two_frames", 2)
    yield together("try_cases", rows())
    yield from devices()
    yield from faulty_daemon.devices()
    yield faulty_daemon.starts()
    yield faulty_daemon.talks()
    yield faulty_daemon.goes_on(2_000)
    yield from timing.rows()
    yield from faulty_daemon.unremembered()
    yield from flaky.rows()


def faults(rows):
    """What was wrong in these rows, beside what they print, and how many points there were."""
    found, points = [], 0
    for row, wrong in rows:
        came = "; ".join(f"{word} ({count})" for word, count in sorted(row.came.items(), key=lambda it: str(it[0])))
        print(f"faults: {row.what}: {row.points} points: {came}", flush=True)
        found += [f"faults: {one}" for one in wrong[:20]]
        points += row.points
    return found, points


def some_faults():
    """What is wrong in the smaller set, beside what it prints, and how many points it has."""
    with refusing.watching():
        return faults(few())


def main():
    if not refusing.has_compiler():
        sys.exit("there is no C compiler `cc`")
    asks_few = "--few" in sys.argv
    programs.stop_unless_built("macaroond", *([] if asks_few else ["try_refused", "try_serve", "try_cases"]))
    with refusing.watching():
        found, _ = faults(few() if asks_few else many())
    if found:
        sys.exit("\n".join(found))


if __name__ == "__main__":
    main()

"""How the program ends: its exit statuses, and how its standard output and standard error begin."""
import typing

from common.runs import Case

KEY = "key bank 74686973206973206f757220737570657220736563726574206b6579\n\n"
PROGRAM = "Mints, narrows and verifies macaroons\n"
PIPE = "Answers the requests on standard input, one line each\n"
INPUT_MAX = 16_777_216
TWO_BAD = "refused 16\nrefused 16\n"
SERVE = "Answers the requests of so many connections over a Unix socket\n"
LISTEN = "Answers requests over a Unix socket until it is told to end\n"
NO_KEY_FILE = "error: /nowhere/keys: there is no key file; `macaroond keygen NAME --into /nowhere/keys` makes one\n"
# The greatest payload that a frame carries, in digits.
FRAME_DIGITS = 131_072


class Ending(typing.NamedTuple):
    """What a run ends with; a stream that is told as empty stays empty, another one begins so."""

    status: int
    output: str
    error: str


def bad(what):
    return Ending(2, "", f"error: {what}")


def keys_fault(line, kind):
    return Ending(1, "", f"keys: line {line} kind {kind}\n")


def named_keys(count):
    """A key file of so many names."""
    return "".join(f"key k{number} 00\n" for number in range(count))


def serve_with(**changed):
    """A line of `serve`, with options changed, or left out for None."""
    options = {"socket": "s", "keys": "/nowhere/keys", "workers": "1", "accept": "1"} | changed
    return ["serve"] + [f"--{name}={value}" for name, value in options.items() if value is not None]


def listen_with(*words):
    return ["listen", "--socket", "s", "--keys", "/nowhere/keys", *words]


ENDINGS = {
    "nothing": (Case(""), Ending(0, "", "")),
    "no_requests": (Case(KEY), Ending(0, "", "")),
    "answered": (Case("\n\n"), Ending(0, "refused 16\n", "")),
    "two_hyphens": (Case("\n\n", ["pipe", "--"]), Ending(0, "refused 16\n", "")),
    "help": (Case("", ["--help"]), Ending(0, PROGRAM, "")),
    "short_help": (Case("", ["-h"]), Ending(0, PROGRAM, "")),
    "pipe_help": (Case("", ["pipe", "--help"]), Ending(0, PIPE, "")),
    "version": (Case("", ["--version"]), Ending(0, "macaroond ", "")),
    "no_word": (Case("", []), Ending(2, "", "error: ")),
    "empty_word": (Case("", ["pipe", ""]), bad("unexpected argument '' found\n")),
    "empty_first_word": (Case("", [""]), bad("unrecognized subcommand ''\n")),
    "second_word": (Case("", ["pipe", "x"]), bad("unexpected argument 'x' found\n")),
    "third_word": (Case("", ["pipe", "--", "x"]), bad("unexpected argument 'x' found\n")),
    "option": (Case("", ["-x"]), bad("unexpected argument '-x' found\n")),
    "other_subcommand": (Case("", ["forget"]), bad("unrecognized subcommand 'forget'\n")),
    "help_subcommand": (Case("", ["help"]), bad("unrecognized subcommand 'help'\n")),
    "no_name_to_revoke": (Case("", ["revoke"]), bad("the following required arguments were not provided:\n")),
    "serve_help": (Case("", ["serve", "--help"]), Ending(0, SERVE, "")),
    "listen_help": (Case("", ["listen", "-h"]), Ending(0, LISTEN, "")),
    "serve_alone": (Case("", ["serve"]), bad("the following required arguments were not provided:\n")),
    **{
        f"serve_{name}_{value}": (Case("", serve_with(**{name: value})), bad(""))
        for name, value in [
            *[("workers", value) for value in ["0", "17", "x", "-1", ""]],
            *[("accept", value) for value in ["0", "1001", "1e2"]],
            *[(name, None) for name in ["socket", "keys", "workers", "accept"]],
        ]
    },
    "serve_word": (Case("", serve_with() + ["x"]), bad("unexpected argument 'x' found\n")),
    "serve_twice": (Case("", serve_with() + ["--accept=1"]), bad("")),
    "listen_mode": (Case("", listen_with("--mode", "777")), bad("the mode of a socket is ")),
    "listen_workers": (Case("", listen_with("--workers", "17")), bad("")),
    "listen_idle": (Case("", listen_with("--idle", "86401")), bad("")),
    "listen_loops": (Case("", listen_with("--loops", "65")), bad("")),
    "listen_remember": (Case("", listen_with("--remember", "1073741825")), bad("")),
    "listen_memory": (Case("", listen_with("--memory", "67108863")), bad("")),
    "listen_connections": (Case("", listen_with("--connections", "1000001")), bad("")),
    "listen_verify_connections": (Case("", listen_with("--verify-connections", "0")), bad("")),
    "listen_accept": (Case("", listen_with("--accept", "1")), bad("")),
    "no_key_file": (Case("", serve_with()), Ending(3, "", NO_KEY_FILE)),
    "no_listen_key_file": (Case("", listen_with("--mode=660")), Ending(3, "", NO_KEY_FILE)),
    "bad_line": (Case("lock a 00\n"), keys_fault(1, 6)),
    "bad_name": (Case("key  00\n\n"), keys_fault(1, 1)),
    "bad_hex": (Case("key a 0\n\n"), keys_fault(1, 2)),
    "empty_secret": (Case("key a \n\n"), keys_fault(1, 3)),
    "two_lines": (Case("key a 00\nkey a 01\n\n"), Ending(0, "", "")),
    "three_lines": (Case("key a 00\nkey a 01\nkey a 02\n\n"), keys_fault(3, 4)),
    "names_1000_and_a_known_one": (Case(named_keys(1000) + "key k0 01\n\n"), Ending(0, "", "")),
    "names_1000": (Case(named_keys(1000) + "\n"), Ending(0, "", "")),
    "names_1001": (Case(named_keys(1001) + "\n"), keys_fault(1001, 5)),
    "fault_in_line_12": (Case("#\n" * 11 + "lock\n"), keys_fault(12, 6)),
    "greatest_payload": (Case(KEY + "0" * FRAME_DIGITS + "\n\n"), Ending(0, TWO_BAD, "")),
    "oversize": (Case(KEY + "0" * (FRAME_DIGITS + 2) + "\n\n"), Ending(0, "refused 17\n", "")),
    "long_line_of_letters": (Case(KEY + "z" * 200_000 + "\n\n"), Ending(0, TWO_BAD, "")),
    "long_odd_line": (Case(KEY + "0" * (FRAME_DIGITS + 3) + "\n\n"), Ending(0, TWO_BAD, "")),
    "greatest_input": (Case("!" * INPUT_MAX), keys_fault(1, 6)),
    "too_long": (Case("!" * (INPUT_MAX + 1)), Ending(3, "", "fault 3\n")),
}


def cases():
    return {f"ending_{name}": case for name, (case, _) in ENDINGS.items()}


def begins(text, wanted):
    return text == "" if wanted == "" else text.startswith(wanted)


def is_so(run, wanted):
    printed = begins(run.output, wanted.output) and begins(run.error, wanted.error)
    return run.status == wanted.status and printed


def told(name, run, wanted):
    ended = f"{run.status}, {run.output[:80]!r} and {run.error[:80]!r}"
    return f"{name}: ends with {ended}, where {wanted} is due"


def faults(made):
    """Which of them end otherwise."""
    ended = [(name, made[f"ending_{name}"], wanted) for name, (_, wanted) in ENDINGS.items()]
    return [told(name, run, wanted) for name, run, wanted in ended if not is_so(run, wanted)]

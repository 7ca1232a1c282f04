#!/usr/bin/env python3
"""What `--log requests` leaves of the rate of `make load`.

    request_lines.py [ROUNDS] [--load NAME ..] [--beside PROGRAM]

Two daemons with `--remember 0` stand at once, one of which logs each request, and are asked in turn in so many short
rounds (20). A round is timed anew where the machine's host took more than a few hundredths of the processors. For each
load of scripts/measure/load.py, without waiting and with one request out on each of four connections, there is a line:
the median of the rates without `--log`, and with it the medians of the ratios in a round, of the rate and of the
processor time that a request takes. With --beside there is a third daemon that logs, by another program, whose ratios
stand behind. Lines go to /dev/null. Asks for bin/macaroond, or the program that MACAROOND names.
"""
import argparse
import contextlib
import multiprocessing
import pathlib
import sys
import unittest.mock

sys.path.insert(0, str(pathlib.Path(__file__).resolve().parents[1]))
from common import daemon
from common.daemon import listening
from measure import rounds

LOADS = ("verify", "mint", "attenuate", "empty")
ROUNDS, CONNECTIONS = 20, 4
# What is measured of each load: how many requests are out on a connection, or 0 for as many as it takes.
WINDOWS = {0: "without waiting", 1: "one at a time"}
UNLOGGED, LOGGED = ["--remember", "0"], ["--remember", "0", "--log", "requests"]


@contextlib.contextmanager
def by_program(program, *words):
    """A daemon of this program."""
    with unittest.mock.patch.object(daemon, "PROGRAM", program), listening(*words) as one:
        yield one


def told(found):
    """The ratios of each daemon that logs."""
    return "; beside it ".join(f"{of:.3f} of it at {at:.3f} of the time with --log requests" for of, at in found)


def main():
    words = argparse.ArgumentParser(description=__doc__, formatter_class=argparse.RawDescriptionHelpFormatter)
    words.add_argument("rounds", type=int, nargs="?", default=ROUNDS)
    words.add_argument("--load", action="append", choices=LOADS)
    words.add_argument("--beside", metavar="PROGRAM")
    given = words.parse_args()
    daemon.stop_unless_there()
    with contextlib.ExitStack() as stack:
        clients = stack.enter_context(multiprocessing.Pool(CONNECTIONS))
        ways = [(daemon.PROGRAM, UNLOGGED), (daemon.PROGRAM, LOGGED)] + ([(given.beside, LOGGED)] if given.beside else [])
        daemons = [stack.enter_context(by_program(program, *words)) for program, words in ways]
        for window, how in WINDOWS.items():
            for name in given.load or LOADS:
                without, found = rounds.compared(clients, daemons, given.rounds, name, window)
                print(f"{name}, {how}: {without:,.0f} a second; {told(found)}", flush=True)


if __name__ == "__main__":
    main()

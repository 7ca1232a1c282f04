"""Daemons that stand at once are asked in turn, in short rounds, so that what a machine's neighbours do to one they do to
all. A round is timed anew where the machine's host took its processors."""
import pathlib
import sys
import time

sys.path.insert(0, str(pathlib.Path(__file__).resolve().parents[1]))
from common.processes import processor_seconds, stolen, stolen_since
from measure import load

# How many seconds a load goes on. What the host may take of the processors in a round, and how often one is timed anew
# for that.
SECONDS, STOLEN_MAX, TRIES = 0.5, 0.02, 5


def rate(clients, path, run, name, window):
    """How many requests a second a load of scripts/measure/load.py gets, and the processor time that each takes."""
    asked, due = load.loads(path)[name]
    begin, used = time.monotonic(), processor_seconds(run.pid)
    job = (path, asked, due, window, begin + SECONDS)
    count = sum(count for count, _ in clients.map(load.drive, [job] * clients._processes, 1))
    return count / (time.monotonic() - begin), (processor_seconds(run.pid) - used) / count


def rates(clients, daemons, first, name, window):
    """The same of each daemon in turn, from this one on, anew where the machine's host took processors meanwhile."""
    places = [(first + turn) % len(daemons) for turn in range(len(daemons))]
    for _ in range(TRIES):
        before = stolen()
        found = {place: rate(clients, *daemons[place], name, window) for place in places}
        if stolen_since(before) <= STOLEN_MAX:
            break
    return found


def median(found):
    return sorted(found)[len(found) // 2]


def compared(clients, daemons, rounds, name="verify", window=0):
    """The median of the first daemon's rates; and for each other one the medians of its ratios to that in a round, of the
    rate and of the processor time."""
    rates(clients, daemons, 0, name, window)
    found = [rates(clients, daemons, number, name, window) for number in range(rounds)]
    ratios = [[median([one[place][kind] / one[0][kind] for one in found]) for kind in range(2)] for place in range(1, len(daemons))]
    return median([one[0][0] for one in found]), ratios

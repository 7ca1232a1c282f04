"""Whether the time of a refusal tells how much of a guessed signature is right, by Welch's t-test.

One daemon remembers tokens, another one doesn't. Each is asked for a token with one byte of its signature
wrong, in a random order. The times where that byte is in the first half are compared with those where
it is in the second half. A comparison that ended at the first wrong byte would be sooner in the first.
"""
import collections
import pathlib
import statistics
import sys

sys.path.insert(0, str(pathlib.Path(__file__).resolve().parents[1]))
from common.daemon import listening
from faults.refusing import Row
from measure import guesses

TRIES = 200_000
# By chance a test of this many tries passes the bound once in a million.
BOUND = 5.0


def trimmed(times):
    """The times without the slowest tenth, which other work on the machine made."""
    return sorted(times)[: len(times) * 9 // 10]


def welch(one, other):
    """Welch's t of two lists, and the difference of their means that would reach the bound."""
    error = (statistics.variance(one) / len(one) + statistics.variance(other) / len(other)) ** 0.5
    return (statistics.fmean(one) - statistics.fmean(other)) / error, BOUND * error


def halves(words, tries):
    """The times of tries whose wrong byte is in the first half of a signature, and of those in the second."""
    with listening(*words) as (path, _):
        times = guesses.timed(path, tries)
    middle = len(times) // 2
    return [trimmed([time for some in part for time in some]) for part in (times[:middle], times[middle:])]


def refusals(what, *words, tries=TRIES):
    """One row: what came of it, and a fault where two tests, one behind the other, pass the bound."""
    told, came = [], collections.Counter()
    for _ in range(2):
        first, second = halves(words, tries)
        t, seen = welch(first, second)
        moved, _ = welch([time + 2 * seen for time in first], second)
        told.append(f"t = {t:.1f} of {tries} tries; a difference of {seen:.0f} ns would be seen")
        came[told[-1]] += 1
        if abs(t) < BOUND < abs(moved):
            return Row(f"times of refusals, {what}", tries, came), []
    return Row(f"times of refusals, {what}", tries, came), [f"times of refusals, {what}: {told}"]


def rows():
    yield refusals("of a token that is remembered")
    yield refusals("of a token that isn't", "--remember", "0")

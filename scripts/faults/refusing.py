"""Runs of programs to which one request for memory is refused, or of which one call of a device fails.

A small C library, set by LD_PRELOAD, counts the requests or calls and refuses the one that is asked for (watch.c). It
shares its counts with this process by a file.
"""
import collections
import concurrent.futures
import contextlib
import itertools
import mmap
import os
import pathlib
import struct
import subprocess
import tempfile

HERE = pathlib.Path(__file__).resolve().parent
WATCHER, FLAKY = HERE / "watch.c", HERE / "flaky.c"
# How long a run may take, in seconds: a connection whose second thread is refused waits ten for it.
PATIENCE = 60
# How many bytes are shared with a watched program, for all its numbers.
SHARED = 128
LANES = os.cpu_count() or 1

Ended = collections.namedtuple("Ended", "status output error")
Row = collections.namedtuple("Row", "what points came")


def has_compiler():
    """Whether there is a C compiler `cc`."""
    with contextlib.suppress(FileNotFoundError):
        return subprocess.run(["cc", "--version"], capture_output=True).returncode == 0
    return False


class Watch:
    """The counts that a watched program shares: calls, the one that is refused, then each so many, refused.

    `call` is `memory`, or what watch.c else can watch; `FILE` and `ERROR` tell which device is meant, and the fault.
    """

    # The library, while `watching` has it built, and the one that breaks calls off (flaky.c).
    library = flaky = None

    def __init__(self, call, first=0, every=0, **variables):
        with tempfile.NamedTemporaryFile(delete=False) as file:
            file.write(bytes(SHARED))
            file.flush()
            self.numbers = mmap.mmap(file.fileno(), SHARED)
        self.path = file.name
        self.set(1, first)
        self.set(2, every)
        own = {"LD_PRELOAD": str(Watch.library), "WATCH": self.path, "CALL": call}
        self.environment = {**os.environ, **own, **variables}

    def set(self, place, number):
        struct.pack_into("@q", self.numbers, 8 * place, number)

    def get(self, place):
        return struct.unpack_from("@q", self.numbers, 8 * place)[0]

    calls = property(lambda self: self.get(0))
    refused = property(lambda self: self.get(3))
    # How often a descriptor was taken out of a poll.
    left = property(lambda self: self.get(4))

    def __enter__(self):
        return self

    def __exit__(self, *_):
        self.numbers.close()
        os.unlink(self.path)


@contextlib.contextmanager
def watching():
    """The libraries are there as long as the block runs."""
    with tempfile.TemporaryDirectory() as folder:
        Watch.library, Watch.flaky = (built(source, folder) for source in (WATCHER, FLAKY))
        yield


def built(source, folder):
    """The library that a compiler makes of a source, in a folder."""
    library = pathlib.Path(folder) / f"{source.stem}.so"
    subprocess.run(["cc", "-O2", "-shared", "-fPIC", "-o", library, source, "-ldl"], check=True)
    return library


def run(command, given, watch):
    """How a run ends, with all that it prints, in bytes; None where it doesn't end in time."""
    try:
        ended = subprocess.run(command, input=given, capture_output=True, env=watch.environment, timeout=PATIENCE)
    except subprocess.TimeoutExpired:
        return None
    return Ended(ended.returncode, ended.stdout, ended.stderr)


def watched(command, given, call, number, **variables):
    """A run whose call of that number is refused: how it ended, how many calls there were, and whether one was."""
    with Watch(call, number, **variables) as watch:
        ended = run(command, given, watch)
        return ended, watch.calls, watch.refused > 0


def in_turn(what, once, judge, most=None, step=1):
    """Runs with each number in turn until one meets no refusal: a row of what came of them, and what was wrong.

    `once(number)` gives how a run ended, how many calls there were, and whether one was refused; `judge(ended)` what
    that is in words, or None where it is wrong. At most `most` numbers are tried, each `step`-th.
    """
    ample, calls, _ = once(0)
    if judge(ample) is None:
        return Row(what, 0, collections.Counter()), [f"{what}: with ample memory it ends {ample}"]
    came, found, points = collections.Counter(), [], 0
    numbers = itertools.count(1, step)
    with concurrent.futures.ThreadPoolExecutor(LANES) as pool:
        while most is None or points < most:
            block = list(itertools.islice(numbers, min(most or 256, 256)))
            is_over = False
            for number, (ended, _, is_refused) in zip(block, pool.map(once, block)):
                if not is_refused and number > calls:
                    is_over = True
                    continue
                points += is_refused
                word = judge(ended)
                came[word] += is_refused
                if word is None:
                    found.append(f"{what}: with call {number} refused it ends {ended}")
            if is_over:
                break
    return Row(what, points, +came), found

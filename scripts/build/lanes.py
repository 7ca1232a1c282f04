"""Work that is done side by side: each task once those that it waits for have ended, and first those with
the longest chain of others behind them."""
import os
import pathlib
import re
import typing
from concurrent.futures import FIRST_COMPLETED, ThreadPoolExecutor, wait

# What a check takes at most, and each further job of it.
CHECK_BYTES, JOB_BYTES = 3_000_000_000, 1_500_000_000
# More jobs seldom help a check.
MOST_JOBS = 4


class Task(typing.NamedTuple):
    """What it waits for, how much work it is, and a call that is told how many jobs it may use."""

    waits: typing.Iterable[str]
    weight: float
    call: typing.Callable[[int], object]


def processors():
    """As many as there are checks that fit into memory, or what RT_JOBS says."""
    if (said := os.environ.get("RT_JOBS", "")).isdigit() and int(said):
        return int(said)
    available = int(re.search(r"MemAvailable:\s+(\d+)", pathlib.Path("/proc/meminfo").read_text())[1]) * 1024
    return max(min(len(os.sched_getaffinity(0)), available // CHECK_BYTES), 1)


def chains(tasks):
    """Of each task how much work waits for it at most, its own with it; a task stands behind those it waits for."""
    behind = dict.fromkeys(tasks, 0)
    for name in reversed([*tasks]):
        behind[name] += tasks[name].weight
        for it in tasks[name].waits:
            behind[it] = max(behind[it], behind[name])
    return behind


def share(idle, others, is_longest, lanes):
    """How many jobs a task may use, beside so many others that are ready. One for which the longest chain waits has
    half of all lanes at least, rounded up, though fewer be idle."""
    least = (lanes + 1) // 2 if is_longest else 1
    return max(1, least, min(MOST_JOBS, idle // (others + 1)))


def run(tasks, lanes):
    """Does all tasks, and gives what each came to. A task that fails ends it: no other is begun."""
    behind = chains(tasks)
    left, running, came = sorted(tasks, key=lambda it: -behind[it]), {}, {}
    with ThreadPoolExecutor(max(lanes, 1)) as pool:
        while left or running:
            longest = max(behind[name] for name in (*left, *(it for it, _ in running.values())))
            ready = [name for name in left if all(it in came for it in tasks[name].waits)]
            for at, name in enumerate(ready):
                idle = lanes - sum(jobs for _, jobs in running.values())
                if idle <= 0:
                    break
                left.remove(name)
                jobs = share(idle, len(ready) - at - 1, behind[name] == longest, lanes)
                running[pool.submit(tasks[name].call, jobs)] = name, jobs
            for done in wait(running, return_when=FIRST_COMPLETED).done:
                name, _ = running.pop(done)
                came[name] = done.result()
    return came

"""What the system tells of a process, and of its processors."""
import os
import pathlib
import resource
import time

TICKS = os.sysconf("SC_CLK_TCK")
# How often something is timed where it comes late, and how many seconds a machine that held it up is left alone before
# that is done anew.
CALM_TRIES, CALM_PAUSE = 5, 3
# A user that owns nothing here, as who commands run that root may not.
NOBODY = 65_534


def become_nobody():
    """Has this process be nobody's from now on, where it is root's."""
    if os.geteuid() == 0:
        os.setgroups([])
        os.setgid(NOBODY)
        os.setuid(NOBODY)


def allow_descriptors(count):
    """Lets this process, and those that it starts, have so many descriptors, as far as the system does."""
    soft, hard = resource.getrlimit(resource.RLIMIT_NOFILE)
    resource.setrlimit(resource.RLIMIT_NOFILE, (max(soft, min(count, hard)), hard))


def status(pid):
    lines = pathlib.Path(f"/proc/{pid}/status").read_text().splitlines()
    return dict(line.split(":\t", 1) for line in lines if ":\t" in line)


def mebibytes(pid, field="VmRSS"):
    """The memory that it has; by `VmHWM` the most that it has had."""
    return int(status(pid)[field].split()[0]) / 1024


def ticks(pid):
    """Its processor time, in ticks of the system's clock."""
    fields = pathlib.Path(f"/proc/{pid}/stat").read_text().rpartition(")")[2].split()
    return int(fields[11]) + int(fields[12])


def processor_seconds(pid):
    return ticks(pid) / TICKS


def stolen():
    """The time of all processors since the machine was started, and how much of it its host gave to others, in ticks."""
    fields = [int(word) for word in pathlib.Path("/proc/stat").read_text().split("\n", 1)[0].split()[1:9]]
    return sum(fields), fields[7]


def stolen_since(before):
    """The share of the processors' time that the host took since it was looked at so."""
    (all_before, stolen_before), (all_now, stolen_now) = before, stolen()
    return (stolen_now - stolen_before) / max(1, all_now - all_before)


def timed_calmly(what, time_it, is_late):
    """What is timed, which may come late where the machine held it up: then it is timed anew, some times."""
    for count in range(1, CALM_TRIES + 1):
        if not is_late(found := time_it()):
            break
        print(f"{what} came late, {count} of {CALM_TRIES} times")
        time.sleep(CALM_PAUSE)
    return found

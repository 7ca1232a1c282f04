#!/usr/bin/env python3
"""How long keys and revocations take by etcd, where nothing fails: a key's change and a revocation at three daemons under
load, and what of a processor an agent takes that has nothing to do.

    fleet.py [ROUNDS]

The three hosts, the clients and the comparison of each verdict are those of scripts/check/fleet.py. A line tells each
kind, beside the limit that it has to keep, of so many rounds (5); what doesn't keep it is told, and then it ends with
1. A change of a key has three steps, and tokens of the old key are good for 3 seconds between the last two. The figures
are of a machine with nothing else to do: its load before is told too. All files are on a disk, where TMPDIR says.
Asks for what scripts/check/fleet.py asks for.
"""
import os
import pathlib
import sys

sys.path.insert(0, str(pathlib.Path(__file__).resolve().parents[1]))
from check import fleet
from common.rows import judged

# How many seconds a change of a key and a revocation may take, and how many thousandths of a processor an idle agent.
ROTATE_WITHIN, REVOKE_WITHIN, IDLE_THOUSANDTHS = 15, 3, 1
ROUNDS = 5


def told(what, figures, most, unit):
    """A figure's line, and its row."""
    print(f"{what}: {min(figures):.2f} to {max(figures):.2f} {unit} in {len(figures)} runs, at most {most}", flush=True)
    yield f"{what} takes at most {most} {unit}", max(figures) < most, True


def rows(cluster, stack, rounds):
    cluster.join()
    load = fleet.Load(cluster, stack, fleet.shop_tokens(fleet.KEPT, "kept").values())
    rotated = [fleet.rotate(cluster) for _ in range(rounds)]
    revoking = fleet.Revoking(cluster, load, fleet.shop_tokens(rounds, "taken"), 1)
    revoking.run()
    for what, runs, most in (("a change of a key", rotated, ROTATE_WITHIN), ("a revocation", revoking.runs, REVOKE_WITHIN)):
        yield from ((f"{what}: {said}", status, 0) for status, said, _ in runs)
        yield from told(what, [took for _, _, took in runs], most, "s")
    yield from fleet.by_load(*load.end(), least=10)
    agent = fleet.rested(cluster)
    yield "all is up behind it", agent is not None, True
    if agent:
        yield from told("an idle agent", [fleet.thousandths(agent)], IDLE_THOUSANDTHS, "thousandths of a processor")


def main(rounds=ROUNDS):
    if lacking := fleet.missing():
        sys.exit("; ".join(lacking))
    print(f"{os.cpu_count()} processors, on which {os.getloadavg()[0]:.1f} processes wanted to run in the last minute")
    with fleet.running(room=None) as (cluster, stack):
        wrong, count = judged(rows(cluster, stack, int(rounds)))
    print(*wrong, f"fleet: {len(wrong)} of {count} are wrong", sep="\n")
    sys.exit(bool(wrong))


if __name__ == "__main__":
    main(*sys.argv[1:])

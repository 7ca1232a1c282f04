#!/usr/bin/env python3
"""Proves crates again after an edit, and what stands on them as far as the edit reaches.

    check.py CRATE ..

First the crate, with all that it stands on. Then, where its public items, contracts, definitions or lemmas
aren't what they were, each crate above it: what those say may rest on them. A body that meets its contract as
it was reaches no further. What was proved by this script or by `make build` is told by a file `seen` in the
crate's out/; a crate without it counts as one that isn't proved.
"""
import pathlib
import sys

sys.path.insert(0, str(pathlib.Path(__file__).resolve().parents[1]))
from build import proving
from common import crates, programs


def main(names):
    programs.stop_without_toolchain()
    if not names or (unknown := [it for it in names if it not in crates.uses()]):
        raise SystemExit(f"there is no crate {' '.join(unknown)}" if names else "say which crate: make check mac_keys")
    with proving.at_work():
        proving.prove_all(names)
        above = dict.fromkeys(it for name in names for it in crates.above(name))
        reached = [it for it in above if not proving.is_proved(it)]
        if reached:
            print(f"to be proved again: {' '.join(reached)}", flush=True)
            proving.prove_all(reached)
        elif above:
            print(f"{len(above)} crates above see nothing of this")


if __name__ == "__main__":
    main(sys.argv[1:])

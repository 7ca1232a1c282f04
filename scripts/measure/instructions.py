#!/usr/bin/env python3
"""Counts what `macaroond pipe` executes for a request, beside what its SHA-256 does: by valgrind,
over libexec/macaroond/x86-64-v2, or the program that LEVEL names, and bin/time_blocks.

A count doesn't depend on what else the machine does. What a request takes is the difference between
two runs, so that starting the program and reading the keys count for nothing.

A fill by `rep stosb` and a copy by `rep movsb` are one instruction each. valgrind counts one for each
byte of them, so the C library is told to fill and copy by vectors.
"""
import os
import re
import pathlib
import shutil
import subprocess
import sys

sys.path.insert(0, str(pathlib.Path(__file__).resolve().parents[1]))
from common import programs
from measure import bench

FEW, MANY = 20, 120
FEW_BLOCKS, MANY_BLOCKS = 1_000, 3_000
# From so many bytes on the C library would use them.
NEVER = 1 << 30
BY_VECTORS = f"glibc.cpu.x86_rep_stosb_threshold={NEVER}:glibc.cpu.x86_rep_movsb_threshold={NEVER}"


def instructions(command, text=""):
    """How many instructions a run executes."""
    counting = ["valgrind", "--tool=callgrind", "--callgrind-out-file=/dev/null"]
    how = {"env": {**os.environ, "GLIBC_TUNABLES": BY_VECTORS}, "capture_output": True, "text": True}
    run = subprocess.run([*counting, *map(str, command)], input=text, **how)
    found = re.search(r"Collected : (\d+)", run.stderr)
    if run.returncode != 0 or not found:
        sys.exit(f"valgrind doesn't count {command}: {run.stderr}")
    return int(found[1])


def block_instructions():
    """How many a block of SHA-256 takes."""
    program = programs.path_of("time_blocks")
    few, many = (instructions([program, count]) for count in (FEW_BLOCKS, MANY_BLOCKS))
    return (many - few) / (MANY_BLOCKS - FEW_BLOCKS)


def request_instructions(payload):
    """How many the answer to this payload takes."""
    line = payload.hex() + "\n"
    command = [bench.PROGRAM, "pipe"]
    few, many = (instructions(command, bench.KEYS + line * count) for count in (FEW, MANY))
    return (many - few) / (MANY - FEW)


def main():
    programs.stop_unless_built("macaroond", "time_blocks")
    if not shutil.which("valgrind"):
        sys.exit("valgrind isn't there, which counts the instructions")
    block = block_instructions()
    print(f"a block of SHA-256: {block:,.0f} instructions")
    print("| request | instructions | blocks | hashing, of all |")
    print("|---|---|---|---|")
    for name, payload, hmacs in bench.kinds():
        each = request_instructions(payload)
        blocks = hmacs * bench.HMAC_BLOCKS
        print(f"| {name} | {each:,.0f} | {blocks} | {100 * blocks * block / each:.0f} % |")
    print()
    print("| caveats | from V2 binary, a byte | from V2 JSON, a byte |")
    print("|---|---|---|")
    for count in bench.SIZES:
        asked = bench.sized_requests(count)
        costs = [request_instructions(payload) / size for size, payload in asked]
        print(f"| {count} | {' | '.join(f'{cost:.0f}' for cost in costs)} |")


if __name__ == "__main__":
    main()

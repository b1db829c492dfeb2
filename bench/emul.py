#!/usr/bin/env python3
"""Times one answer of the emulator: `bench_emul KIND COUNT`, for each kind of command.

Build it first: `rt run sync 1` in crates/bench_emul. A figure is the difference of two calls, one of which answers twice as often, so that
the start does not count. Several rounds are made in turn, and the least of each is taken.
"""
import os
import subprocess
import sys
import time

HERE = os.path.dirname(os.path.abspath(__file__))
PROGRAM = os.environ.get("BENCH_EMUL", os.path.join(HERE, "../crates/bench_emul/out/bench_emul"))
KINDS = ["sync", "sign_on", "read", "step"]
COUNT = int(sys.argv[1]) if len(sys.argv) > 1 else 200_000
ROUNDS = 5


def seconds(kind, count):
    """The time of one call, which answers all."""
    start = time.perf_counter()
    said = subprocess.run([PROGRAM, kind, str(count)], capture_output=True, text=True, check=True).stdout
    if said != f"{count} of {count}\n":
        sys.exit(f"{kind}: {said}")
    return time.perf_counter() - start


least = {kind: float("inf") for kind in KINDS}
for _ in range(ROUNDS):
    for kind in KINDS:
        least[kind] = min(least[kind], seconds(kind, 2 * COUNT) - seconds(kind, COUNT))
for kind in KINDS:
    print(f"{kind}: {least[kind] / COUNT * 1e6:.2f} microseconds")

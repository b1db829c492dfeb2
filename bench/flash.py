#!/usr/bin/env python3
"""Times `bench_flash` on flashes that hold the wanted words already, in CPU time, and prints microseconds a sync.

`bench/flash.py [ROUNDS]`. Build it first: `rt run` in crates/bench_flash. Each figure is the least of several runs, less the
same program with a single round, which writes every page.
"""
import os
import resource
import subprocess
import sys

PROGRAM = os.path.join(os.path.dirname(__file__), "..", "crates", "bench_flash", "out", "bench_flash")
ROUNDS = int(sys.argv[1]) if len(sys.argv) > 1 else 100000
RUNS = 7


def seconds(part, count, rounds):
    before = resource.getrusage(resource.RUSAGE_CHILDREN).ru_utime
    subprocess.run([PROGRAM, part, str(count), str(rounds)], check=True, stdout=subprocess.DEVNULL)
    return resource.getrusage(resource.RUSAGE_CHILDREN).ru_utime - before


for part in ["m16", "m32"]:
    for count in [0, 4, 64]:
        pairs = [(seconds(part, count, 1), seconds(part, count, ROUNDS + 1)) for _ in range(RUNS)]
        once = min(one for one, _ in pairs)
        print(f"{part} {count:2} breakpoints {(min(all for _, all in pairs) - once) / ROUNDS * 1e6:6.2f} microseconds a sync")

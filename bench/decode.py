#!/usr/bin/env python3
"""Times `bench_decode` on all first words against the same loop that decodes nothing, in CPU time, and prints the ratio.

Build it first: `rt run` in crates/bench_decode. Each figure is the least of several runs.
"""
import os
import resource
import subprocess
import sys

PROGRAM = os.path.join(os.path.dirname(__file__), "..", "crates", "bench_decode", "out", "bench_decode")
ROUNDS = sys.argv[1] if len(sys.argv) > 1 else "1000"
RUNS = 7


def seconds(name):
    before = resource.getrusage(resource.RUSAGE_CHILDREN).ru_utime
    subprocess.run([PROGRAM, name, ROUNDS], check=True, stdout=subprocess.DEVNULL)
    return resource.getrusage(resource.RUSAGE_CHILDREN).ru_utime - before


pairs = [(seconds("plain"), seconds("decode")) for _ in range(RUNS)]
plain = min(p for p, _ in pairs)
decode = min(d for _, d in pairs)
print(f"decode {decode / plain:.2f} times the plain loop, {decode / (65536 * int(ROUNDS)) * 1e9:.1f} ns a word")

#!/usr/bin/env python3
"""Times each operation of `bench_alu` against the same loop without one, in CPU time, and prints ratios.

Build it first: `rt run` in crates/bench_alu. Each figure is the least of several runs, and the plain loop runs beside each
operation, so that what else the machine does falls out.
"""
import os
import resource
import subprocess
import sys

PROGRAM = os.path.join(os.path.dirname(__file__), "..", "crates", "bench_alu", "out", "bench_alu")
ROUNDS = sys.argv[1] if len(sys.argv) > 1 else "300"
RUNS = 7
NAMES = "add adc sub sbc and or eor com neg inc dec asr lsr ror adiw sbiw mul muls mulsu fmul fmuls fmulsu".split()


def seconds(name):
    before = resource.getrusage(resource.RUSAGE_CHILDREN).ru_utime
    subprocess.run([PROGRAM, name, ROUNDS], check=True, stdout=subprocess.DEVNULL)
    return resource.getrusage(resource.RUSAGE_CHILDREN).ru_utime - before


for name in NAMES:
    pairs = [(seconds("plain"), seconds(name)) for _ in range(RUNS)]
    plain = min(p for p, _ in pairs)
    print(f"{name:7} {min(t for _, t in pairs) / plain:5.2f}")

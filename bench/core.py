#!/usr/bin/env python3
"""Times a run of a job (`bench_core .. advance`) beside simavr's fastest mode on three images, in CPU time, and prints ratios: above 1
the core is faster.

`bench/core.py [CYCLES [RUNS]]`. Build it first: `rt run` in crates/bench_core, or name another build in BENCH_CORE. The host over
libsimavr is compiled here; where gcc or libsimavr is missing it prints `skipped`. The two run in turn, and of each the least time
counts.
"""
import os
import pathlib
import resource
import shutil
import subprocess
import sys
import tempfile

HERE = pathlib.Path(__file__).resolve().parent
PROGRAM = pathlib.Path(os.environ.get("BENCH_CORE", HERE / "../crates/bench_core/out/bench_core"))
CYCLES = sys.argv[1] if len(sys.argv) > 1 else "100000000"
RUNS = int(sys.argv[2]) if len(sys.argv) > 2 else 7
IMAGES = ["compute", "memory", "timer"]


def compile_host(folder):
    """The program over libsimavr, or None where it cannot be compiled here."""
    if shutil.which("gcc") is None:
        return None
    host = folder + "/simavr_host"
    made = subprocess.run(["gcc", "-O2", "-o", host, HERE / "simavr_host.c", "-lsimavr"], stderr=subprocess.DEVNULL)
    return host if made.returncode == 0 else None


def seconds(*call):
    before = resource.getrusage(resource.RUSAGE_CHILDREN).ru_utime
    subprocess.run(call, check=True, stdout=subprocess.DEVNULL)
    return resource.getrusage(resource.RUSAGE_CHILDREN).ru_utime - before


def steps(image):
    """How many steps the image makes in so many cycles, as a word."""
    said = subprocess.run([PROGRAM, image, CYCLES], check=True, capture_output=True, text=True).stdout
    return dict(line.split()[:2] for line in said.splitlines())["steps"]


def main():
    with tempfile.TemporaryDirectory() as folder:
        host = compile_host(folder)
        if host is None:
            print("skipped: gcc or libsimavr")
            return
        for name in IMAGES:
            image = HERE / (name + ".bin")
            made = steps(image)
            pairs = [(seconds(PROGRAM, image, made, "advance"), seconds(host, image, CYCLES)) for _ in range(RUNS)]
            ours = min(one for one, _ in pairs)
            theirs = min(other for _, other in pairs)
            per_step = ours / int(made) * 1e9
            print(f"{name:8} ratio {theirs / ours:5.2f}   bench_core {ours:6.3f} s, {per_step:5.2f} ns a step   simavr {theirs:6.3f} s")


if __name__ == "__main__":
    main()

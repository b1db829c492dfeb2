#!/usr/bin/env python3
"""Times whole calls of `ice2 replay`: a long run on three images beside the bare run of a job and simavr's fastest mode; a command of a
session each; the start of a call beside `true`; and the memory that it holds.

`bench/replay.py [CYCLES [RUNS]]`. Build the programs first: `bin/ice2 --version`, and `rt run` in crates/bench_core. The host over
libsimavr is compiled here; where gcc or libsimavr is missing its column is left out. Calls are made in turn, and of each the least time
counts.
"""
import os
import pathlib
import resource
import struct
import subprocess
import sys
import tempfile
import time

import core

HERE = pathlib.Path(__file__).resolve().parent
sys.path.insert(0, str(HERE / "../examples"))

from frames import frame  # noqa: E402

PROGRAM = pathlib.Path(os.environ.get("ICE2", HERE / "../crates/ice2/out/ice2"))
COUNT = 10_000  # commands of a session
GO, STEP, SIGN_OFF = b"\x08", b"\x09", b"\x00"


def set_at(address):
    return struct.pack("<BBBIB", 0x11, 1, 0, address, 0)


def read(count):
    return struct.pack("<BBII", 0x05, 0x20, count, 0x60)


def line_of(commands):
    return b"".join(frame(number % 0xFFFF, command) for number, command in enumerate(commands))


def seconds(image, stops, line):
    """The CPU time of one call, user and system."""
    before = resource.getrusage(resource.RUSAGE_CHILDREN)
    subprocess.run([PROGRAM, "replay", image, str(stops)], input=line, check=True, stdout=subprocess.DEVNULL, stderr=subprocess.DEVNULL)
    after = resource.getrusage(resource.RUSAGE_CHILDREN)
    return after.ru_utime + after.ru_stime - before.ru_utime - before.ru_stime


def long_runs(folder, runs):
    host = core.compile_host(folder)
    for name in core.IMAGES:
        image = HERE / (name + ".bin")
        made = core.steps(image)
        times = []
        for _ in range(runs):
            times.append((
                seconds(image, made, line_of([GO, SIGN_OFF])),
                core.seconds(core.PROGRAM, image, made, "advance"),
                core.seconds(host, image, core.CYCLES) if host else 0.0,
            ))
        ours, bare, theirs = (min(column) for column in zip(*times))
        beside = f"   ratio to simavr {theirs / ours:5.2f}" if host else ""
        print(f"{name:8} replay {ours:6.3f} s   bare run {bare:6.3f} s, {ours / bare:5.3f} of it{beside}")


def commands(folder, runs):
    image = pathlib.Path(folder) / "loop.bin"
    image.write_bytes(struct.pack("<4H", 0x0000, 0x0000, 0x0000, 0xCFFC))  # three nop, and rjmp back to the first
    sessions = [
        ("a single step", [STEP] * COUNT),
        ("a run between two breakpoints", [set_at(1), set_at(2)] + [GO] * COUNT),
        ("a read of 256 bytes", [read(256)] * COUNT),
    ]
    empty = min(seconds(image, 100, line_of([SIGN_OFF])) for _ in range(runs))
    for name, asked in sessions:
        line = line_of(asked + [SIGN_OFF])
        spent = min(seconds(image, 100, line) for _ in range(runs)) - empty
        print(f"{name}: {spent / COUNT * 1e6:.2f} microseconds")


def start(folder):
    image = pathlib.Path(folder) / "loop.bin"
    calls = ([PROGRAM, "replay", image, "100"], ["true"])
    spent = [[], []]
    for _ in range(50):
        for kind, call in enumerate(calls):
            begun = time.perf_counter()
            subprocess.run(call, stdin=subprocess.DEVNULL, stdout=subprocess.DEVNULL, stderr=subprocess.DEVNULL)
            spent[kind].append(time.perf_counter() - begun)
    print(f"start over that of `true`: {(min(spent[0]) - min(spent[1])) * 1e3:.2f} ms")


def memory(folder):
    """The most memory that a call has held by the time it waits for its line."""
    image = pathlib.Path(folder) / "loop.bin"
    call = subprocess.Popen([PROGRAM, "replay", image, "100"], stdin=subprocess.PIPE, stdout=subprocess.DEVNULL, stderr=subprocess.DEVNULL)
    time.sleep(0.5)
    held = next(line for line in pathlib.Path(f"/proc/{call.pid}/status").read_text().splitlines() if line.startswith("VmHWM"))
    call.communicate()
    print(f"memory held: {int(held.split()[1]) / 1024:.1f} MB")


def main():
    runs = int(sys.argv[2]) if len(sys.argv) > 2 else 5
    with tempfile.TemporaryDirectory() as folder:
        long_runs(folder, runs)
        commands(folder, runs)
        start(folder)
        memory(folder)


if __name__ == "__main__":
    main()

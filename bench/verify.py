#!/usr/bin/env python3
"""Times the check of a session's record (`ice2 verify`) beside the replay of that session (`ice2 replay`), on the three images.

`bench/verify.py [CYCLES [RUNS]]`. Build the programs first: `bin/ice2 --version`, and `rt run` in crates/bench_core. A session starts a run by GO
and leaves it by SIGN_OFF; its run is as many steps as so many cycles of the bare run are, at most 100,000,000. The record is written here, line by
line: nothing of it is the program's own output. Calls are made in turn, and of each the least CPU time counts.
"""
import pathlib
import resource
import subprocess
import sys

import core
from replay import GO, PROGRAM, SIGN_OFF, frame

HERE = pathlib.Path(__file__).resolve().parent
OKAY = b"\x80"
STEP_LIMIT = 100_000_000


def record_of(steps):
    """The record of the session: its run is asked to stop by SIGN_OFF, and ends forced."""
    lines = []
    for number, command in enumerate([GO, SIGN_OFF]):
        lines += [f"in {frame(number, command).hex()}", f"out {frame(number, OKAY).hex()}"]
    lines += [f"halt 02 {steps}", "out -"]
    return "".join(line + "\n" for line in lines).encode()


def seconds(form, image, words, given, wanted):
    """The CPU time of one call that prints what is wanted."""
    before = resource.getrusage(resource.RUSAGE_CHILDREN)
    ended = subprocess.run([PROGRAM, form, image, *words], input=given, check=True, stdout=subprocess.PIPE, stderr=subprocess.DEVNULL)
    after = resource.getrusage(resource.RUSAGE_CHILDREN)
    if ended.stdout != wanted:
        sys.exit(f"{form} {image}: {ended.stdout!r}")
    return after.ru_utime + after.ru_stime - before.ru_utime - before.ru_stime


def main():
    runs = int(sys.argv[2]) if len(sys.argv) > 2 else 5
    for name in core.IMAGES:
        image = HERE / (name + ".bin")
        steps = min(int(core.steps(image)), STEP_LIMIT)
        line = frame(0, GO) + frame(1, SIGN_OFF)
        answers = frame(0, OKAY) + frame(1, OKAY)
        times = [
            (
                seconds("verify", image, [], record_of(steps), b"yes\n"),
                seconds("replay", image, [str(steps)], line, answers),
            )
            for _ in range(runs)
        ]
        checked, replayed = (min(column) for column in zip(*times))
        print(f"{name:8} {steps} steps   verify {checked:6.3f} s   replay {replayed:6.3f} s   {checked / replayed:5.3f} of it")


if __name__ == "__main__":
    main()

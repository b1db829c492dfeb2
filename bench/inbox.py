#!/usr/bin/env python3
"""Times a note through the inbox, and a raised stop until its note comes: `bench_inbox KIND COUNT`, beside the same loops in plain Rust
over the standard library's bounded channel and an atomic word (`bench/inbox.rs`).

Build it first: `rt run -- notes 1` in crates/bench_inbox. A call sends so many notes that its start hardly counts. Several rounds are made
in turn, and the least time of each is taken.
"""
import os
import subprocess
import sys
import tempfile
import time

HERE = os.path.dirname(os.path.abspath(__file__))
PROVED = os.environ.get("BENCH_INBOX", os.path.join(HERE, "../crates/bench_inbox/out/bench_inbox"))
KINDS = {"notes": 1_000_000, "stops": 100_000}
ROUNDS = 9


def seconds(program, kind, count):
    """The time of one call, all of whose notes come."""
    start = time.perf_counter()
    said = subprocess.run([program, kind, str(count)], capture_output=True, text=True, check=True).stdout
    if said != f"{count} of {count}\n":
        sys.exit(f"{program} {kind}: {said}")
    return time.perf_counter() - start


with tempfile.TemporaryDirectory() as folder:
    plain = os.path.join(folder, "inbox")
    subprocess.run(["rustc", "-O", "--edition", "2021", "-o", plain, os.path.join(HERE, "inbox.rs")], check=True)
    programs = {"proved": PROVED, "plain": plain}
    least = {(name, kind): float("inf") for name in programs for kind in KINDS}
    for _ in range(ROUNDS):
        for kind, count in KINDS.items():
            for name, program in programs.items():
                least[name, kind] = min(least[name, kind], seconds(program, kind, count) / count)
for kind in KINDS:
    ours, theirs = least["proved", kind], least["plain", kind]
    print(f"{kind}: {ours * 1e6:.2f} microseconds, plain {theirs * 1e6:.2f}, {ours / theirs:.2f} times")

#!/usr/bin/env python3
"""Times a suite of many cases through bin/ice2-suite, beside the same images for as many cycles each on simavr, and beside `true`, both
through GNU parallel as the suite calls it.

`bench/suite.py [CASES [RUNS]]`. Build the program first: `bin/ice2 --version`. The host over libsimavr is compiled here. Calls are made in
turn, and of each the least time counts. The cases are copies of those of examples/suite for the ATmega16.
"""
import os
import pathlib
import re
import resource
import shutil
import subprocess
import sys
import tempfile
import time

import core

ROOT = pathlib.Path(__file__).resolve().parent.parent
SUITE = ROOT / "examples" / "suite"
NAMES = ["bug", "patch", "ports", "stack", "table", "timers"]
STOPS = "1000000"  # where a case names none
# As an installed package has it: bin/ice2 looks at each call whether the program is to be built.
PROGRAM = os.path.abspath(os.environ.get("ICE2", ROOT / "crates" / "ice2" / "out" / "ice2"))


def raw(text):
    """The bytes of an image in Intel HEX whose records lie below 64 KiB."""
    flash = bytearray()
    for line in text.split():
        record = bytes.fromhex(line[1:])
        if record[3] == 0:
            start, content = record[1] * 256 + record[2], record[4:-1]
            flash.extend(b"\xff" * (start + len(content) - len(flash)))
            flash[start : start + len(content)] = content
    return bytes(flash)


def cycles(name):
    """The cycles that the target of a case runs."""
    words = SUITE / f"{name}.words"
    stops = words.read_text().split() if words.is_file() else [STOPS]
    with open(SUITE / f"{name}.script", "rb") as script:
        ran = subprocess.run([PROGRAM, "script", SUITE / f"{name}.hex", *stops], stdin=script, capture_output=True, check=True)
    return re.match(rb"cycles (\d+) ", ran.stderr)[1].decode()


def fill(folder, count):
    """The cases, and the raw images for simavr; answers the words of each call on simavr."""
    spent = {name: cycles(name) for name in NAMES}
    (folder / "cases").mkdir()
    for name in NAMES:
        (folder / f"{name}.bin").write_bytes(raw((SUITE / f"{name}.hex").read_text()))
    calls = []
    for number in range(count):
        name = NAMES[number % len(NAMES)]
        for file in SUITE.glob(f"{name}.*"):
            if file.suffix != ".c":
                shutil.copy(file, folder / "cases" / f"{number:04}{file.suffix}")
        calls.append((str(folder / f"{name}.bin"), spent[name]))
    return calls


def parallel(command, calls, folder):
    """The call of GNU parallel, as the suite's own, with the words of each call behind the command."""
    results = tempfile.mkdtemp(dir=folder)
    columns = [word for column in zip(*calls) for word in (":::+", *column)]
    columns[0] = ":::"
    return ["parallel", "--plain", "--will-cite", "--results", results + "/{#}", "--joblog", results + "/log", f"{command} {{1}} {{2}}", *columns]


def seconds(words, folder):
    """The time of a call by the clock, and the CPU time of it and all that it calls."""
    before, start = resource.getrusage(resource.RUSAGE_CHILDREN), time.monotonic()
    environment = {**os.environ, "ICE2": PROGRAM}
    subprocess.run(words, cwd=folder, env=environment, check=True, stdin=subprocess.DEVNULL, stdout=subprocess.DEVNULL)
    after = resource.getrusage(resource.RUSAGE_CHILDREN)
    return time.monotonic() - start, after.ru_utime + after.ru_stime - before.ru_utime - before.ru_stime


def main():
    count = int(sys.argv[1]) if len(sys.argv) > 1 else 1000
    runs = int(sys.argv[2]) if len(sys.argv) > 2 else 3
    with tempfile.TemporaryDirectory() as work:
        folder = pathlib.Path(work)
        host = core.compile_host(work)
        calls = fill(folder, count)
        rows = {"ice2-suite": [ROOT / "bin" / "ice2-suite", "cases"], "true": None}
        if host:
            rows["simavr"] = None
        times = {name: [] for name in rows}
        for _ in range(runs):
            for name in rows:
                command = {"true": "true", "simavr": host}.get(name)
                words = rows[name] or parallel(command, calls, folder)
                times[name].append(seconds(words, folder))
        least = {name: [min(column) for column in zip(*some)] for name, some in times.items()}
        whole = least["ice2-suite"]
        for name, (clock, cpu) in least.items():
            beside = f"{clock / whole[0]:.2f} and {cpu / whole[1]:.2f} of the suite's"
            print(f"{count} calls of {name:10} {clock:6.2f} s, {cpu:6.2f} s of CPU time: {beside}")
        print(f"cycles of a case on average: {sum(int(spent) for _, spent in calls) / count:.0f}; load {os.getloadavg()[0]:.0f}")


if __name__ == "__main__":
    main()

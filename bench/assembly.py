#!/usr/bin/env python3
"""Times `ice2 asm` on a text of 1,048,576 bytes for the ATmega32, beside avr-as on the same text where binutils is installed, and `ice2 list`
on the image.

`bench/assembly.py [RUNS]`. Build the program first: `bin/ice2 --version`. Calls are made in turn, and of each the least CPU time counts. The
text has one word for each place of the flash, a label on each fourth line, branches to labels ahead and behind, and comments.
"""
import os
import pathlib
import resource
import shutil
import subprocess
import sys
import tempfile

HERE = pathlib.Path(__file__).resolve().parent
PROGRAM = os.environ.get("ICE2", HERE / "../crates/ice2/out/ice2")
SIZE = 1_048_576  # bytes of a text
WORDS = 16384
STATEMENTS = ["ldi r{0}, 0x{1:02x}", "add r{0}, r{2}", "out 0x18, r{0}", "rjmp l{3}", "mov r{0}, r{2}", "cpi r{0}, {1}", "breq l{3}", "lsl r{0}"]


def text():
    """So many lines, padded by a comment in the last one."""
    lines = []
    for place in range(WORDS):
        near = min(place // 4 + (place % 13 - 6), WORDS // 4 - 1)
        label = f"l{place // 4}: " if place % 4 == 0 else ""
        statement = STATEMENTS[place % len(STATEMENTS)].format(16 + place % 16, place % 256, place % 32, max(near, 0))
        lines.append(f"{label}  {statement}  ; what the line at {place:05} is for")
    whole = "\n".join(lines) + "\n"
    return whole + ";" * (SIZE - len(whole) - 1) + "\n"


def seconds(words, given):
    """The CPU time of a call, and what it printed."""
    before = resource.getrusage(resource.RUSAGE_CHILDREN)
    ran = subprocess.run(words, input=given, stdout=subprocess.PIPE, check=True)
    after = resource.getrusage(resource.RUSAGE_CHILDREN)
    return after.ru_utime + after.ru_stime - before.ru_utime - before.ru_stime, ran.stdout


def main():
    runs = int(sys.argv[1]) if len(sys.argv) > 1 else 5
    given = text().encode()
    with tempfile.TemporaryDirectory() as work:
        folder = pathlib.Path(work)
        (folder / "text.s").write_bytes(given)
        image = folder / "image.bin"
        rows = {"asm": ([PROGRAM, "asm", "m32"], given), "list": ([PROGRAM, "list", image, "m32"], b"")}
        if shutil.which("avr-as"):
            rows["avr-as"] = (["avr-as", "-mmcu=atmega32", "-o", folder / "text.o", folder / "text.s"], b"")
        times = {name: [] for name in rows}
        for _ in range(runs):
            for name, (words, piped) in rows.items():
                spent, printed = seconds(words, piped)
                times[name].append(spent)
                if name == "asm":
                    image.write_bytes(printed)
        least = {name: min(some) for name, some in times.items()}
        for name, spent in least.items():
            print(f"{name:7} {spent * 1000:7.1f} ms, {spent / least['asm']:.2f} of asm")
        print(f"{len(given)} bytes, {image.stat().st_size} of image; load {os.getloadavg()[0]:.0f}")


if __name__ == "__main__":
    main()

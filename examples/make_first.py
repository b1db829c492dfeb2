#!/usr/bin/env python3
"""Makes first.bin of first.asm, and first.transcript and first.notes of first.script. Into the folder that is named, or else beside this file.

It shares no code with ice2: the image is made by assembler.py, and what is printed is told by shell.py and target.py.
"""
import pathlib
import struct
import sys

from assembler import assemble
from shell import transcript

HERE = pathlib.Path(__file__).resolve().parent

STOPS = 1000  # the steps of each run, at most


def main():
    to = pathlib.Path(sys.argv[1]) if len(sys.argv) > 1 else HERE
    image, fault = assemble((HERE / "first.asm").read_text(), "m16")
    assert fault is None
    (to / "first.bin").write_bytes(image)
    words = struct.unpack(f"<{len(image) // 2}H", image)
    status, printed, notes = transcript(words, [STOPS], (HERE / "first.script").read_bytes())
    assert status == 0
    (to / "first.transcript").write_text(printed)
    (to / "first.notes").write_text(notes)


if __name__ == "__main__":
    main()

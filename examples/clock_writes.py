#!/usr/bin/env python3
"""Prints the output writes of clock.bin up to its BREAK: the cycle, the I/O address and the byte of each, then the cycles and pc.

What the target does is told by the model in target.py, which shares no code with ice2.
"""
import pathlib
import struct

from target import BREAK, M16, Target

IMAGE = (pathlib.Path(__file__).resolve().parent / "clock.bin").read_bytes()
WORDS = struct.unpack(f"<{len(IMAGE) // 2}H", IMAGE)

target = Target(M16)
while WORDS[target.pc] != BREAK or target.due():
    target.step(WORDS)
for cycle, address, byte in target.outputs:
    print(f"{cycle} {address:02x} {byte:02x}")
print(f"cycles {target.cycles}")
print(f"pc {target.pc:04x}")

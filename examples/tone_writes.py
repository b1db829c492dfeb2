#!/usr/bin/env python3
"""Prints the first output writes of tone.hex, as many as are asked for: the cycle, the I/O address and the byte of each.

It counts as make_tone.py does, from the listing of the image, and shares no code with ice2.
"""
import sys

from make_tone import cycles_of, play


def main():
    wanted = int(sys.argv[1])
    cycles = 0
    for run, writes in play():
        for place, address, byte in writes[:wanted]:
            before = " ".join(run.split()[:place])
            print(f"{cycles + cycles_of(before)} {address:02x} {byte:02x}")
        wanted -= len(writes[:wanted])
        if wanted == 0:
            return
        cycles += cycles_of(run)


if __name__ == "__main__":
    main()

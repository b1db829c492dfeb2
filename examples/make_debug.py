#!/usr/bin/env python3
"""Makes debug.line, debug.reply and debug.notes: a debug session on blink.bin. Into the folder that is named, or else beside this file.

It shares no code with ice2. What the target does is counted here by hand from the listing of the image (avr-objdump) with the cycles of
the AVR Instruction Set Manual; addresses of instructions are those of words.
"""
import pathlib
import struct
import sys

from frames import frame
from make_blink import GET_SIGN_ON, MEMORY, OK, READ_MEMORY, SIGN_OFF, check_known_values, sign_on_body

HERE = pathlib.Path(__file__).resolve().parent

# commands
WRITE_MEMORY = 0x04
READ_PC = 0x07
GO = 0x08
SINGLE_STEP = 0x09
FORCED_STOP = 0x0A
SET_BREAK = 0x11
CLR_BREAK = 0x1A

SRAM = 0x20  # the memory type of the data space: registers, I/O space, SRAM
R24 = 0x18  # where it has the counter
DDRB = 0x37  # and the direction of port B, with PORTB behind it
PORTB = 0x38

PC = 0x84  # a response
EVENT = 0xE0
BREAKPOINT, STOPPED, STEPPED = 0x01, 0x02, 0x03
EVENTS = 0xFFFF  # the sequence number of events

STOPS = 10000  # the steps of each run, at most

# out PORTB, r24; behind it subi, ldi, ldi, a loop of 1000 rounds, and rjmp back to it
SHOW = 0x39
# nop, subi, sbc, brne: the loop begins here
LOOP = 0x3D

# (cycles, steps) from reset to the first out PORTB: jmp, eor, out, two ldi, two out, call, ldi, out DDRB, ldi
TO_SHOW = (3 + 1 + 1 + 2 + 2 + 4 + 1 + 1 + 1, 11)
# out PORTB itself
ONE_SHOW = (1, 1)
# a round of the loop; its last one does not branch, which costs a cycle less
ROUND = (5, 4)
# from behind out PORTB back to it: subi, two ldi, 1000 rounds, rjmp
BACK = (3 + 1000 * ROUND[0] - 1 + 2, 3 + 1000 * ROUND[1] + 1)


def read(address, count):
    return struct.pack("<BBII", READ_MEMORY, SRAM, count, address)


def write(address, content):
    return struct.pack("<BBII", WRITE_MEMORY, SRAM, len(content), address) + content


def last_run():
    """Where the last run stands behind all its steps, and its cycles: twice around, and then some rounds of the loop."""
    cycles, steps = BACK
    for _ in range(2):
        cycles, steps = cycles + ONE_SHOW[0], steps + ONE_SHOW[1]
        if steps + BACK[1] <= STOPS:
            cycles, steps = cycles + BACK[0], steps + BACK[1]
    cycles, steps = cycles + 3, steps + 3  # subi and two ldi
    rounds, more = divmod(STOPS - steps, ROUND[1])
    assert more < ROUND[1] and rounds < 1000
    return LOOP + more, cycles + rounds * ROUND[0] + more


def main():
    check_known_values()
    to = pathlib.Path(sys.argv[1]) if len(sys.argv) > 1 else HERE
    end, last_cycles = last_run()
    set_at = struct.pack("<BBBIB", SET_BREAK, 1, 0, SHOW, 0)
    clear_at = struct.pack("<BBI", CLR_BREAK, 0, SHOW)
    okay = bytes([OK])
    # each command, its reply, and the address and cause of the event behind it
    session = [
        (bytes([GET_SIGN_ON]), sign_on_body(), None),
        (set_at, okay, None),
        (bytes([GO]), okay, (SHOW, BREAKPOINT)),
        (read(R24, 1), bytes([MEMORY, 0]), None),
        (read(DDRB, 2), bytes([MEMORY, 0xFF, 0]), None),
        (bytes([SINGLE_STEP]), okay, (SHOW + 1, STEPPED)),
        (bytes([READ_PC]), struct.pack("<BI", PC, SHOW + 1), None),
        (bytes([GO]), okay, (SHOW, BREAKPOINT)),
        (read(R24, 1), bytes([MEMORY, 1]), None),
        (write(R24, b"\xa5"), okay, None),
        (bytes([SINGLE_STEP]), okay, (SHOW + 1, STEPPED)),
        (read(PORTB, 1), bytes([MEMORY, 0xA5]), None),
        (clear_at, okay, None),
        (bytes([GO]), okay, None),
        (bytes([FORCED_STOP]), okay, (end, STOPPED)),
        (bytes([SIGN_OFF]), okay, None),
    ]
    line, sent = b"", b""
    for number, (command, reply, event) in enumerate(session):
        line += frame(number, command)
        sent += frame(number, reply)
        if event is not None:
            sent += frame(EVENTS, struct.pack("<BIB", EVENT, *event))
    cycles = TO_SHOW[0] + ONE_SHOW[0] + BACK[0] + ONE_SHOW[0] + last_cycles
    steps = TO_SHOW[1] + ONE_SHOW[1] + BACK[1] + ONE_SHOW[1] + STOPS
    writes = 1 + 1 + 1 + 2  # DDRB, PORTB in each single step, and twice in the last run
    (to / "debug.line").write_bytes(line)
    (to / "debug.reply").write_bytes(sent)
    (to / "debug.notes").write_text(f"cycles {cycles} steps {steps} writes {writes} dropped 0\n")


if __name__ == "__main__":
    main()

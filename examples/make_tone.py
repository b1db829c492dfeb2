#!/usr/bin/env python3
"""Makes tone.line, tone.reply and tone.notes: a debug session on tone.hex, for the ATmega32. Into the folder that is named, or else
beside this file.

It shares no code with ice2. What the target runs is spelled here from the listing of the image (avr-objdump), instruction by instruction in
the order in which they run, and counted by the cycles of the AVR Instruction Set Manual; addresses of instructions are those of words.
"""
import functools
import pathlib
import struct
import sys

from frames import frame
from make_blink import GET_SIGN_ON, MEMORY, OK, READ_MEMORY, SIGN_OFF, check_known_values, sign_on_body
from make_debug import (
    BREAKPOINT, CLR_BREAK, EVENT, EVENTS, FORCED_STOP, GO, PC, READ_PC, SET_BREAK, SINGLE_STEP, STEPPED, STOPPED, WRITE_MEMORY)

HERE = pathlib.Path(__file__).resolve().parent

# commands, a parameter and responses that the session on blink.bin has not
GET_PARAMETER, ENTER_PROGMODE, LEAVE_PROGMODE, RUN_TO_ADDR = 0x03, 0x14, 0x15, 0x1C
MCU_STATE, PROGRAMMING = 0x1A, 0x02
PARAMETER, ILLEGAL_BREAKPOINT = 0x81, 0xA8

# memory types: the data space, the I/O registers, the program while stopped, the program while programming, the signature
SRAM, IO_SHADOW, SPM, FLASH_PAGE, SIGN_JTAG = 0x20, 0x30, 0xA0, 0xB0, 0xB4
SIGNATURE = bytes([0x1E, 0x95, 0x02])

# data addresses: two registers, PORTD, DDRB with PORTB behind it, the variables, the wave, and where a stack of four bytes begins
R18, Z, PORTD, DDRB = 0x12, 0x1E, 0x32, 0x37
TONE, LEFT, WAVE, STACK = 0x60, 0x61, 0x400, 0x85C
# I/O addresses: TCNT0, TIFR, OCR0, SPL with SPH and SREG behind it, and the four whose stores are output writes here
TCNT0, TIFR, OCR0, SPL = 0x32, 0x38, 0x3C, 0x3D
DDRD_IO, PORTD_IO, DDRB_IO, PORTB_IO = 0x11, 0x12, 0x17, 0x18
OVERFLOWED, COMPARED = 1, 2  # the bits of TIFR
# byte addresses of the flash
MAKE_WAVE_BYTES, STRIDES_BYTES = 0x6000, 0x7000

STOPS = 100000  # the steps of each run, at most

# Where what is spelled below begins.
COMPARE_VECTOR, OVERFLOW_VECTOR = 0x14, 0x16
COMPARE, OVERFLOW, SET_STRIDE_AT = 0x3E, 0x49, 0x87
BEHIND_MAIN, BEHIND_MAKE_WAVE = 0x3A, 0xA4  # where the two calls come back to
IDLE = 0xB8  # the jump of main to itself
RET_OF_MAKE_WAVE = 0x3025

# The cycles of what takes more than one. `brne+` is a brne that branches, `interrupt` the step that takes an interrupt.
CYCLES = {
    "adiw": 2, "brne+": 2, "call": 4, "cbi": 2, "interrupt": 4, "jmp": 3, "ld": 2, "lds": 2, "lpm": 3, "mul": 2, "pop": 2, "push": 2,
    "ret": 4, "reti": 4, "rjmp": 2, "sbi": 2, "sbiw": 2, "st": 2, "sts": 2}


def loop(rounds, body):
    """A loop whose brne branches in each round but the last."""
    return f"{body} brne+ " * (rounds - 1) + f"{body} brne "


# From reset to the `ret` of make_wave: the jump over the vectors, the stack, the 7 bytes of the variables cleared, main, and the wave.
TO_RET = (
    "jmp eor out ldi ldi out out ldi ldi ldi rjmp " + "cpi cpc brne+ st " * 7 + "cpi cpc brne call "
    "ldi out ldi out call push push ldi ldi ldi ldi ldi ldi ldi " + loop(
        512, "movw sub sbc mul movw mul add mul add eor mov lsr ldi add st movw subi sbci mov sub st adiw cp ldi cpc") + "pop pop")
# From behind that to the jump of main to itself. The timer counts from the `out` before the last instruction on.
START_TIMER = "out sei"
TO_IDLE = "ldi ldi lpm lpm sts sts ldi ldi sts sts ldi out ldi out " + START_TIMER
# The compare interrupt behind the jump at its vector.
COMPARE_BODY = "push push in push eor sbi pop out pop pop reti"
# The overflow interrupt behind the jump at its vector: up to the question whether the tone is over, what the next tone takes, and the end.
SAMPLE = (
    "push push in push eor push push push push push push lds lds ldi " + loop(6, "lsr ror dec") + "subi sbci ld out cbi "
    "lds lds lds lds add adc sts sts lds lds sbiw sts sts or")
NEXT_TONE = "lds ldi adiw andi eor sts add adc subi sbci"
SET_STRIDE = "lpm lpm sts sts ldi ldi sts sts"
END_OF_OVERFLOW = "pop pop pop pop pop pop pop out pop pop reti"

SAMPLES_OF_TONE = 7812
# The tones as half tones above C, from the 440 Hz of A: what each of 31,250 samples a second adds to the phase.
STRIDES = [round(440 * 2 ** ((half_tone - 9) / 12) * 65536 / 31250) for half_tone in (0, 2, 4, 5, 7, 9, 11, 12)]
ARCH = [place * (511 - place) // 512 for place in range(512)]
SAMPLES = bytes([128 + height for height in ARCH] + [128 - height for height in ARCH])


@functools.cache
def cycles_of(run):
    return sum(CYCLES.get(name, 1) for name in run.split())


def steps_of(run):
    return len(run.split())


def play():
    """What runs from reset on, part by part and without end: the start, and then either an interrupt or a round of the jump of main to
    itself. Of each part its instructions and its output writes: at which instruction, the I/O address, and the byte."""
    start = " ".join([TO_RET, "ret", TO_IDLE])
    first = start.split().index("call") + 2  # the first `out` of main
    yield start, [(first, DDRB_IO, 0xFF), (first + 2, DDRD_IO, 1)]
    count = cycles_of(START_TIMER)  # of which TCNT0 is the remainder by 256
    asked = set()
    held = True  # behind sei and reti one instruction runs before an interrupt does
    phase, tone, left = 0, 0, SAMPLES_OF_TONE
    while True:
        if held or not asked:
            run, writes, held = "rjmp", [], False
        elif COMPARE in asked:  # its vector stands below that of the overflow, so it goes first
            asked.remove(COMPARE)
            run, held = "interrupt jmp " + COMPARE_BODY, True
            writes = [(run.split().index("sbi"), PORTD_IO, 1)]
        else:
            asked.remove(OVERFLOW)
            run, held = "interrupt jmp " + SAMPLE, True
            writes = [(run.split().index("out"), PORTB_IO, SAMPLES[phase >> 6]), (run.split().index("cbi"), PORTD_IO, 0)]
            phase, left = (phase + STRIDES[tone]) % 65536, left - 1
            if left > 0:
                run = " ".join([run, "brne+", END_OF_OVERFLOW])
            else:
                tone, left = (tone + 1) % 8, SAMPLES_OF_TONE
                run = " ".join([run, "brne", NEXT_TONE, SET_STRIDE, END_OF_OVERFLOW])
        yield run, writes
        before, count = count, count + cycles_of(run)
        if (before - 127) // 256 != (count - 127) // 256:
            asked.add(COMPARE)
        if before // 256 != count // 256:
            asked.add(OVERFLOW)


class Stopped:
    """Where the first tone stands behind the steps of one run from reset on."""

    def __init__(self):
        self.cycles = steps = 0
        self.writes = []
        for run, writes in play():
            if steps + steps_of(run) > STOPS:
                break
            self.cycles, steps = self.cycles + cycles_of(run), steps + steps_of(run)
            self.writes += writes
        # The last part is not run to its end: an overflow interrupt in its fourth round of shifts, behind some whole ones.
        rest = run.split()[:STOPS - steps]
        before, rounds = "interrupt jmp " + SAMPLE.split(" lsr")[0], "lsr ror dec brne+ " * 3
        assert rest == (before + " " + rounds).split()
        self.cycles += cycles_of(" ".join(rest))
        self.address = OVERFLOW + 16  # the `lsr`, behind 12 instructions of one word and two `lds` of two
        shown = [byte for _, address, byte in self.writes if address == PORTB_IO]
        self.sample = shown[-1]
        self.shifted_phase = len(shown) * STRIDES[0] % 65536 >> 3


def read(kind, address, count):
    return struct.pack("<BBII", READ_MEMORY, kind, count, address)


def write(kind, address, content):
    return struct.pack("<BBII", WRITE_MEMORY, kind, len(content), address) + content


def set_break(number, address):
    return struct.pack("<BBBIB", SET_BREAK, 1, number, address, 0)


def clear_break(number, address):
    return struct.pack("<BBI", CLR_BREAK, number, address)


def run_to(address):
    return struct.pack("<BI", RUN_TO_ADDR, address)


def memory(content):
    return bytes([MEMORY]) + bytes(content)


def code_of(name):
    """The bytes of a file in Intel HEX, by address."""
    found = {}
    for line in (HERE / name).read_text().split():
        record = bytes.fromhex(line[1:])
        assert sum(record) % 256 == 0 and record[3] in (0, 1)
        address = struct.unpack(">H", record[1:3])[0]
        found.update(enumerate(record[4:-1], address))
    return found


def main():
    check_known_values()
    to = pathlib.Path(sys.argv[1]) if len(sys.argv) > 1 else HERE
    code = code_of("tone.hex")
    stopped = Stopped()
    okay = bytes([OK])
    # r18 to r31 at the end of make_wave: the high byte of 512, the middle, the last sample, 0 of the last product, 511 less the last place,
    # 512, X at the last byte of the wave, what main and the start have left in r28 and r29, and Z at the second half of the wave
    registers = bytes([2, 128, 128, 0]) + struct.pack("<HHHBBH", 0, 512, WAVE + 1023, 1, 8, WAVE + 512)
    strides = struct.pack("<8H", *STRIDES)
    # TCNT0 where the host has set it to FF, behind what has run since
    one_round = "rjmp"
    to_overflow = " ".join([COMPARE_BODY, "rjmp interrupt"])
    to_stride = " ".join([SAMPLE, "brne", NEXT_TONE])
    to_idle = " ".join([SET_STRIDE, END_OF_OVERFLOW])
    counted = cycles_of(" ".join([one_round, "interrupt jmp", to_overflow]))
    counted_more = counted + cycles_of(" ".join(["jmp", to_stride, to_idle]))
    # each command, its reply, and what ran then: its instructions, its output writes, and the address and cause of the event
    session = [
        (bytes([GET_SIGN_ON]), sign_on_body(), None),
        (read(SPM, MAKE_WAVE_BYTES, 16), memory(code[MAKE_WAVE_BYTES + i] for i in range(16)), None),
        (set_break(0, RET_OF_MAKE_WAVE), okay, None),
        (bytes([GO]), okay, (TO_RET, 2, RET_OF_MAKE_WAVE, BREAKPOINT)),
        (read(SRAM, R18, 14), memory(registers), None),
        (read(SRAM, WAVE, 1024), memory(SAMPLES), None),
        (read(SRAM, STACK, 4), memory(struct.pack(">HH", BEHIND_MAKE_WAVE, BEHIND_MAIN)), None),
        (bytes([SINGLE_STEP]), okay, ("ret", 0, BEHIND_MAKE_WAVE, STEPPED)),
        (clear_break(0, RET_OF_MAKE_WAVE), okay, None),
        (run_to(IDLE), okay, (TO_IDLE, 0, IDLE, BREAKPOINT)),
        (read(IO_SHADOW, TCNT0, 1), memory([cycles_of(START_TIMER)]), None),
        (write(IO_SHADOW, OCR0, b"\x00"), okay, None),
        (write(IO_SHADOW, TCNT0, b"\xff"), okay, None),
        (read(IO_SHADOW, TIFR, 1), memory([0]), None),
        (bytes([SINGLE_STEP]), okay, (one_round, 0, IDLE, STEPPED)),
        (read(IO_SHADOW, TIFR, 1), memory([OVERFLOWED | COMPARED]), None),
        (bytes([SINGLE_STEP]), okay, ("interrupt", 0, COMPARE_VECTOR, STEPPED)),
        (read(IO_SHADOW, TIFR, 1), memory([OVERFLOWED]), None),
        (bytes([SINGLE_STEP]), okay, ("jmp", 0, COMPARE, STEPPED)),
        (set_break(1, OVERFLOW_VECTOR), okay, None),
        (bytes([GO]), okay, (to_overflow, 1, OVERFLOW_VECTOR, BREAKPOINT)),
        (read(IO_SHADOW, TCNT0, 1), memory([(0xFF + counted) % 256]), None),
        (read(IO_SHADOW, SPL, 3), memory([0x5B, 0x08, 0x02]), None),  # two bytes of main's call and two of this one; of SREG Z alone
        (read(SRAM, STACK, 2), memory(struct.pack(">H", IDLE)), None),
        (read(SRAM, PORTD, 1), memory([1]), None),
        (clear_break(1, OVERFLOW_VECTOR), okay, None),
        (bytes([SINGLE_STEP]), okay, ("jmp", 0, OVERFLOW, STEPPED)),
        (write(SRAM, LEFT, struct.pack("<H", 1)), okay, None),
        (write(IO_SHADOW, OCR0, b"\x7f"), okay, None),
        (set_break(0, SET_STRIDE_AT), okay, None),
        (bytes([GO]), okay, (to_stride, 2, SET_STRIDE_AT, BREAKPOINT)),
        (read(SRAM, Z, 2), memory(struct.pack("<H", STRIDES_BYTES + 2)), None),
        (read(SRAM, DDRB, 2), memory([0xFF, SAMPLES[0]]), None),
        (read(SRAM, PORTD, 1), memory([0]), None),
        (run_to(IDLE), okay, (to_idle, 0, IDLE, BREAKPOINT)),
        (read(SRAM, TONE, 7), memory(struct.pack("<BHHH", 1, SAMPLES_OF_TONE, STRIDES[1], STRIDES[0])), None),
        (read(IO_SHADOW, TCNT0, 1), memory([(0xFF + counted_more) % 256]), None),
        (read(IO_SHADOW, TIFR, 1), memory([COMPARED]), None),
        (bytes([ENTER_PROGMODE]), okay, None),
        (bytes([GET_PARAMETER, MCU_STATE]), bytes([PARAMETER, PROGRAMMING]), None),
        (read(SIGN_JTAG, 0, 3), memory(SIGNATURE), None),
        (read(FLASH_PAGE, STRIDES_BYTES, 16), memory(strides), None),
        (bytes([LEAVE_PROGMODE]), okay, None),
        (bytes([READ_PC]), struct.pack("<BI", PC, 0), None),
        (clear_break(0, SET_STRIDE_AT), bytes([ILLEGAL_BREAKPOINT]), None),
        (bytes([GO]), okay, None),
        (bytes([FORCED_STOP]), okay, (None, len(stopped.writes), stopped.address, STOPPED)),
        (read(SRAM, Z, 2), memory(struct.pack("<H", stopped.shifted_phase)), None),
        (read(SRAM, DDRB, 2), memory([0xFF, stopped.sample]), None),
        (bytes([SIGN_OFF]), okay, None),
    ]
    line, sent = b"", b""
    cycles, steps, writes = stopped.cycles, STOPS, 0
    for number, (command, reply, ran) in enumerate(session):
        line += frame(number, command)
        sent += frame(number, reply)
        if ran is not None:
            run, its_writes, address, cause = ran
            sent += frame(EVENTS, struct.pack("<BIB", EVENT, address, cause))
            writes += its_writes
            if run is not None:
                cycles, steps = cycles + cycles_of(run), steps + steps_of(run)
    (to / "tone.line").write_bytes(line)
    (to / "tone.reply").write_bytes(sent)
    (to / "tone.notes").write_text(f"cycles {cycles} steps {steps} writes {writes} dropped 0\n")


if __name__ == "__main__":
    main()

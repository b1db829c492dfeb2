#!/usr/bin/env python3
"""Makes clock.script, clock.transcript and clock.notes: a session on clock.bin. Into the folder that is named, or else beside this file.

It shares no code with ice2: what is printed is told by the models of the shell and of the target in shell.py and target.py.
"""
import pathlib
import struct
import sys

from shell import transcript

HERE = pathlib.Path(__file__).resolve().parent

STOPS = 20000  # the steps of each run, at most

# the page of the flash that has the instruction `ldi r24, 0xC7`, which sets the length of a beat, and the place of it
PAGE, PAGE_BYTES, BEAT = 0x100, 0x80, 0x13E
LONG_BEAT, SHORT_BEAT = b"\x87\xec", b"\x83\xe6"  # 0xC7 and 0x63: 200 and 100 counts

SCRIPT = """\
# A session on clock.bin, line by line in docs/TUTORIAL.md. At the top of the repository:
#   bin/ice2 script examples/clock.bin 20000 < examples/clock.script
# Numbers are hexadecimal. Addresses of instructions are those of words, half of what the listing says.

# 1. The tool, and the first bytes of the flash, which are jumps.
sign
read flash 0 10

# 2. To main, which stands at 116 in the listing. SP, and where main returns to.
brake 8b
break 8b
go
wait
read io 3d 2
read sram 45e 2

# 3. Two steps: r24 gets FF, and so does DDRA.
step
wait
step
wait
pc
read sram 18 1
read io 1a 1

# 4. Into the interrupt of timer 0: main waits at 12e, and the next count of TCNT0 is an overflow.
to 97
wait
write io 32 ff
step
wait
step
wait
read io 38 1
step
wait
read sram 45c 2
step
wait

# 5. A variable: two of the three overflows need not be waited for.
read sram 6d 1
write sram 6d 02
to 9b
wait
read sram 6d 1

# 6. The argument of show, at 86, is in r24: an 8 in place of the first digit, and its segments on port C.
break 43
go
wait
read sram 18 1
write sram 18 08
to 49
wait
read io 15 1
clear 43

# 7. A firmware that hangs: with interrupts off, main waits at 152 for a beat that does not come.
to a9
wait
read io 3f 1
write io 3f 35
go
get 1a
read sram 6c 1
stop
wait
read io 3f 1
write io 3f 82

# 8. On to the BREAK at 17e: what was shown, the two counts, and the sum on ports A and B.
go
wait
read sram 60 e
read io 1b 1
read io 18 1

# 9. Another program: beats of half the length, by one byte of the page at 100; and the page behind it is erased.
prog
get 1a
read sig 0 3
read page 100 80
page 100 {page}
read page 13e 2
erase 180
leave

# 10. It runs from 0 on; breakpoints of the program are forgotten.
pc
clear 8b
to a5
wait
read io 23 1
go
wait
go
wait
quit
"""


def main():
    to = pathlib.Path(sys.argv[1]) if len(sys.argv) > 1 else HERE
    image = (HERE / "clock.bin").read_bytes()
    assert image[BEAT:BEAT + 2] == LONG_BEAT
    page = image[PAGE:BEAT] + SHORT_BEAT + image[BEAT + 2:PAGE + PAGE_BYTES]
    script = SCRIPT.format(page=page.hex())
    words = struct.unpack(f"<{len(image) // 2}H", image)
    status, printed, notes = transcript(words, [STOPS], script.encode())
    assert status == 0
    (to / "clock.script").write_text(script)
    (to / "clock.transcript").write_text(printed)
    (to / "clock.notes").write_text(notes)


if __name__ == "__main__":
    main()

#!/usr/bin/env python3
"""Makes blink.line, blink.reply and blink.notes from blink.bin, into the folder that is named, or else beside this file.

It shares no code with ice2. The line of the JTAGICE mkII is described in Atmel's application note AVR067.
"""
import pathlib
import struct
import sys

from frames import crc16, frame

HERE = pathlib.Path(__file__).resolve().parent

# commands
SIGN_OFF = 0x00
GET_SIGN_ON = 0x01
READ_MEMORY = 0x05
FLASH_MEMORY = 0xA0

# responses
OK = 0x80
MEMORY = 0x82
SIGN_ON = 0x86

# How many bytes the example reads, from address 0 on.
COUNT = 16


def sign_on_body():
    """The answer to GET_SIGN_ON: protocol 1, boot loader 1, firmware 6.00, hardware 1, serial number 1, and the name."""
    processor = bytes([1, 0, 6, 1])
    serial = bytes([0, 0, 0, 0, 0, 1])
    return bytes([SIGN_ON, 1]) + processor + processor + serial + b"JTAGICEmkII\0"


def check_known_values():
    """Compares with values from outside: the catalogue's check value of this CRC, and frames that are known."""
    assert crc16(b"123456789") == 0x6F91
    assert frame(0, bytes([GET_SIGN_ON])) == bytes.fromhex("1B 00 00 01 00 00 00 0E 01 F3 97")
    assert frame(0, bytes([SIGN_OFF])) == bytes.fromhex("1B 00 00 01 00 00 00 0E 00 7A 86")
    assert frame(0, bytes([OK])) == bytes.fromhex("1B 00 00 01 00 00 00 0E 80 72 02")


def main():
    check_known_values()
    to = pathlib.Path(sys.argv[1]) if len(sys.argv) > 1 else HERE
    image = (HERE / "blink.bin").read_bytes()
    requests = [
        bytes([GET_SIGN_ON]),
        struct.pack("<BBII", READ_MEMORY, FLASH_MEMORY, COUNT, 0),
        bytes([SIGN_OFF]),
    ]
    replies = [sign_on_body(), bytes([MEMORY]) + image[:COUNT], bytes([OK])]
    (to / "blink.line").write_bytes(b"".join(frame(*it) for it in enumerate(requests)))
    (to / "blink.reply").write_bytes(b"".join(frame(*it) for it in enumerate(replies)))
    (to / "blink.notes").write_bytes(b"cycles 0 steps 0 writes 0 dropped 0\n")


if __name__ == "__main__":
    main()

"""Frames of the debug line, made after Atmel's application note AVR067. It shares no code with ice2."""
import struct

MESSAGE_START = 0x1B
TOKEN = 0x0E


def crc16(data):
    """CRC-16/MCRF4XX: the polynomial 0x1021 reflected, started at FFFF, with no final inversion."""
    check = 0xFFFF
    for byte in data:
        check ^= byte
        for _ in range(8):
            check = check >> 1 ^ (0x8408 if check & 1 else 0)
    return check


def frame(number, body):
    """A frame: start, sequence number, size of the body, token, body, and the check over all of these."""
    covered = struct.pack("<BHIB", MESSAGE_START, number, len(body), TOKEN) + body
    return covered + struct.pack("<H", crc16(covered))

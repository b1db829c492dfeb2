"""Throws Intel HEX texts, good and damaged, at ice2, and compares what it says and takes with a reader of its own.

`hex.py FOLDER [COUNT [SEED]]`: the texts go to a file in the folder. It shares no code with ice2: the reader here is plain Python, after
'Hexadecimal Object File Format Specification' (Intel) and docs/PROTOCOL.md. Prints nothing where all is well.
"""
import pathlib
import random
import struct
import subprocess
import sys

ROOT = pathlib.Path(__file__).resolve().parent.parent
sys.path.insert(0, str(ROOT / "examples"))

from frames import frame  # noqa: E402

SIZE = 16384  # bytes of the flash of an ATmega16
DIGITS = b"0123456789abcdefABCDEF"
PIECE = 4096  # bytes of one read


class Refused(Exception):
    """What is wrong with a text, as the notes tell it."""


def lines_of(text):
    """The lines: each ends in a line feed, with or without a carriage return before it; the last one may have no end."""
    *ended, last = text.split(b"\n")
    lines = [line[:-1] if line.endswith(b"\r") else line for line in ended]
    return lines + [last] if last else lines


def record_of(line, number):
    """The type, address and content of a record."""
    bad = Refused(f"image: record {number}")
    digits = line[1:]
    if not line.startswith(b":") or len(digits) % 2 or any(digit not in DIGITS for digit in digits):
        raise bad
    record = bytes.fromhex(digits.decode())
    if len(record) < 5 or len(record) != record[0] + 5:
        raise bad
    kind, content = record[3], record[4:-1]
    if kind > 5 or (kind > 0 and len(content) != {1: 0, 2: 2, 3: 4, 4: 2, 5: 4}[kind]):
        raise bad
    if sum(record) % 256:
        raise Refused(f"image: sum {number}")
    return kind, 256 * record[1] + record[2], content


def read_hex(text):
    """The bytes of the flash, or the first thing that is wrong."""
    flash, base = {}, 0
    lines = lines_of(text)
    for number, line in enumerate(lines, 1):
        if not line:
            continue
        kind, address, content = record_of(line, number)
        if kind == 1:
            return bytes(flash.get(i, 0xFF) for i in range(SIZE))
        if kind in (2, 4):
            base = int.from_bytes(content, "big") * {2: 16, 4: 65536}[kind]
        for i, byte in enumerate(content if kind == 0 else b""):
            place = base + address + i
            if place >= SIZE:
                raise Refused("image: large")
            if place in flash:
                raise Refused(f"image: overlap {place}")
            flash[place] = byte
    raise Refused(f"image: record {len(lines) + 1}")


def record(kind, address, content):
    body = bytes([len(content)]) + address.to_bytes(2, "big") + bytes([kind]) + content
    return b":" + (body + bytes([-sum(body) % 256])).hex().upper().encode()


def text_of(chance):
    """A text of some records, most of them good."""
    lines, place = [], chance.choice([0, 0, 0x100, 0x3FC0, 0x3FF0])
    for _ in range(chance.randrange(12)):
        content = chance.randbytes(chance.choice([0, 1, 2, 16, 16, 31]))
        pick = chance.random()
        if pick < 0.06:
            lines.append(record(2, 0, chance.choice([b"\x00\x00", b"\x00\x10", b"\x03\xff", b"\x10\x00"])))
        elif pick < 0.1:
            lines.append(record(4, 0, chance.choice([b"\x00\x00", b"\x00\x00", b"\x00\x01"])))
        elif pick < 0.14:
            lines.append(record(chance.choice([3, 5]), 0, chance.randbytes(4)))
        elif pick < 0.18:
            lines.append(b"")
        else:
            lines.append(record(0, place % 65536, content))
            place += len(content) - (chance.random() < 0.05)
    lines.append(record(1, 0, b""))
    if chance.random() < 0.1:
        lines.append(record(0, 0, b"behind the end"))
    ends = chance.choice([b"\n", b"\r\n"])
    return ends.join(lines) + chance.choice([ends, ends, b""])


def damaged(chance, text):
    """The text with some damage, or none."""
    text = bytearray(text)
    for _ in range(chance.choice([0, 0, 1, 1, 1, 2, 5])):
        place = chance.randrange(len(text) + 1)
        pick = chance.randrange(6)
        if pick == 0:
            text[place:place + 1] = chance.choice(DIGITS + b":\r\n gG\x00\xff").to_bytes(1, "big")
        elif pick == 1:
            del text[place:place + 1]
        elif pick == 2:
            text[place:place] = bytes([chance.choice(DIGITS + b":\n\r ")])
        elif pick == 3:
            del text[place:]
        elif pick == 4:
            text[place:place + 1] = bytes(text[place:place + 1]).swapcase()
        else:
            lines = bytes(text).split(b"\n")
            lines.insert(chance.randrange(len(lines)), chance.choice(lines))
            text = bytearray(b"\n".join(lines))
    return bytes(text)


def line_to_read():
    """The line that reads the whole flash, and signs off."""
    reads = [struct.pack("<BBII", 0x05, 0xA0, PIECE, at) for at in range(0, SIZE, PIECE)]
    return b"".join(frame(number, body) for number, body in enumerate(reads + [b"\x00"]))


def wanted(text):
    """The status, the bytes sent and the notes."""
    try:
        flash = read_hex(text)
    except Refused as refused:
        return 3, b"", f"{refused}\n".encode()
    replies = [b"\x82" + flash[at:at + PIECE] for at in range(0, SIZE, PIECE)] + [b"\x80"]
    sent = b"".join(frame(number, body) for number, body in enumerate(replies))
    return 0, sent, b"cycles 0 steps 0 writes 0 dropped 0\n"


def main():
    folder = pathlib.Path(sys.argv[1])
    count = int(sys.argv[2]) if len(sys.argv) > 2 else 2000
    chance = random.Random(int(sys.argv[3]) if len(sys.argv) > 3 else 1)
    blink = (ROOT / "examples" / "blink.hex").read_bytes()
    image, line, kinds = folder / "fuzz.hex", line_to_read(), {}
    for number in range(count):
        text = damaged(chance, blink if chance.random() < 0.2 else text_of(chance))
        image.write_bytes(text)
        call = subprocess.run([ROOT / "bin" / "ice2", "replay", image, "1"], input=line, capture_output=True)
        said = (call.returncode, call.stdout, call.stderr)
        if said != wanted(text):
            print(f"text {number}, kept as {image}: {said[0]} {said[2]!r} for {wanted(text)[0]} {wanted(text)[2]!r}", file=sys.stderr)
            (folder / "fuzz.failed.hex").write_bytes(text)
            return 1
        kind = call.stderr.split()[1] if call.returncode else b"taken"
        kinds[kind] = kinds.get(kind, 0) + 1
    # each kind of answer came
    missing = {b"taken", b"record", b"sum", b"large", b"overlap"} - kinds.keys()
    if count >= 1000 and missing:
        print(f"no text was answered with {missing}", file=sys.stderr)
        return 1
    return 0


if __name__ == "__main__":
    sys.exit(main())

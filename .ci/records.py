"""Judges records of sessions by ice2: those of another debugger, which fit, and the same spoilt, which do not; and that of docs/RECORDS.md.

`records.py FOLDER [COUNT [SEED]]`: a record that is judged otherwise is kept in the folder. The other debugger, examples/shell.py with nothing
planted, shares no code with ice2. Prints nothing where all is well.
"""
import pathlib
import random
import re
import struct
import subprocess
import sys

from scripts import IMAGE, PARTS, ROOT, SECONDS, WORDS, good

from frames import MESSAGE_START, frame  # noqa: E402, behind scripts, which names its folder
from shell import RUNNING, Debugger, Wrong, read_line  # noqa: E402

SIGN_OFF, OKAY = b"\x00", b"\x80"
EVENTS = 0xFFFF  # the number of every event
CODES = {
    "sign": b"\x01", "set": b"\x02", "get": b"\x03", "write": b"\x04", "read": b"\x05", "go": b"\x08", "step": b"\x09", "stop": b"\x0a",
    "reset": b"\x0b", "sync": b"\x0f", "prog": b"\x14", "leave": b"\x15", "clear": b"\x1a", "to": b"\x1c",
}
SIGNED_ON = next(
    bytes.fromhex(found) for found in re.findall(r"^\| SIGN_ON \|[^|]*\| `([0-9A-F ]*)` \|$", (ROOT / "docs" / "PROTOCOL.md").read_text(), re.M)
)[8:-2]


class Plain(Debugger):
    """A debugger that plants nothing."""

    def planted(self, addresses):
        return self.program[:]


def body_of(name, values):
    """The body of a command."""
    if name == "pc":
        return b"\x06" + struct.pack("<I", *values) if values else b"\x07"
    if name == "erase":
        return b"\x0d" + struct.pack("<I", *values) if values else b"\x13"
    if name == "break":
        return struct.pack("<BBBIB", 0x11, 1, values[1] if len(values) > 1 else 0, values[0], 0)
    if name == "clear":
        return struct.pack("<BBI", 0x1A, values[1] if len(values) > 1 else 0, values[0])
    if name == "read":
        kind, address, count = values
        return struct.pack("<BBII", 5, kind, count, address)
    if name in ("write", "page"):
        kind, address, content = (0xB0, *values) if name == "page" else values
        return struct.pack("<BBII", 4, kind, len(content), address) + content
    if name == "to":
        return CODES[name] + struct.pack("<I", *values)
    return CODES[name] + b"".join(bytes([value]) if isinstance(value, int) else value for value in values)


def answer_of(name, lines):
    """The body of an answer, by the lines of the other shell."""
    if name == "read" and not (lines and lines[0].startswith("refused")):
        return b"\x82" + bytes.fromhex("".join(line.split()[1] for line in lines))
    word, *rest = lines[0].split()
    if word == "refused":
        return bytes.fromhex(rest[0])
    if word == "value":
        return b"\x81" + bytes.fromhex(rest[0])
    if word == "pc":
        return b"\x84" + struct.pack("<I", int(rest[0], 16))
    return SIGNED_ON if word == "sign" else OKAY


class Session:
    """A session under way, with the lines of its record."""

    def __init__(self, chance, debugger):
        self.chance, self.debugger = chance, debugger
        self.lines, self.number, self.made = [], 0, 0  # the steps of the run that is out

    def numbered(self, body):
        self.number = (self.number + 1) % EVENTS
        return self.number, frame(self.number, body)

    def give(self, content):
        """Bytes come in, in some pieces, at times behind junk: the last byte makes a frame whole."""
        chance = self.chance
        if chance.random() < 0.1:
            content = bytes(chance.choice([0, 0x0E, 0x1A, 0xFF]) for _ in range(chance.randint(1, 9))) + content
        cuts = sorted(chance.sample(range(1, len(content)), chance.choice([0, 0, 0, 1, 2])))
        for start, end in zip([0, *cuts], [*cuts, len(content)]):
            self.lines.append(f"in {content[start:end].hex()}")
            if end < len(content):
                self.lines.append("out -")

    def event(self):
        address, cause = self.debugger.events.popleft()
        return cause, frame(EVENTS, struct.pack("<BIB", 0xE0, address, cause))

    def answer(self, number, name, values):
        """What a command that was heard is answered, and the end of its run."""
        debugger = self.debugger
        before, was_out = debugger.target.steps, debugger.mode == RUNNING
        sent = frame(number, answer_of(name, debugger.answer(name, values)))
        steps = debugger.target.steps - before
        if name in ("go", "to") and not was_out:
            self.made = steps
        if not debugger.events:
            self.lines.append(f"out {sent.hex()}")
        elif name in ("go", "to") or was_out:
            cause, event = self.event()
            self.lines += [f"out {sent.hex()}", f"halt {cause:02} {self.made}", f"out {event.hex()}"]
        else:
            self.lines.append(f"out {(sent + self.event()[1]).hex()}")

    def ask(self, name, values):
        number, content = self.numbered(body_of(name, values))
        self.give(content)
        self.answer(number, name, values)

    def ask_two(self):
        """Two frames inside a damaged one: the second waits behind the first."""
        (first, one), (second, other) = self.numbered(body_of("sync", [])), self.numbered(body_of("sign", []))
        outer = bytearray(frame(7, one + other))
        outer[-1] ^= 0xFF
        if MESSAGE_START in outer[-2:]:  # a frame would seem to begin there
            self.number -= 2
            return
        self.lines.append(f"in {outer.hex()}")
        self.answer(first, "sync", [])
        self.lines.append("in -")
        self.answer(second, "sign", [])

    def end(self):
        """A sign-off, or the end of the line; and that of the run that is out."""
        if self.chance.random() < 0.7:
            number, content = self.numbered(SIGN_OFF)
            self.give(content)
            self.lines.append(f"out {frame(number, OKAY).hex()}")
        else:
            self.lines += ["end", "out -"]
        if self.debugger.mode == RUNNING:
            self.lines += [f"halt 02 {self.made}", "out -"]


def made(chance, part):
    """The lines of the record of a session."""
    session = Session(chance, Plain(part, WORDS, [chance.choice([1, 2, 3, 10, 50, 200, 800]) for _ in range(3)]))
    for _ in range(chance.randrange(1, 40)):
        if chance.random() < 0.05:
            session.ask_two()
            continue
        try:
            said = read_line(good(chance, session).encode())
        except Wrong:
            continue
        if said is not None and said[0] not in ("wait", "quit"):
            session.ask(*said)
    session.end()
    return session.lines


def spoilt(chance, lines):
    """The record as a slip would have it, and what is then said of it."""
    lines, pick = lines[:], chance.randrange(4)
    told_bytes = [at for at, line in enumerate(lines) if line.startswith("out ") and line != "out -"]
    if pick == 0 and told_bytes:
        at = chance.choice(told_bytes)
        digit = chance.randrange(4, len(lines[at]))
        lines[at] = lines[at][:digit] + f"{(int(lines[at][digit], 16) + chance.randint(1, 15)) % 16:x}" + lines[at][digit + 1:]
        return lines, f"no {at + 1}"
    at = chance.randrange(len(lines) - 1)
    if pick == 1:
        del lines[at]
    elif pick == 2:
        lines[at], lines[at + 1] = lines[at + 1], lines[at]
    else:
        return lines[:-1], f"no {len(lines)}"
    return lines, f"bad {at + 1}"


def is_judged(folder, label, words, lines, wanted):
    text = "".join(f"{line}\n" for line in lines).encode()
    call = subprocess.run([ROOT / "bin" / "ice2", "verify", *words], input=text, capture_output=True, timeout=SECONDS)
    if (call.stdout.decode(), call.returncode, call.stderr) == (wanted + "\n", 0 if wanted == "yes" else 14, b""):
        return True
    (folder / "failed.record").write_bytes(text)
    print(f"record {label}, kept as {folder / 'failed.record'}: {call.returncode} {call.stdout!r} {call.stderr!r} for {wanted!r}", file=sys.stderr)
    return False


def run(folder, chance, number):
    name = chance.choice(["m16", "m16", "m32"])
    words = [str(IMAGE), *([name] if name == "m32" else chance.choice([[], ["m16"]]))]
    lines = made(chance, PARTS[name])
    return is_judged(folder, number, words, lines, "yes") and is_judged(folder, f"{number}, spoilt", words, *spoilt(chance, lines))


def as_the_page_says(folder):
    """The record of docs/RECORDS.md fits the page's program, and spoilt as the page says it does not."""
    page = (ROOT / "docs" / "RECORDS.md").read_text()
    lines = re.findall(r"^\| \d+ \| `([^`]*)` \|", page, re.M)
    image = folder / "port.bin"
    image.write_bytes(bytes.fromhex("".join(re.findall(r"\\x([0-9a-f]{2})", page))))
    words = [str(image)]

    def other(number, old, new):
        return [line.replace(old, new) if at == number else line for at, line in enumerate(lines, 1)]

    return (
        len(lines) == 12
        and is_judged(folder, "of the page", words, lines, "yes")
        and is_judged(folder, "of the page, line 8", words, other(8, "08bb", "9895"), "no 8")
        and is_judged(folder, "of the page, line 5", words, other(5, "halt 01 2", "halt 01 3"), "no 5")
        and is_judged(folder, "of the page, line 5", words, other(5, "halt 01 2", "halt 1 2"), "bad 5")
        and is_judged(folder, "of the page, cut", words, lines[:-2], "no 11")
    )


def main():
    folder = pathlib.Path(sys.argv[1])
    count = int(sys.argv[2]) if len(sys.argv) > 2 else 500
    chance = random.Random(int(sys.argv[3]) if len(sys.argv) > 3 else 1)
    return 0 if as_the_page_says(folder) and all(run(folder, chance, number) for number in range(count)) else 1


if __name__ == "__main__":
    sys.exit(main())

"""Throws texts of the assembler, good and bad, at `ice2 asm`, and compares what it writes and says with an assembler of its own.

`assembly.py texts FOLDER [COUNT [SEED]]` does so; a text that is answered otherwise is kept in the folder. `assembly.py images FOLDER` lists
every image of examples/, and two of words in no order, and assembles the listing: the image comes again. The other assembler,
examples/assembler.py, shares no code with ice2. The program is $ICE2, or bin/ice2. Prints nothing where all is well.
"""
import os
import pathlib
import random
import struct
import subprocess
import sys

ROOT = pathlib.Path(__file__).resolve().parent.parent
sys.path.insert(0, str(ROOT / "examples"))

from assembler import ALIASES, MOST, REGISTERS, TABLE, TWICE, WORDS, assemble  # noqa: E402

PROGRAM = os.path.abspath(os.environ.get("ICE2") or ROOT / "bin" / "ice2")
SECONDS = 60  # of one call, at most
ROWS = [row for some in TABLE.values() for row in some]
KINDS = {"text", "value", "twice", "place", "overlap", "name", "far"}
COMMENTS = ["", "", "", ";", "; a word, and : another", ";;", "\t; nop"]


def call(words, given=b""):
    return subprocess.run([PROGRAM, *map(str, words)], input=given, capture_output=True, timeout=SECONDS, check=False)


def spelled(chance, value):
    """A number as one may write it."""
    return chance.choice([str(value), str(value), f"0x{value:x}", f"0x{value:02X}", f"0x{value:08x}"])


def label_of(chance, labels):
    """A label that the text has, or will have, or has not."""
    return chance.choice(labels) if chance.random() < 0.98 else "nowhere"


def distance(chance, count, labels):
    if chance.random() < 0.5:
        return label_of(chance, labels)
    away = chance.choice([0, 1, 2, count // 2 - 1, chance.randrange(count // 2)])
    return chance.choice([f".+{spelled(chance, away)}", f".-{spelled(chance, chance.choice([away, count // 2]))}"])


def operand(chance, kind, bits, part, labels):
    """A word that is an operand of a kind."""
    count = 1 << bits.count(kind[-1])
    value = chance.choice([0, count - 1, chance.randrange(count)])
    if kind[0] in REGISTERS and len(kind) == 2:
        first, apart = REGISTERS[kind[0]]
        return f"r{first + apart * value}"
    if kind[0] == "#":
        return spelled(chance, value)
    if kind[1:] == "+q":
        return kind[:2] + spelled(chance, value)
    if kind[0] == ".":
        return distance(chance, count, labels)
    if kind[0] in "@*":
        most = 0x10000 if kind[0] == "@" else WORDS[part]
        return label_of(chance, labels) if chance.random() < 0.5 else spelled(chance, chance.choice([0, most - 1, chance.randrange(most)]))
    return kind


def blanks(chance, least=0):
    return "".join(chance.choice(" \t") for _ in range(chance.choice([least, least, 1, 3])))


def statement(chance, part, labels):
    """A statement that is one of the grammar."""
    pick = chance.random()
    if pick < 0.07:
        name, operands = ".word", [spelled(chance, chance.choice([0, 0xFFFF, 0x9598, chance.randrange(0x10000)]))]
    elif pick < 0.2:
        name = chance.choice([*ALIASES, *TWICE])
        operands = [f"r{chance.randrange(32)}"] if name in TWICE else [] if name in ("sei", "cli") else [distance(chance, 128, labels)]
    else:
        row = chance.choice(ROWS)
        name, operands = row.name, [operand(chance, kind, row.bits, part, labels) for kind in row.kinds]
    commas = f"{blanks(chance)},{blanks(chance)}"
    return name + (" " + blanks(chance) + commas.join(operands) if operands else "")


def origin(chance, part, place):
    """An `.org` behind the words so far, most often near."""
    end = WORDS[part]
    return f".org {spelled(chance, min(place + chance.choice([0, 1, 40, 70, 2100]), chance.choice([end - 1, end - 1, end])))}"


def spoilt(chance, line):
    """The line as a slip would have it."""
    pick = chance.randrange(7)
    at = chance.randrange(len(line) + 1)
    if pick == 0:
        return line[:at] + line[at + 1 :]
    if pick == 1:
        return line[:at] + chance.choice(" ,:;+-.rx0\r\x00\xb2") + line[at:]
    if pick == 2:
        return line.replace(",", " ", 1) if "," in line else line + ", r0"
    if pick == 3:
        return line.replace("r", "R", 1)
    if pick == 4:
        return chance.choice(["ldi r15, 1", "adiw r25, 1", "movw r1, r2", "in r0, 64", "sbi 32, 0", "bset 8", "ldi r16, 256", "rjmp .+2048",
                              "rjmp .-2049", "brne .+64", "ldd r0, Y+64", ".word 65536", "jmp 0x4000", "lds r0, 65536", "mov r0, r32"])
    if pick == 5:
        return chance.choice(["ld r0, Y", "st Z, r0", "lpm r0", "ser r16", "nop 1", "sei 7", "clr", "lsl r0, r0", ".org", ".word 1, 2", ".byte 1",
                              "ldi r16 1", "ldi r16, 010", "mov r01, r0", "rjmp 5", "jmp .+1", "0a: nop", "a b: nop", ": nop", "a : nop", "a::",
                              "ldi r16, 0x123456789", "ldi r16, 0x", "push -1", "b" * 32 + ":", "c" * 31 + ":", "NOP", ".org -1"])
    return chance.choice([".org 0", ".org 1", f".org {chance.randrange(0x5000)}", "nop"])


def text(chance, part):
    """Lines that are most often good, or of which one or more have a slip."""
    count = chance.choice([1, 3, 10, 30, 60])
    labels = [f"l{number}" for number in range(count)] or ["l0"]
    slips = 0 if chance.random() < 0.4 else 1.5 / count
    far = chance.random() < 0.1
    lines, place = [], 0
    for number in range(count):
        head = blanks(chance) + (labels[number] + ":" + blanks(chance))
        if chance.random() < (0.3 if far else 0.05):
            line, place = origin(chance, part, place), place + 2100 if far else place + 70
        else:
            line, place = (statement(chance, part, labels), place + 2) if chance.random() < 0.9 else ("", place)
        if chance.random() < slips:
            line = spoilt(chance, line)
        if chance.random() < slips / 8:
            head = f"{chance.choice(labels)}: "
        lines.append(head + line + blanks(chance) + chance.choice(COMMENTS))
    ends = [chance.choice(["\n", "\n", "\r\n"]) for _ in lines]
    if chance.random() < 0.3:
        ends[-1] = chance.choice(["", "\r"])
    return "".join(line.replace("\n", "") + end for line, end in zip(lines, ends))


def fault_of(content, part, words):
    """How `ice2 asm` answers a text, in a word, and what of it is not as the other assembler says, or nothing."""
    image, note = assemble(content, part)
    called = call(["asm", *words], content.encode("latin-1"))
    seen = called.returncode, called.stdout, called.stderr.decode()
    wanted = (0, image, "") if note is None else (3, b"", note + "\n")
    kind = "good" if note is None else note.split()[-1]
    return kind, None if seen == wanted else f"{seen[0]}, {seen[1][:40]!r}, {seen[2]!r} for {wanted[0]}, {(wanted[1])[:40]!r}, {wanted[2]!r}"


def texts(folder, count, seed):
    chance = random.Random(seed)
    kinds = set()
    # as many bytes as a text may have, and one more; and the rows of a page, each in a text of its own
    whole = [" " * MOST, " " * (MOST + 1), "\n" * MOST, "", "nop\r", "nop\r\n", "a:\n.org 0\n", "jmp end\n.org 8191\nnop\nend:", "nop\n.org 0\nnop"]
    for number in range(count + len(whole)):
        part = chance.choice(["m16", "m16", "m32"])
        words = [part] if part == "m32" else chance.choice([[], ["m16"]])
        content = whole[number] if number < len(whole) else text(chance, part)
        kind, fault = fault_of(content, part, words)
        kinds.add(kind)
        if fault:
            (folder / "failed.asm").write_bytes(content.encode("latin-1"))
            return f"text {number}, kept as {folder / 'failed.asm'}, {words}: {fault}"
    missing = (KINDS | {"good", "large"}) - kinds
    return f"no text was answered so: {missing}" if missing and count >= 1000 else None


def raw(path):
    """The words of an image, without those at its end that are erased."""
    content = path.read_bytes()
    if path.suffix == ".hex":
        flash = bytearray(b"\xff" * 65536)
        for line in content.split():
            record = bytes.fromhex(line[1:].decode())
            if record[3] == 0:
                start = record[1] * 256 + record[2]
                flash[start : start + record[0]] = record[4:-1]
        content = bytes(flash)
    while content.endswith(b"\xff\xff"):
        content = content[:-2]
    return content


def images(folder, *_):
    chance = random.Random(1)
    cases = [(path, part) for path in sorted(ROOT.glob("examples/**/*.bin")) + sorted(ROOT.glob("examples/**/*.hex")) for part in WORDS]
    for part, size in WORDS.items():
        made = folder / f"order.{part}.bin"
        made.write_bytes(struct.pack(f"<{size}H", *(chance.randrange(65536) for _ in range(size))))
        cases.append((made, part))
    for path, part in cases:
        image = raw(path)
        if len(image) > 2 * WORDS[part]:
            continue
        listing = call(["list", path, part])
        again = call(["asm", part], listing.stdout)
        if (again.returncode, again.stdout, again.stderr) != (0, image, b""):
            return f"{path} {part}: listed and assembled it is another: {again.returncode}, {again.stderr!r}"
    return None if len(cases) > 10 else "no images"


def main():
    check, folder = sys.argv[1], pathlib.Path(sys.argv[2])
    count = int(sys.argv[3]) if len(sys.argv) > 3 else 2000
    seed = int(sys.argv[4]) if len(sys.argv) > 4 else 1
    fault = {"texts": texts, "images": images}[check](folder, count, seed)
    if fault:
        print(fault, file=sys.stderr)
        return 1
    return 0


if __name__ == "__main__":
    sys.exit(main())

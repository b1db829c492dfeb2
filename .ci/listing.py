"""Compares the listings of ice2 with the disassembler of binutils for AVR.

`listing.py FOLDER`: made images go to the folder. The images are those of examples/ and two of words in no order, of the size of each part.
Each place of an image is shown to avr-objdump by itself, so that what is read at one place does not move the next. Its texts are
rewritten by the differences that docs/DECISIONS.md names, and by no other, and the places are walked by its lengths. Prints nothing
where all is well.
"""
import pathlib
import random
import re
import struct
import subprocess
import sys

ROOT = pathlib.Path(__file__).resolve().parent.parent
WORDS = {"m16": 8192, "m32": 16384}
ERASED = 0xFFFF

# The bits of SREG as the names of BSET, BCLR, BRBS and BRBC for each of them have them.
FLAGS = "cznvshti"
BRANCHES = {
    "brcs": ("brbs", 0), "breq": ("brbs", 1), "brmi": ("brbs", 2), "brvs": ("brbs", 3),
    "brlt": ("brbs", 4), "brhs": ("brbs", 5), "brts": ("brbs", 6), "brie": ("brbs", 7),
    "brcc": ("brbc", 0), "brne": ("brbc", 1), "brpl": ("brbc", 2), "brvc": ("brbc", 3),
    "brge": ("brbc", 4), "brhc": ("brbc", 5), "brtc": ("brbc", 6), "brid": ("brbc", 7),
}

# What only larger parts have.
LARGER = {"eijmp", "eicall", "des", "elpm", "xch", "las", "lac", "lat"}


def raw_words(content):
    """The words of a raw image."""
    return list(struct.unpack(f"<{len(content) // 2}H", content))


def record_words(text):
    """The words of an image in Intel HEX whose records lie below 64 KiB."""
    flash = bytearray(b"\xff" * 65536)
    for line in text.split():
        record = bytes.fromhex(line[1:])
        if record[3] == 0:
            start = record[1] * 256 + record[2]
            flash[start : start + record[0]] = record[4:-1]
    return raw_words(bytes(flash))


def disassembled(words, folder):
    """What the disassembler makes of each place: how many words, the mnemonic, and its operands."""
    code = b"".join(struct.pack("<3H", word, second, 0) for word, second in zip(words, words[1:] + [ERASED]))
    path = folder / "places.bin"
    path.write_bytes(code)
    command = ["avr-objdump", "-D", "-z", "-b", "binary", "-m", "avr5", path]
    lines = subprocess.run(command, capture_output=True, check=True, text=True).stdout.splitlines()
    places = {}
    for line in lines:
        found = re.match(r"\s*([0-9a-f]+):\t((?:[0-9a-f]{2} )+)\s*\t([^\t;]+)(?:\t([^;]*))?", line)
        if found and int(found[1], 16) % 6 == 0:
            operands = [operand.strip() for operand in (found[4] or "").split(",") if operand.strip()]
            places[int(found[1], 16) // 6] = (len(found[2].split()) // 2, found[3].strip(), operands)
    return [places[place] for place in range(len(words))]


def line_of(place, words, said):
    """The line of a place by the disassembler, and how many words it stands for."""
    count, name, operands = said
    alone = f".word 0x{words[place]:04x}", 1
    if name == ".word" or name in LARGER or (name == "spm" and operands) or place + count > len(words):
        return alone
    if name in ("jmp", "call"):
        address = int(operands[0], 0) // 2
        if address >= len(words):
            return alone
        operands = [f"0x{address:04x}"]
    elif name[:2] == "se" and name[2:] in FLAGS and not operands:
        name, operands = "bset", [str(FLAGS.index(name[2:]))]
    elif name[:2] == "cl" and name[2:] in FLAGS and not operands:
        name, operands = "bclr", [str(FLAGS.index(name[2:]))]
    elif name in BRANCHES:
        name, bit = BRANCHES[name]
        operands = [str(bit)] + operands
    elif name == "ld" and operands[1] in ("Y", "Z"):
        name, operands = "ldd", [operands[0], operands[1] + "+0"]
    elif name == "st" and operands[0] in ("Y", "Z"):
        name, operands = "std", [operands[0] + "+0", operands[1]]
    operands = [written(operand) for operand in operands]
    return (f"{name} {', '.join(operands)}" if operands else name), count


def written(operand):
    """An operand as ice2 writes it: distances count words, and hexadecimal digits are in lower case."""
    if operand.startswith("."):
        return f"{operand[:2]}{int(operand[2:]) // 2}"
    return operand.lower() if operand.startswith("0x") else operand


def listing(words, size, folder):
    """The listing of an image for a part with so many words."""
    words = words[:size] + [ERASED] * (size - len(words))
    used = max((place + 1 for place, word in enumerate(words) if word != ERASED), default=0)
    said = disassembled(words, folder)
    lines, place = [], 0
    while place < used:
        line, count = line_of(place, words, said[place])
        lines.append(line)
        place += count
    return lines


def agrees(image, words, part, folder):
    """Whether ice2 lists the image for the part as the disassembler does; tells the first line that it does not."""
    call = [ROOT / "bin" / "ice2", "list", image, part]
    called = subprocess.run(call, capture_output=True, text=True)
    if called.returncode or called.stderr:
        print(f"{image} {part}: status {called.returncode}, {called.stderr}", file=sys.stderr)
        return False
    wanted = listing(words, WORDS[part], folder)
    got = called.stdout.splitlines()
    for number, (ours, theirs) in enumerate(zip(got + [None], wanted + [None]), 1):
        if ours != theirs:
            print(f"{image} {part}: line {number} is {ours}, by avr-objdump {theirs}", file=sys.stderr)
            return False
    return True


def main():
    folder = pathlib.Path(sys.argv[1])
    examples = ROOT / "examples"
    blink, clock, tone = examples / "blink.bin", examples / "clock.bin", examples / "tone.hex"
    cases = [(image, raw_words(image.read_bytes()), part) for image in (blink, clock) for part in WORDS]
    cases += [(examples / "blink.hex", raw_words(blink.read_bytes()), part) for part in WORDS]
    cases.append((tone, record_words(tone.read_text()), "m32"))
    chance = random.Random(1)
    for part, size in WORDS.items():
        words = [chance.randrange(65536) for _ in range(size)]
        # A jump whose second word is behind the end.
        words[-1] = 0x940C
        made = folder / f"{part}.bin"
        made.write_bytes(struct.pack(f"<{size}H", *words))
        cases.append((made, words, part))
    return 0 if all([agrees(image, words, part, folder) for image, words, part in cases]) else 1


if __name__ == "__main__":
    sys.exit(main())

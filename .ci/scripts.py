"""Throws scripts of the shell, good and bad, at ice2, and compares what it prints, line by line, with a shell of its own.

`scripts.py FOLDER [COUNT [SEED]]`: a script that is answered otherwise is kept in the folder. The other shell, examples/shell.py, shares
no code with ice2. Prints nothing where all is well.
"""
import pathlib
import random
import re
import struct
import subprocess
import sys

ROOT = pathlib.Path(__file__).resolve().parent.parent
sys.path.insert(0, str(ROOT / "examples"))

from shell import FORMS, SPACES, Script, Wrong, lines_of, read_line  # noqa: E402
from target import M16, M32  # noqa: E402

IMAGE = ROOT / "examples" / "clock.bin"
BYTES = IMAGE.read_bytes()
WORDS = struct.unpack(f"<{len(BYTES) // 2}H", BYTES)
PARTS = {"m16": M16, "m32": M32}
SECONDS = 60  # of one call, at most

# what a line that was read may print where it is not refused; every other one prints `ok`
ANSWERS = {
    "sign": r"sign JTAGICEmkII\n", "get": r"value ([0-9a-f]{2})+\n", "pc": r"pc [0-9a-f]{4}\n|ok\n",
    "read": r"(([0-9a-f]{4,8} [0-9a-f]{32}\n)*[0-9a-f]{4,8} ([0-9a-f]{2}){1,16}\n)?", "wait": r"event [0-9a-f]{4} cause 0[1-7]\n",
}
REFUSED = r"refused a[0-9a-f]\n"
WRONG = r"\? (long|(unknown|missing|value|extra) [1-9][0-9]*)\n"
LAST = r"! (closed|events full)\n"

# where the listing of the clock has something to see, and the edges of both flashes
PLACES = [0, 1, 6, 8, 0x12, 0x14, 0x26, 0x2A, 0x2F, 0x3D, 0x43, 0x49, 0x4A, 0x4B, 0x63, 0x74, 0x8B, 0x96, 0x97, 0x98, 0x99, 0x9B, 0x9C,
          0xA5, 0xA9, 0xAA, 0xAC, 0xBF, 0xC0, 0xC2, 0xC3, 0x1FFF, 0x2000, 0x3FFF, 0x4000, 0xFFFFFFFF]
# a scratch of the data space, I/O registers, variables, the stack, and the edges
DATA = [0, 0x18, 0x1E, 0x32, 0x38, 0x5D, 0x5F, 0x60, 0x6C, 0x6D, 0x45C, 0x45F, 0x460, 0x85F, 0xFFF0, 0xFFFF, 0x10000, 0xFFFFFFFF]
REGISTERS = [0x0B, 0x0C, 0x12, 0x15, 0x16, 0x18, 0x1B, 0x1C, 0x23, 0x24, 0x25, 0x32, 0x33, 0x38, 0x39, 0x3C, 0x3D, 0x3E, 0x3F, 0x40]
KEYS = [1, 2, 3, 5, 6, 7, 9, 0x13, 0x14, 0x15, 0x1A, 0x1B, 0x1C, 0, 4, 0xFF]


def spelled(chance, value):
    """A number with digits of some case, and zeros in front at times."""
    word = f"{value:x}" if chance.random() < 0.8 else f"{value:0{chance.randrange(1, 9)}x}"
    return chance.choice([word, word, word.upper()])


def content(chance, least=1, most=4):
    some = chance.randbytes(chance.randint(least, most))
    return chance.choice([some, bytes(len(some)), b"\x01" * len(some)]).hex()


def page(chance):
    """128 bytes of the clock from some place on, with a BREAK or an empty word at some places."""
    start = 2 * chance.randrange(len(WORDS))
    words = bytearray(BYTES[start:start + 128].ljust(128, b"\xff"))
    for _ in range(chance.choice([0, 0, 1, 3])):
        at = 2 * chance.randrange(64)
        words[at:at + 2] = chance.choice([b"\x98\x95", b"\xff\xff", b"\x00\x00"])
    return words.hex()


def operands(chance, name, debugger):
    """Operands that go with the first word, though not always with the state of the tool."""
    is_set = name == "clear" and debugger.soft and chance.random() < 0.6
    place = spelled(chance, chance.choice(sorted(debugger.soft) if is_set else PLACES + [chance.randrange(len(WORDS))]))
    start = spelled(chance, chance.choice([0, 0x80, 0x100, 0x17F, 0x180, 0x3F80, 0x3FFF, 0x4000, 0x7F80, 0x8000]))
    data, register = (spelled(chance, chance.choice(some)) for some in (DATA, REGISTERS))
    if name in ("pc", "to"):
        return [] if name == "pc" and chance.random() < 0.6 else [place]
    if name in ("break", "clear"):
        return [place] if chance.random() < 0.7 else [place, spelled(chance, chance.choice([0, 1, 2, 3, 4, 5, 0xFF]))]
    if name == "get":
        return [spelled(chance, chance.choice(KEYS))]
    if name == "set":
        return [spelled(chance, chance.choice(KEYS)), chance.choice(["01", "00", "08", "09", "00000000", "0100", content(chance, 1, 64)])]
    if name == "read":
        which = chance.choice(["sram", "sram", "io", *SPACES])
        at = {"sram": data, "io": register, "flash": start, "page": start}.get(which, spelled(chance, chance.randrange(4)))
        return [which, at, spelled(chance, chance.choice([0, 1, 1, 2, 3, 15, 16, 17, 40, 0x1000]))]
    if name == "write":
        return ["sram", data, content(chance)] if chance.random() < 0.5 else ["io", register, content(chance, 1, 2)]
    if name == "erase":
        return [] if chance.random() < 0.3 else [start]
    return [start, page(chance)] if name == "page" else []


def good(chance, script):
    """A line that is read, and most often goes with the state of the tool."""
    debugger = script.debugger
    if debugger.events and chance.random() < 0.35:
        return "wait"
    names = list(FORMS) + ["go", "step", "break", "read", "write", "to"]
    names += {1: ["stop", "stop", "stop", "get"], 2: ["erase", "page", "page", "leave", "leave", "read"]}.get(debugger.mode, ["go", "step"])
    name = chance.choice(names)
    if name in ("wait", "quit") and chance.random() < 0.9:
        name = "sync"
    return " ".join([name, *operands(chance, name, debugger)])


def spoilt(chance, line):
    """The line as a slip would have it."""
    words = line.split(" ")
    pick = chance.randrange(8)
    if pick == 0:
        words[0] = chance.choice([words[0].upper(), words[0][:-1], words[0] + "s", "?", "0", "\x00", "\xff\xfe", "\x0b", "go#"])
    elif pick == 1:
        del words[-1]
    elif pick == 2:
        words.insert(chance.randrange(len(words) + 1), chance.choice(["0", "7", "sram", "ff", "#", "x"]))
    elif pick == 3:
        words[-1] += chance.choice(["0", "g", "00000000", "\r", "\x00", "-", "h"])
    elif pick == 4:
        words[-1] = chance.choice(["0x10", "100000000", "000000001", "1001", "+1", "1_0", "e", "\xb2", "eeprom", "Sram", "", "01" * 65])
    elif pick == 5:
        return line + " " * chance.choice([1, 316, 317, 318, 319, 320, 321]) + chance.choice(["", "", "x"])
    elif pick == 6:
        at = chance.randrange(len(line) + 1)
        return line[:at] + chance.choice(" \t\r#g0\x00") + line[at + chance.randrange(2):]
    else:
        return "# " + line
    return " ".join(words)


def spaced(chance, line):
    """The line with blanks that say nothing, or an empty line ahead of it."""
    pick = chance.random()
    if pick < 0.1:
        return line.replace(" ", chance.choice(["  ", "\t", " \t "]))
    if pick < 0.2:
        return chance.choice([" ", "\t\t"]) + line + chance.choice(["", " ", "\t"])
    return line


def line_of(chance, script):
    """The next line, without its end, by what the other shell made of those before."""
    if chance.random() < 0.05:
        return chance.choice(["", " ", "#", "\t# go", "#" * 320, "#" * 321])
    line = good(chance, script)
    return spoilt(chance, line) if chance.random() < 0.2 else spaced(chance, line)


def opening(chance):
    """Lines that a script may begin with: more events than are kept, or breakpoints in the loop that waits for timer 0."""
    pick = chance.random()
    if pick < 0.1:
        return [chance.choice(["step", "step", "reset"]) for _ in range(chance.choice([62, 63, 64, 65, 66, 70]))]
    if pick < 0.2:
        return ["to 97", f"write io 32 {chance.randrange(0xF8, 0x100):x}", "break 97", "break 99", "break 9a", *["go"] * 9]
    return []


def made(chance, script):
    """The lines of a script, each with its end, and what each that is run prints."""
    lines, said = [], []
    begun, more = opening(chance), chance.randrange(1, 60)
    for number in range(len(begun) + more):
        line = begun[number] if number < len(begun) else line_of(chance, script)
        is_last = number + 1 == len(begun) + more
        end = chance.choice([b"\n", b"\n", b"\n", b"\r\n"] + ([b"", b"\r"] if is_last else []))
        lines.append(line.replace("\n", "").encode("latin-1") + end)
        if script.status is None:
            said += [(bare, script.say(bare)) for bare in lines_of(lines[-1])]
    return lines, said


def form_of(line):
    """The form of what a line may print, and the name of its kind."""
    try:
        said = read_line(line)
    except Wrong:
        return WRONG, "wrong"
    if said is None:
        return "", "nothing"
    return f"({ANSWERS.get(said[0], 'ok' + chr(10))}|{REFUSED}|{LAST})", said[0]


def seen(kind, told):
    """Which of the answers to lines of a kind this is: what is wrong, the refusal, how the script ended, or the cause of an event."""
    if kind == "wrong":
        return told.split()[1]
    if told.startswith(("refused", "!")):
        return told.rstrip()
    return told[-3:-1] if kind == "wait" else ""


def first_difference(said, printed):
    """The first line that printed something else, or nothing where the text goes on behind the last one."""
    for number, (line, told) in enumerate(said, 1):
        if not printed.startswith(told):
            return f"line {number} {line!r}: {printed[:len(told) + 40]!r} for {told!r}"
        printed = printed[len(told):]
    return f"behind the last line: {printed[:60]!r}"


def fault_of(call, script, said):
    """What of a call is not as the other shell says, or nothing."""
    printed, notes = call.stdout.decode("latin-1"), script.notes()
    if printed != "".join(told for _, told in said):
        return first_difference(said, printed)
    if (call.returncode, call.stderr.decode()) != (script.status or 0, notes):
        return f"status {call.returncode}, {call.stderr!r} for {script.status or 0}, {notes!r}"
    wrong = [(line, told) for line, told in said if not re.fullmatch(form_of(line)[0], told)]
    return f"line {wrong[0][0]!r} prints {wrong[0][1]!r}, which is of another form" if wrong else None


def run(folder, chance, number, kinds):
    """One script; whether all was as told."""
    name = chance.choice(["m16", "m16", "m16", "m32"])
    stops = [chance.choice([1, 2, 3, 10, 50, 50, 200, 800]) for _ in range(chance.choice([1, 1, 2, 3]))]
    script = Script(WORDS, stops, PARTS[name])
    lines, said = made(chance, script)
    words = ["script", str(IMAGE), ",".join(map(str, stops)), *([name] if name == "m32" else chance.choice([[], ["m16"]]))]
    call = subprocess.run([ROOT / "bin" / "ice2", *words], input=b"".join(lines), capture_output=True, timeout=SECONDS)
    fault = fault_of(call, script, said)
    if fault:
        (folder / "failed.script").write_bytes(b"".join(lines))
        print(f"script {number}, kept as {folder / 'failed.script'}, {' '.join(words)}: {fault}", file=sys.stderr)
    for line, told in said:
        kind = form_of(line)[1]
        kinds.add((kind, seen(kind, told)))
    kinds.add(("status", call.returncode))
    return fault is None


def as_the_page_says():
    """The lines of docs/SHELL.md are the forms of the other shell, by how many operands each first word has."""
    table = (ROOT / "docs" / "SHELL.md").read_text().split("| Line |")[1].split("\n\n")[0]
    counts = {}
    for name, *words in (found.split() for found in re.findall(r"^\| `([^`]*)`", table, re.M)):
        counts.setdefault(name, []).append(len(words))
    wanted = {name: sorted({least, len(kinds)}) for name, (kinds, least) in FORMS.items()}
    return counts == wanted


def missing(kinds):
    """The kinds of answers that did not come."""
    wanted = {("wrong", text) for text in ("long", "unknown", "missing", "value", "extra")}
    wanted |= {(name, "") for name in FORMS if name != "wait"} | {("wait", f"0{cause}") for cause in range(1, 7)}
    wanted |= {(name, "refused a5") for name in FORMS if name not in ("sign", "sync", "get", "set", "wait", "quit")}
    wanted |= {(name, f"refused {code}") for name, code in [
        ("get", "a1"), ("set", "a1"), ("set", "a6"), ("read", "a2"), ("read", "a3"), ("write", "a2"), ("write", "a3"), ("pc", "a3"),
        ("break", "a8"), ("clear", "a8"), ("to", "a8"), ("page", "a2"), ("page", "a3"), ("erase", "a3")]}
    wanted |= {("wait", "! closed"), ("step", "! events full"), ("status", 0), ("status", 11), ("nothing", "")}
    return wanted - kinds


def main():
    folder = pathlib.Path(sys.argv[1])
    count = int(sys.argv[2]) if len(sys.argv) > 2 else 2000
    chance = random.Random(int(sys.argv[3]) if len(sys.argv) > 3 else 1)
    kinds = set()
    if not as_the_page_says():
        print("docs/SHELL.md has other lines", file=sys.stderr)
        return 1
    if not all(run(folder, chance, number, kinds) for number in range(count)):
        return 1
    if count >= 1000 and missing(kinds):
        print(f"no line was answered so: {missing(kinds)}", file=sys.stderr)
        return 1
    return 0


if __name__ == "__main__":
    sys.exit(main())

"""Compares the blocks of docs/TUTORIAL.md with what they show: examples/first.asm and its listing, and of first and of clock the script, the
transcript and the notes, line by line and in order.

`tutorial.py [ELF]`: with the compiled clock, the lines of its listing and of its names too. It shares no code with ice2: which printed
line belongs to which typed one is told by examples/shell.py, and the image of a text by examples/assembler.py. Prints nothing where all is
well.
"""
import pathlib
import re
import struct
import subprocess
import sys

ROOT = pathlib.Path(__file__).resolve().parent.parent
sys.path.insert(0, str(ROOT / "examples"))

from assembler import assemble  # noqa: E402
from shell import Script, dialogue  # noqa: E402

STOPS = {"first": 1000, "clock": 20000}


def blocks(page, name):
    """The lines of all blocks of one name."""
    return [line for block in re.findall(rf"^```{name}\n(.*?)^```$", page, re.M | re.S) for line in block.splitlines()]


def example(name):
    return (ROOT / "examples" / name).read_text()


def session(name):
    """The lines of a script that do something, each with `> ` in front and with what it prints, and all that is printed."""
    image = (ROOT / "examples" / f"{name}.bin").read_bytes()
    script = Script(struct.unpack(f"<{len(image) // 2}H", image), [STOPS[name]])
    lines = example(f"{name}.script").encode().splitlines()
    shown, printed = [], ""
    for line, said in dialogue(script, lines):
        printed += said
        if line and not line.startswith(b"#"):
            shown += [f"> {line.decode()}", *said.splitlines()]
    return shown, printed


def difference(told, wanted, what):
    """The first line that is not as wanted."""
    for number, (line, want) in enumerate(zip(told + [""], wanted + [""])):
        if line != want:
            return f"line {number + 1} of {what}: {line!r} for {want!r}"
    return None if len(told) == len(wanted) else f"{what}: {len(told)} lines for {len(wanted)}"


def not_in(lines, text):
    """The first of the lines that the text does not have."""
    return next((f"not there: {line!r}" for line in lines if line not in text), None)


def session_faults(page, name, shown_as, totals_as):
    """What of a session on the page is not as the example has it."""
    shown, printed = session(name)
    yield None if printed == example(f"{name}.transcript") else f"the transcript of {name} is another"
    yield difference(blocks(page, shown_as), shown, f"the session of {name}")
    yield difference(blocks(page, totals_as), example(f"{name}.notes").splitlines(), f"the totals of {name}")


def faults(elf):
    page = (ROOT / "docs" / "TUTORIAL.md").read_text()
    yield difference(blocks(page, "asm"), example("first.asm").splitlines(), "the text")
    image = (ROOT / "examples" / "first.bin").read_bytes()
    listing = "".join(f"{line}\n" for line in blocks(page, "list"))
    for text in (example("first.asm"), listing):
        yield None if assemble(text, "m16") == (image, None) else "first.bin is the image of another text"
    yield from session_faults(page, "first", "first", "totals")
    yield from session_faults(page, "clock", "script", "notes")
    yield not_in(blocks(page, "c"), example("clock.c").splitlines())
    if elf:
        for name, tool in [("listing", ["avr-objdump", "-d"]), ("names", ["avr-nm"])]:
            yield not_in(blocks(page, name), subprocess.run([*tool, elf], capture_output=True, text=True, check=True).stdout.splitlines())


def main():
    fault = next((fault for fault in faults(sys.argv[1] if len(sys.argv) > 1 else None) if fault), None)
    if fault:
        print(fault, file=sys.stderr)
        return 1
    return 0


if __name__ == "__main__":
    sys.exit(main())

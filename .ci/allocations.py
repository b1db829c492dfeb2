"""allocations.py FOLDER: refuses each allocation of a call of the program in turn, by a library that is compiled into the folder.

A call of which one allocation is refused has status 8, notes `memory`, prints nothing, and has read nothing of its input; or it ends as
if none were, as where a buffer may grow by less. The number rises until a call asks for fewer allocations.
"""

import os
import subprocess
import sys

CALLS = [
    ("examples/debug.line", ["replay", "examples/blink.bin", "10000"]),
    ("examples/debug.line", ["replay", "examples/blink.hex", "10000"]),
    ("examples/tone.line", ["replay", "examples/tone.hex", "100000", "m32"]),
    ("examples/clock.script", ["script", "examples/clock.bin", "100000"]),
    ("examples/debug.line", ["frames"]),
    (os.devnull, ["gen", "7", "50"]),
    (os.devnull, ["list", "examples/blink.hex"]),
]

# More than a call asks for.
MOST = 200

# What comes of a call that tells of a refused allocation: its status, what it printed and noted, and how far it read.
MEMORY = (8, b"", b"memory\n", 0)


def compiled(folder):
    library = os.path.join(folder, "refuse.so")
    subprocess.run(["gcc", "-O1", "-Wall", "-Wextra", "-shared", "-fPIC", "-o", library, ".ci/refuse.c"], check=True)
    return library


def called(library, number, given, words):
    """The status, what was printed and noted, how far the input was read, and whether the allocation was refused."""
    told, tell = os.pipe()
    environment = dict(os.environ, LD_PRELOAD=library, REFUSE=str(number), REFUSE_TO=str(tell))
    with open(given, "rb") as source:
        done = subprocess.run(
            ["crates/ice2/out/ice2", *words], stdin=source, capture_output=True, env=environment, pass_fds=[tell], timeout=60
        )
        read = os.lseek(source.fileno(), 0, os.SEEK_CUR) if given != os.devnull else 0
    os.close(tell)
    refused = os.read(told, 1) == b"!"
    os.close(told)
    return (done.returncode, done.stdout, done.stderr, read), refused


def refuse_each(library, given, words):
    """Of how many allocations the call told that they were refused, where each was refused as said; or None."""
    whole, _ = called(library, 0, given, words)
    if whole[0] not in (0, 11):
        print(f"{words}: {whole}", file=sys.stderr)
        return None
    told = 0
    for number in range(1, MOST):
        came, refused = called(library, number, given, words)
        told += refused and came == MEMORY
        if came != whole and not (refused and came == MEMORY):
            print(f"{words}: allocation {number}: {came}", file=sys.stderr)
            return None
        if not refused:
            return told
    print(f"{words}: more than {MOST} allocations", file=sys.stderr)
    return None


def main():
    library = compiled(sys.argv[1])
    for given, words in CALLS:
        count = refuse_each(library, given, words)
        # Each call takes memory, or the library was not asked.
        if not count:
            return 1
    return 0


sys.exit(main())

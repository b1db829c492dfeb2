"""Types lines at ice2, through a pipe and at a terminal: each line is sent only once the answer to the one before is there.

It shares no code with ice2: the lines are those of examples/clock.script, and what each prints is told by examples/shell.py. Prints
nothing where all is well.
"""
import os
import pathlib
import struct
import subprocess
import sys
import termios
import threading

ROOT = pathlib.Path(__file__).resolve().parent.parent
sys.path.insert(0, str(ROOT / "examples"))

from shell import Script, dialogue  # noqa: E402

SECONDS = 60
STOPS = 20000


def session():
    """Each line of the script, with what it prints."""
    image = (ROOT / "examples" / "clock.bin").read_bytes()
    script = Script(struct.unpack(f"<{len(image) // 2}H", image), [STOPS])
    lines = (ROOT / "examples" / "clock.script").read_bytes().splitlines()
    return [(line + b"\n", said.encode()) for line, said in dialogue(script, lines)]


def read_all(out, count):
    """So many bytes, or those up to the end."""
    given = b""
    while len(given) < count:
        piece = os.read(out, count - len(given))
        if not piece:
            break
        given += piece
    return given


def type_at(program, into, out):
    """Types the session, and tells the first answer that is another."""
    timer = threading.Timer(SECONDS, program.kill)
    timer.start()
    try:
        for line, said in session():
            os.write(into, line)
            given = read_all(out, len(said))
            if given != said:
                return f"{line!r}: {given!r} for {said!r}"
        notes = program.stderr.read()
        if program.wait() != 0 or notes != (ROOT / "examples" / "clock.notes").read_bytes():
            return f"at the end: status {program.returncode}, {notes!r}"
        return None
    except OSError as error:
        return f"{error}"
    finally:
        timer.cancel()
        program.stderr.close()


def start(into, out):
    words = [str(ROOT / "bin" / "ice2"), "script", str(ROOT / "examples" / "clock.bin"), str(STOPS)]
    return subprocess.Popen(words, stdin=into, stdout=out, stderr=subprocess.PIPE)


def through_pipes():
    program = start(subprocess.PIPE, subprocess.PIPE)
    return type_at(program, program.stdin.fileno(), program.stdout.fileno())


def at_a_terminal():
    """At a terminal that reads whole lines, without its echo and its carriage returns."""
    ours, theirs = os.openpty()
    modes = termios.tcgetattr(theirs)
    modes[1] &= ~termios.OPOST
    modes[3] &= ~termios.ECHO
    termios.tcsetattr(theirs, termios.TCSANOW, modes)
    program = start(theirs, theirs)
    os.close(theirs)
    fault = type_at(program, ours, ours)
    os.close(ours)
    return fault


def main():
    for way in (through_pipes, at_a_terminal):
        fault = way()
        if fault is not None:
            print(f"{way.__name__}: {fault}", file=sys.stderr)
            return 1
    return 0


if __name__ == "__main__":
    sys.exit(main())

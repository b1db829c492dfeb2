"""Speaks with ice2 through two pipes: each frame is sent only once the reply to the one before is there.

It shares no code with ice2. Replies of all sizes are asked for, the least and the largest among them. Prints nothing where all is well.
"""
import pathlib
import struct
import subprocess
import sys
import threading

ROOT = pathlib.Path(__file__).resolve().parent.parent
sys.path.insert(0, str(ROOT / "examples"))

from frames import frame  # noqa: E402

SECONDS = 60


def read(address, count):
    return struct.pack("<BBII", 0x05, 0x20, count, address)


def main():
    image = (ROOT / "examples" / "blink.bin").read_bytes()
    flash = image + b"\xff" * (4096 - len(image))
    exchanges = [
        (bytes([0x0F]), bytes([0x80])),  # GET_SYNC
        (struct.pack("<BBII", 0x05, 0xA0, 4096, 0), b"\x82" + flash),  # the most bytes of a reply
        (read(0x60, 0), b"\x82"),  # a read of none
        (read(0x60, 1024), b"\x82" + b"\x00" * 1024),  # SRAM is 0 at the start
        (bytes([0x00]), bytes([0x80])),  # SIGN_OFF
    ]
    program = subprocess.Popen(
        [str(ROOT / "bin" / "ice2"), "replay", str(ROOT / "examples" / "blink.bin"), "100"],
        stdin=subprocess.PIPE, stdout=subprocess.PIPE, stderr=subprocess.PIPE)
    timer = threading.Timer(SECONDS, program.kill)
    timer.start()
    try:
        for number, (command, reply) in enumerate(exchanges):
            program.stdin.write(frame(number, command))
            program.stdin.flush()
            wanted = frame(number, reply)
            given = program.stdout.read(len(wanted))
            if given != wanted:
                return f"frame {number}: {given[:20].hex()} for {wanted[:20].hex()}"
        program.stdin.close()
        rest = program.stdout.read()
        if rest or program.wait() != 0:
            return f"at the end: {rest[:20].hex()}, status {program.returncode}"
        return None
    finally:
        timer.cancel()


if __name__ == "__main__":
    fault = main()
    if fault is not None:
        print(fault, file=sys.stderr)
        sys.exit(1)

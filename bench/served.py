#!/usr/bin/env python3
"""Times a client's requests over the loopback, of `ice2 serve` and of simavr's gdb server, in one run: microseconds, of each the median.

`bench/served.py [ROUNDS]`. The program is $ICE2, or bin/ice2. A round is a single step with its reply and its event, and a run to a
breakpoint that is met a few steps on. Before them, the time from the start of the server to its first reply. Where simavr or avr-gcc is
missing its column is left out.
"""
import os
import pathlib
import shutil
import socket
import statistics
import subprocess
import sys
import tempfile
import time

ROOT = pathlib.Path(__file__).resolve().parent.parent
sys.path.insert(0, str(ROOT / "examples"))

from frames import frame  # noqa: E402

PROGRAM = os.environ.get("ICE2") or str(ROOT / "bin" / "ice2")
ROUNDS = int(sys.argv[1]) if len(sys.argv) > 1 else 2000
PORT = 42431
# The longest wait for an answer.
SECONDS = 20
# simavr knows no other
GDB_PORT = 1234

# A loop of four words: NOP, NOP, NOP and RJMP back. The breakpoint is at its third word, so a run from there makes four steps.
LOOP = [0x0000, 0x0000, 0x0000, 0xCFFC]
AT = 2


def connected(port):
    """A connection to a server that has just been started."""
    for _ in range(2000):
        try:
            link = socket.create_connection(("127.0.0.1", port))
            link.setsockopt(socket.IPPROTO_TCP, socket.TCP_NODELAY, 1)
            link.settimeout(SECONDS)
            return link
        except ConnectionRefusedError:
            time.sleep(0.001)
    raise SystemExit("no server")


def medians(rounds, *calls):
    """The median time of each call, in microseconds, made in turn."""
    times = [[] for _ in calls]
    for _ in range(rounds):
        for taken, call in zip(times, calls):
            start = time.perf_counter()
            call()
            taken.append((time.perf_counter() - start) * 1e6)
    return [statistics.median(taken) for taken in times]


class Ice:
    """A session of `ice2 serve`."""

    def __init__(self, image):
        # A plain model in Python takes its time for the check of a frame, so the frames are made ahead: a step and a run in turn.
        bodies = [b"\x01", bytes([0x11, 0x01, 0x00, AT, 0, 0, 0, 0]), *[b"\x09", b"\x08"] * ROUNDS, b"\x00"]
        self.frames = iter([frame(number, body) for number, body in enumerate(bodies)])
        start = time.perf_counter()
        self.server = subprocess.Popen([PROGRAM, "serve", str(PORT), image], stderr=subprocess.DEVNULL)
        self.link = connected(PORT)
        self.ask(8 + 28 + 2)
        self.start_up = (time.perf_counter() - start) * 1e3
        self.ask(11)

    def ask(self, length):
        """Sends the next frame, and waits for so many bytes."""
        self.link.sendall(next(self.frames))
        while length > 0:
            length -= len(self.link.recv(length))

    def step(self):
        self.ask(11 + 16)

    def run(self):
        self.ask(11 + 16)

    def close(self):
        self.ask(11)
        self.link.close()
        self.server.wait()


class Gdb:
    """A session of simavr's gdb server."""

    def __init__(self, image):
        start = time.perf_counter()
        self.server = subprocess.Popen(["simavr", "-g", "-m", "atmega16", "-f", "8000000", image],
                                       stdout=subprocess.DEVNULL, stderr=subprocess.DEVNULL)
        self.link = connected(GDB_PORT)
        self.ask("?")
        self.start_up = (time.perf_counter() - start) * 1e3
        self.ask(f"Z0,{2 * AT:x},2")

    def ask(self, text):
        """Sends a packet, and waits for its answer, which is acknowledged."""
        total = sum(text.encode()) % 256
        self.link.sendall(f"${text}#{total:02x}".encode())
        heard = b""
        while b"#" not in heard[:-2]:
            heard += self.link.recv(4096)
        self.link.sendall(b"+")

    def step(self):
        self.ask("s")

    def run(self):
        self.ask("c")

    def close(self):
        self.link.close()
        self.server.kill()
        self.server.wait()


def record(kind, address, content):
    """A record of Intel HEX."""
    data = bytes([len(content)]) + address.to_bytes(2, "big") + bytes([kind]) + content
    return f":{data.hex()}{-sum(data) % 256:02x}\n".upper()


def main():
    with tempfile.TemporaryDirectory() as folder:
        image = folder + "/loop.hex"
        content = b"".join(word.to_bytes(2, "little") for word in LOOP)
        pathlib.Path(image).write_text(record(0, 0, content) + record(1, 0, b""))
        kinds = [("ice2 serve", Ice)] + ([("simavr -g", Gdb)] if shutil.which("simavr") else [])
        for name, kind in kinds:
            session = kind(image)
            step, run = medians(ROUNDS, session.step, session.run)
            session.close()
            print(f"{name:11} start-up to the first reply {session.start_up:6.1f} ms   a step {step:7.1f} us   "
                  f"to a breakpoint {run:7.1f} us")
        if len(kinds) == 1:
            print("skipped: simavr")


main()

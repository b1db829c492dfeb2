"""Checks `ice2 serve` and `ice2 connect` over real sockets: `served.py CHECK FOLDER`, with a folder for temporary files.

It shares no code with ice2: frames are made by examples/frames.py, and what the shell prints is told by examples/shell.py. The program is
$ICE2, or bin/ice2. No wait is longer than SECONDS. Prints nothing where all is well.
"""
import os
import pathlib
import re
import signal
import socket
import struct
import subprocess
import sys
import threading
import time

ROOT = pathlib.Path(__file__).resolve().parent.parent
sys.path.insert(0, str(ROOT / "examples"))

from frames import frame  # noqa: E402
from shell import Script, dialogue  # noqa: E402

SECONDS = 60
HOST = "127.0.0.1"
CLOCK = ROOT / "examples" / "clock.bin"

SIGN_OFF, GET_PARAMETER, READ_PC, GO, FORCED_STOP, GET_SYNC = 0x00, 0x03, 0x07, 0x08, 0x0A, 0x0F
READ_MEMORY, SPM = 0x05, 0xA0
MCU_STATE = 0x1A
OK, PARAMETER, MEMORY, PC, ILLEGAL_STATE = 0x80, 0x81, 0x82, 0x84, 0xA5
FORCED = 0x02  # the cause of an event
EVENTS = 0xFFFF  # the number of its frame

MOST = 67_108_864  # bytes of a line
AWAITED = 1_000_000  # bytes that a host takes for one reply
THREADS = 3  # at most: the session's, the line's, and the target's while it runs
CYCLES = 2  # of RJMP
SCRIPT_STOPS = 20000  # the steps of each run of examples/clock.script, of which only a stopped run makes so many

# what a run that ends by itself does not need
ENDLESS = 100_000_000


class Fault(Exception):
    """What is not as it should be."""


def wants(seen, wanted, what):
    if seen != wanted:
        raise Fault(f"{what}: {seen!r} for {wanted!r}")


def until(holds, what):
    """Waits until something holds."""
    end = time.monotonic() + SECONDS
    while not holds():
        if time.monotonic() > end:
            raise Fault(f"{what}: not within {SECONDS} seconds")
        time.sleep(0.01)


def free_port():
    """A port that none listens at."""
    with socket.socket() as some:
        some.bind((HOST, 0))
        return some.getsockname()[1]


def listening(port):
    """The addresses at which the kernel has listeners with this port."""
    tables = [table for table in map(pathlib.Path, ("/proc/net/tcp", "/proc/net/tcp6")) if table.exists()]
    rows = [row.split() for table in tables for row in table.read_text().splitlines()[1:]]
    return [row[1] for row in rows if row[3] == "0A" and row[1].endswith(f":{port:04X}")]


def program(*words, given=subprocess.DEVNULL):
    """A call of the program, in a process group of its own."""
    path = os.path.abspath(os.environ.get("ICE2") or ROOT / "bin" / "ice2")
    return subprocess.Popen(
        [path, *map(str, words)], stdin=given, stdout=subprocess.PIPE, stderr=subprocess.PIPE, start_new_session=True)


class Server:
    """A server with the client that is connected to it."""

    def __init__(self, image, *part):
        self.port = free_port()
        self.process = program("serve", self.port, image, *part)
        self.client = None
        until(self.connected, "the server listens")
        self.client.settimeout(SECONDS)
        self.received = b""
        self.number = 0

    def __enter__(self):
        return self

    def __exit__(self, *_):
        self.client.close()
        if self.process.poll() is None:
            self.process.kill()
        self.process.communicate()

    def connected(self):
        if self.process.poll() is not None:
            raise Fault(f"the server ended with {self.process.returncode}: {self.process.stderr.read()!r}")
        try:
            self.client = socket.create_connection((HOST, self.port))
        except ConnectionRefusedError:
            return False
        return True

    def receive(self, count):
        """The next bytes, so many."""
        while len(self.received) < count:
            piece = self.client.recv(65536)
            if not piece:
                raise Fault(f"the server closed behind {self.received[:40].hex()}")
            self.received += piece
        taken, self.received = self.received[:count], self.received[count:]
        return taken

    def answer(self, *body):
        """Sends a command, and has the body of its reply."""
        self.client.sendall(frame(self.number, bytes(body)))
        head = self.receive(8)
        count = int.from_bytes(head[3:7], "little")
        reply = head + self.receive(count + 2)
        wants(reply, frame(self.number, reply[8:-2]), "the frame of a reply")
        self.number += 1
        return reply[8:-2]

    def event(self):
        """The body of the next frame, which is an event."""
        given = self.receive(16)
        wants(given, frame(EVENTS, given[8:-2]), "the frame of an event")
        return given[8:-2]

    def threads(self):
        return len(os.listdir(f"/proc/{self.process.pid}/task"))

    def ended(self, statuses, notes):
        """The server ends by itself with one of the statuses, prints nothing, notes what is said, and leaves no process."""
        try:
            printed, noted = self.process.communicate(timeout=SECONDS)
        except subprocess.TimeoutExpired:
            raise Fault(f"the server does not end, with {self.threads()} threads") from None
        if self.process.returncode not in statuses or not re.fullmatch(notes, noted) or printed:
            raise Fault(f"the server ended with {self.process.returncode}, {printed!r} and {noted!r}")
        try:
            os.killpg(self.process.pid, 0)
        except ProcessLookupError:
            return
        raise Fault("the server left a process")


def totals(cycles=0, steps=0, writes=0, dropped=0):
    return b"cycles %d steps %d writes %d dropped %d\n" % (cycles, steps, writes, dropped)


def closed(server):
    """The client says no more, and nothing more comes."""
    server.client.shutdown(socket.SHUT_WR)
    wants(server.client.recv(1), b"", "behind the end")


def endless(folder):
    """The image of a program that jumps to itself."""
    image = folder / "endless.bin"
    image.write_bytes(struct.pack("<H", 0xCFFF))
    return image


def session(folder):
    """A program that never ends is let go, the tool answers meanwhile, and a forced stop is seen: the second time as the first."""
    with Server(endless(folder)) as server:
        launches = 50
        for _ in range(launches):
            wants(server.answer(GO), bytes([OK]), "GO")
            wants(server.answer(GET_SYNC), bytes([OK]), "GET_SYNC of a running target")
            wants(server.answer(GET_PARAMETER, MCU_STATE), bytes([PARAMETER, 1]), "the state of a running target")
            wants(server.answer(READ_PC), bytes([ILLEGAL_STATE]), "READ_PC of a running target")
            if server.threads() > THREADS:
                raise Fault(f"{server.threads()} threads")
            wants(server.answer(FORCED_STOP, 1), bytes([OK]), "FORCED_STOP")
            wants(server.event(), struct.pack("<BIB", 0xE0, 0, FORCED), "the event")
            wants(server.answer(GET_PARAMETER, MCU_STATE), bytes([PARAMETER, 0]), "the state of a stopped target")
            wants(server.answer(READ_PC), struct.pack("<BI", PC, 0), "READ_PC")
            until(lambda: server.threads() < THREADS, "the target's thread ends")
        wants(server.answer(SIGN_OFF), bytes([OK]), "SIGN_OFF")
        closed(server)
        server.ended([0], rb"cycles \d+ steps \d+ writes 0 dropped 0\n")


def running_at_the_end(folder):
    """A target that still runs where the line ends is stopped: behind SIGN_OFF, and where the client closes with no word."""
    for last in (True, False):
        with Server(endless(folder)) as server:
            wants(server.answer(GO), bytes([OK]), "GO")
            if last:
                wants(server.answer(SIGN_OFF), bytes([OK]), "SIGN_OFF")
            closed(server)
            server.ended([0], rb"cycles \d+ steps \d+ writes 0 dropped 0\n")


def loopback(_):
    """A socket of this machine can be reached, with no program of ours."""
    with socket.create_server((HOST, 0)) as some, socket.create_connection(some.getsockname()):
        pass


def here_alone(_):
    """The server listens at 127.0.0.1, and at no other address."""
    port = free_port()
    server = program("serve", port, CLOCK)
    try:
        until(lambda: listening(port), "the server listens")
        wants(listening(port), [f"0100007F:{port:04X}"], "the addresses")
    finally:
        server.kill()
        server.communicate()


def silent(_):
    """Clients that say nothing, or only a part of a frame, and close."""
    sync = frame(7, bytes([GET_SYNC]))
    for count in range(len(sync)):
        with Server(CLOCK) as server:
            server.client.sendall(sync[:count])
            closed(server)
            server.ended([0], re.escape(totals(dropped=count)))


def junk(_):
    """As much as a line may have, of bytes that are no frame, and one byte more."""
    for count, status in ((MOST, 0), (MOST + 1, 9)):
        with Server(CLOCK) as server:
            piece = bytes(1 << 20)
            for _ in range(count // len(piece)):
                server.client.sendall(piece)
            server.client.sendall(bytes(count % len(piece)))
            closed(server)
            server.ended([status], re.escape(totals(dropped=MOST)))


def unread(_):
    """A client that never reads: the server waits, and ends where the client goes away, or where it is told to end."""
    reads = 1000 * frame(0, struct.pack("<BBII", READ_MEMORY, SPM, 4096, 0))
    for goes in (True, False):
        with Server(CLOCK) as server:
            server.client.settimeout(1)
            try:
                while True:
                    server.client.sendall(reads)
            except TimeoutError:
                wants(server.process.poll(), None, "the status of a server that waits")
            if goes:
                server.client.setsockopt(socket.SOL_SOCKET, socket.SO_LINGER, struct.pack("ii", 1, 0))
                server.client.close()
                # which of the two ends of the connection is found broken first is not said
                server.ended([5, 6], rb"cycles 0 steps 0 writes 0 dropped \d+\n")
            else:
                server.process.terminate()
                server.ended([-signal.SIGTERM], b"")


def images(folder):
    """An image that gives no program, or none that is there: the client is accepted, and told nothing."""
    large = ROOT / "examples" / "tone.hex"
    for words, status, note in [((large, "m16"), 3, b"image: large\n"), ((folder / "none.bin",), 4, b"loader\n")]:
        with Server(*words) as server:
            closed(server)
            server.ended([status], note)
    with Server(large, "m32") as server:
        wants(server.answer(SIGN_OFF), bytes([OK]), "SIGN_OFF")
        closed(server)
        server.ended([0], re.escape(totals()))


def refused(words, status, note):
    """A call ends with the status and the note, and prints nothing."""
    call = program(*words)
    try:
        ended = call.communicate(timeout=SECONDS)
    except subprocess.TimeoutExpired:
        call.kill()
        call.communicate()
        raise Fault(f"{words} does not end") from None
    wants((call.returncode, *ended), (status, b"", note), f"{words}")


def words(_):
    """Words that are wrong, and sockets that can't be had."""
    ports = ["", "0", "65536", "080", "+80", "-1", " 80", "8o", "0x50", "4294967376", "18446744073709551696"]
    wrong = [["serve"], ["serve", "9999"], ["serve", "9999", CLOCK, "m64"], ["serve", "9999", CLOCK, "m16", "m16"], ["connect"]]
    wrong += [["serve", port, CLOCK] for port in ports] + [["connect", port] for port in ports]
    wrong += [["connect", "9999", "m16"], ["server", "9999", CLOCK], ["serve", "9999", CLOCK, "M16"]]
    for some in wrong:
        refused(some, 2, b"usage\n")
    refused(["connect", free_port()], 12, b"no socket\n")
    with socket.socket() as other:
        other.bind((HOST, 0))
        other.listen()
        refused(["serve", other.getsockname()[1], CLOCK], 12, b"no socket\n")


def clock_lines():
    """The lines of examples/clock.script, each with what it prints, without the run that is stopped behind so many steps."""
    image = CLOCK.read_bytes()
    code = struct.unpack(f"<{len(image) // 2}H", image)
    lines = (ROOT / "examples" / "clock.script").read_bytes().splitlines()
    whole = list(dialogue(Script(code, [SCRIPT_STOPS]), lines))
    wants("".join(said for _, said in whole), (ROOT / "examples" / "clock.transcript").read_text(), "the transcript of the script")
    stop = lines.index(b"stop")
    first = max(at for at in range(stop) if lines[at] == b"write io 3f 35")
    last = lines.index(b"write io 3f 82")
    kept = whole[:first] + whole[last + 1 :]
    # nothing that is left hangs on where that run was stopped
    wants(list(dialogue(Script(code, [ENDLESS]), [line for line, _ in kept])), kept, "the script without the stop")
    return kept


def shell_at(port, lines):
    """What the shell prints for these lines, and how it ends."""
    shell = program("connect", port, given=subprocess.PIPE)
    try:
        printed, noted = shell.communicate(b"".join(line + b"\n" for line in lines), timeout=SECONDS)
    except subprocess.TimeoutExpired:
        shell.kill()
        shell.communicate()
        raise Fault("the shell does not end") from None
    return shell.returncode, printed.decode(), noted


def served_lines(image, lines):
    """What the shell prints at a server of an image; both end well."""
    port = free_port()
    server = program("serve", port, image)
    try:
        until(lambda: listening(port), "the server listens")
        status, printed, noted = shell_at(port, lines)
        wants((status, noted), (0, b""), f"the end of the shell, which printed {printed[-200:]!r}")
        wants(server.wait(SECONDS), 0, "the status of the server")
        return printed
    finally:
        server.kill()
        server.communicate()


def shell(folder):
    """The shell at a server prints what the script does; and a run that is stopped there ends by that."""
    kept = clock_lines()
    wants(served_lines(CLOCK, [line for line, _ in kept]), "".join(said for _, said in kept), "the session of the clock")
    stopped = [
        ("go", "ok"), ("sync", "ok"), ("get 1a", "value 01"), ("read sram 6c 1", "refused a5"), ("stop", "ok"), ("wait", "event 0000 cause 02"),
        ("pc", "pc 0000"), ("go", "ok"), ("stop", "ok"), ("wait", "event 0000 cause 02"), ("quit", "ok"),
    ]  # fmt: skip
    printed = served_lines(endless(folder), [line.encode() for line, _ in stopped])
    wants(printed, "".join(f"{said}\n" for _, said in stopped), "runs that are stopped")


def partner(reply):
    """A port where one connection is accepted, read from, given these bytes, and ended."""
    listener = socket.create_server((HOST, 0))
    listener.settimeout(SECONDS)

    def serve():
        client, _ = listener.accept()
        with client, listener:
            client.settimeout(SECONDS)
            client.recv(1024)
            try:
                client.sendall(reply)
                client.shutdown(socket.SHUT_WR)
                while client.recv(1024):
                    pass
            except OSError:
                pass

    threading.Thread(target=serve, daemon=True).start()
    return listener.getsockname()[1]


def partners(_):
    """Servers that close, that give what is no reply or another's, and that give none among as many bytes as are awaited."""
    for reply, said in [
        (b"", "! closed\n"),
        (frame(0, bytes([OK]))[:-1], "! closed\n"),
        (frame(1, bytes([OK])), "! closed\n"),
        (frame(0, struct.pack("<BI", PC, 0)), "pc 0000\n! closed\n"),
        (frame(0, b"\x99"), "! bad reply\n"),
        (frame(0, b""), "! bad reply\n"),
        (bytes(2 * AWAITED), "! no reply\n"),
    ]:
        wants(shell_at(partner(reply), [b"sync", b"sync"]), (11, said, b""), f"a partner that gives {reply[:20]!r}")


CHECKS = {check.__name__: check for check in (
    loopback, session, running_at_the_end, here_alone, silent, junk, unread, images, words, shell, partners)}


def main():
    try:
        CHECKS[sys.argv[1]](pathlib.Path(sys.argv[2]))
    except (Fault, OSError, subprocess.TimeoutExpired) as fault:
        print(f"{sys.argv[1]}: {fault}", file=sys.stderr)
        return 1
    return 0


if __name__ == "__main__":
    sys.exit(main())

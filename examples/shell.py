"""The shell of docs/SHELL.md in plain Python: how a line is read, and what a debugger answers over the target of target.py.

It shares no code with ice2, and has no frames: each command goes straight to the debugger.
"""
import collections
import re

from target import BREAK, M16, Target, is_skip, is_two_word

LINE_LIMIT = 320
PAGE = 128  # bytes
KEPT_EVENTS = 64  # while a command waits for its answer
SOFT_BREAKS, COMPARATORS = 64, 4
ANY = 0xFFFFFFFF

# the words for memories, with their types on the line
SPACES = {"sram": 0x20, "io": 0x30, "flash": 0xA0, "page": 0xB0, "fuse": 0xB2, "lock": 0xB3, "sig": 0xB4}


class Wrong(Exception):
    """What is wrong with a line, as it is printed."""


def number(most):
    return lambda word: int(word, 16) if re.fullmatch("[0-9a-fA-F]{1,8}", word) and int(word, 16) <= most else None


def digits(least, most):
    return lambda word: bytes.fromhex(word) if re.fullmatch(f"([0-9a-fA-F]{{2}}){{{least // 2},{most // 2}}}", word) else None


def space(*names):
    return lambda word: SPACES[word] if word in names else None


# each first word, with the operands behind it, and how many of them a line has at least
FORMS = {
    "sign": ([], 0),
    "sync": ([], 0),
    "get": ([number(0xFF)], 1),
    "set": ([number(0xFF), digits(2, 128)], 2),
    "read": ([space(*SPACES), number(ANY), number(0x1000)], 3),
    "write": ([space("sram", "io"), number(ANY), digits(2, 128)], 3),
    "pc": ([number(ANY)], 0),
    "break": ([number(ANY), number(0xFF)], 1),
    "clear": ([number(ANY), number(0xFF)], 1),
    "go": ([], 0),
    "to": ([number(ANY)], 1),
    "step": ([], 0),
    "stop": ([], 0),
    "reset": ([], 0),
    "wait": ([], 0),
    "quit": ([], 0),
    "prog": ([], 0),
    "leave": ([], 0),
    "erase": ([number(ANY)], 0),
    "page": ([number(ANY), digits(256, 256)], 2),
}


def lines_of(text):
    """The lines, each without its end: a line feed, with or without a carriage return before it; the last one may have none."""
    *ended, last = text.split(b"\n")
    lines = [line[:-1] if line.endswith(b"\r") else line for line in ended]
    return lines + [last] if last else lines


def read_line(line):
    """The first word and the operands, or None where the line does nothing. The line has no end."""
    if len(line) > LINE_LIMIT:
        raise Wrong("? long")
    words = [(match.start() + 1, match.group().decode("latin-1")) for match in re.finditer(rb"[^ \t]+", line)]
    if not words or words[0][1].startswith("#"):
        return None
    (column, name), *operands = words
    if name not in FORMS:
        raise Wrong(f"? unknown {column}")
    kinds, least = FORMS[name]
    values = []
    for kind, (column, word) in zip(kinds, operands):
        values.append(kind(word))
        if values[-1] is None:
            raise Wrong(f"? value {column}")
    if len(values) < least:
        raise Wrong(f"? missing {len(line) + 1}")
    if len(operands) > len(kinds):
        raise Wrong(f"? extra {operands[len(kinds)][0]}")
    return name, values


# id: value, and the least and most number that may be written; None where it is read-only, and all where any value may
PARAMETERS = {
    0x01: ("0101", None), 0x02: ("00060006", None), 0x03: ("01", (1, 1)), 0x05: ("04", (1, 8)), 0x06: ("8813", None),
    0x07: ("04", (0, ANY)), 0x09: ("00", (0, 1)), 0x13: ("00", (0, 1)), 0x14: ("8000", (0, ANY)), 0x15: ("04", (0, ANY)),
    0x1B: ("00000000", (0, 0)), 0x1C: ("00000000", (0, ANY)),
}
MCU_STATE = 0x1A
CONSTANTS = {0xB2: b"\xe1\x99\xff", 0xB3: b"\xff"}

STOPPED, RUNNING, PROGRAMMING = 0, 1, 2  # as MCU_STATE reads
# the modes that allow a command; every other command is allowed while the target is stopped
ALLOWED = {
    "sign": (STOPPED, RUNNING, PROGRAMMING), "sync": (STOPPED, RUNNING, PROGRAMMING), "get": (STOPPED, RUNNING, PROGRAMMING),
    "set": (STOPPED, RUNNING, PROGRAMMING), "quit": (STOPPED, RUNNING, PROGRAMMING),
    "read": (STOPPED, PROGRAMMING), "write": (STOPPED, PROGRAMMING), "page": (STOPPED, PROGRAMMING),
    "stop": (RUNNING,), "erase": (PROGRAMMING,), "leave": (PROGRAMMING,),
}
BREAKPOINT, FORCED, STEPPED, RESTARTED, UNDEFINED = 1, 2, 3, 4, 6  # the causes of events, beside a BREAK's


class Refused(Exception):
    """The code of a refusal."""


class Debugger:
    """A debugger with its target. Breakpoints are planted: a run sees a BREAK at each but the one it starts at."""

    def __init__(self, part, image, stops):
        self.part, self.stops = part, stops
        self.program = list(image) + [0xFFFF] * (part.words - len(image))
        self.target = Target(part)
        self.mode, self.launches = STOPPED, 0
        self.soft, self.comparators = set(), [None] * COMPARATORS
        self.parameters = {key: bytes.fromhex(value) for key, (value, _) in PARAMETERS.items()}
        self.events = collections.deque()

    def tell(self, cause):
        self.events.append((self.target.pc, cause))

    def answer(self, name, values):
        """The lines of the answer to a command."""
        try:
            if self.mode not in ALLOWED.get(name, (STOPPED,)):
                raise Refused(0xA5)
            lines = getattr(self, f"do_{name}")(*values)
            return ["ok"] if lines is None else lines
        except Refused as refused:
            return [f"refused {refused.args[0]:02x}"]

    def do_sign(self):
        return ["sign JTAGICEmkII"]

    def do_sync(self):
        pass

    do_quit = do_sync

    def do_get(self, key):
        if key == MCU_STATE:
            return [f"value {self.mode:02x}"]
        if key not in self.parameters:
            raise Refused(0xA1)
        return ["value " + self.parameters[key].hex()]

    def do_set(self, key, value):
        accepted = PARAMETERS.get(key, ("", None))[1]
        if accepted is None:
            raise Refused(0xA1)
        least, most = accepted
        if len(value) != len(self.parameters[key]) or not least <= int.from_bytes(value, "little") <= most:
            raise Refused(0xA6)
        self.parameters[key] = value

    # memory

    def memory(self, kind):
        """The size of a memory that may be read now, and a byte of it."""
        target, open_now = self.target, self.mode == PROGRAMMING
        sizes = {0x20: 65536, 0x30: 64, 0xA0: 2 * self.part.words, 0xB0: 2 * self.part.words, 0xB2: 3, 0xB3: 1, 0xB4: 3}
        if kind in ((0x20, 0x30) if open_now else (0xB0,)):
            raise Refused(0xA2)
        constants = {**CONSTANTS, 0xB4: self.part.signature}
        if kind in constants:
            return sizes[kind], lambda address: constants[kind][address]
        if kind in (0x20, 0x30):
            base = 0x20 if kind == 0x30 else 0
            return sizes[kind], lambda address: target.load(base + address)
        return sizes[kind], lambda address: self.program[address // 2] >> (8 if address % 2 else 0) & 0xFF

    def do_read(self, kind, address, count):
        size, byte = self.memory(kind)
        if address + count > size:
            raise Refused(0xA3)
        content = bytes(byte(address + i) for i in range(count))
        return [f"{address + i:04x} {content[i:i + 16].hex()}" for i in range(0, count, 16)]

    def do_write(self, kind, address, content):
        size, _ = self.memory(kind)
        if address + len(content) > size:
            raise Refused(0xA3)
        base = 0x20 if kind == 0x30 else 0
        for i, byte in enumerate(content):
            self.target.store(base + address + i, byte)

    # breakpoints and runs

    def is_plantable(self, address):
        before = self.program[(address - 1) % self.part.words]
        return address < self.part.words and not (is_two_word(self.program[address]) and is_skip(before))

    def do_pc(self, address=None):
        if address is None:
            return [f"pc {self.target.pc:04x}"]
        if address >= self.part.words:
            raise Refused(0xA3)
        self.target.pc = address

    def do_break(self, address, which=0):
        if which > COMPARATORS or address >= self.part.words:
            raise Refused(0xA8)
        if which:
            self.comparators[which - 1] = address
        elif self.is_plantable(address) and (address in self.soft or len(self.soft) < SOFT_BREAKS):
            self.soft.add(address)
        else:
            raise Refused(0xA8)

    def do_clear(self, address, which=0):
        if which > COMPARATORS or (self.comparators[which - 1] is None if which else address not in self.soft):
            raise Refused(0xA8)
        if which:
            self.comparators[which - 1] = None
        else:
            self.soft.remove(address)

    def planted(self, addresses):
        words = self.program[:]
        for address in addresses:
            words[address] = BREAK
        return words

    def do_go(self):
        self.run(set(self.soft))

    def do_to(self, address):
        if not self.is_plantable(address):
            raise Refused(0xA8)
        self.run(self.soft | {address})

    def run(self, addresses):
        """A run of as many steps as it may have. It ends by itself within them, or else it is out."""
        steps = self.stops[min(self.launches, len(self.stops) - 1)]
        self.launches += 1
        first, words = self.planted(addresses - {self.target.pc}), self.planted(addresses)
        if self.target.stops_at_word(first) == UNDEFINED:
            self.tell(UNDEFINED)
            return
        self.target.step(first)
        cause = self.stop_here(words, addresses)
        for _ in range(steps - 1):
            if cause is not None:
                break
            self.target.step(words)
            cause = self.stop_here(words, addresses)
        if cause is None:
            self.mode = RUNNING
        else:
            self.tell(cause)

    def stop_here(self, words, addresses):
        at = self.target.pc in addresses or self.target.pc in self.comparators
        return BREAKPOINT if at and not self.target.due() else self.target.stops_at_word(words)

    def do_step(self):
        words = self.planted(self.soft - {self.target.pc})
        if self.target.stops_at_word(words) == UNDEFINED:
            self.tell(UNDEFINED)
        else:
            self.target.step(words)
            self.tell(STEPPED)

    def do_stop(self):
        self.mode = STOPPED
        self.tell(FORCED)

    def do_reset(self):
        self.target.restart()
        self.tell(RESTARTED)

    # programming

    def do_prog(self):
        self.mode, self.soft = PROGRAMMING, set()

    def do_leave(self):
        self.mode = STOPPED
        self.target.restart()

    def do_erase(self, address=None):
        if address is None:
            self.program = [0xFFFF] * self.part.words
        elif address >= 2 * self.part.words:
            raise Refused(0xA3)
        else:
            self.put_page(address // PAGE * PAGE, b"\xff" * PAGE)

    def do_page(self, address, content):
        if self.mode != PROGRAMMING:
            raise Refused(0xA2)
        if address % PAGE or address + PAGE > 2 * self.part.words:
            raise Refused(0xA3)
        self.put_page(address, content)

    def put_page(self, address, content):
        words = [content[i] + 256 * content[i + 1] for i in range(0, PAGE, 2)]
        self.program[address // 2:address // 2 + len(words)] = words


class Script:
    """A script under way: its lines are given one by one, and each says what it prints."""

    def __init__(self, image, stops, part=M16):
        self.debugger = Debugger(part, image, stops)
        self.status = None  # of the script, once it has ended by itself

    def say(self, line):
        """The text that a line, which has no end, prints."""
        try:
            said = read_line(line)
        except Wrong as wrong:
            return f"{wrong}\n"
        if said is None:
            return ""
        name, values = said
        events = self.debugger.events
        if name == "wait":
            if not events:
                self.status = 11
                return "! closed\n"
            return "event {:04x} cause {:02x}\n".format(*events.popleft())
        is_full = len(events) > KEPT_EVENTS
        lines = self.debugger.answer(name, values)
        if is_full or name == "quit":
            self.status = 11 if is_full else 0
        return "! events full\n" if is_full else "".join(f"{line}\n" for line in lines)

    def notes(self):
        """The line of totals at the end."""
        target = self.debugger.target
        return f"cycles {target.cycles} steps {target.steps} writes {len(target.outputs)} dropped 0\n"


def dialogue(script, lines):
    """Each line with what it prints, up to the end of the script."""
    for line in lines:
        yield line, script.say(line)
        if script.status is not None:
            return


def transcript(image, stops, text, part=M16):
    """The status of a script, what it prints, and the line of totals."""
    script = Script(image, stops, part)
    printed = "".join(said for _, said in dialogue(script, lines_of(text)))
    return script.status or 0, printed, script.notes()

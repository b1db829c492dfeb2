"""A plain model of an ATmega16 or an ATmega32 that runs those instructions alone that clock.bin is made of.

It follows the AVR Instruction Set Manual, the datasheets and docs/TARGET.md, and shares no code with ice2.
"""
import typing


class Part(typing.NamedTuple):
    """What differs between the parts: the words of the flash, the end of SRAM, the vectors with their bits in TIFR, the signature."""
    words: int
    sram_end: int
    vectors: list
    signature: bytes


# in rising order: timer 2 compare and overflow, and timer 0 overflow and compare or, in the larger part, the other way round
M16 = Part(8192, 0x460, [(0x06, 7), (0x08, 6), (0x12, 0), (0x26, 1)], b"\x1e\x94\x03")
M32 = Part(16384, 0x860, [(0x08, 7), (0x0A, 6), (0x14, 1), (0x16, 0)], b"\x1e\x95\x02")

IO = 0x20  # the data address of the I/O address 0
SREG, SPL = IO + 0x3F, IO + 0x3D
TIMSK, TIFR = IO + 0x39, IO + 0x38
UCSRA, EECR = IO + 0x0B, IO + 0x1C
PINS = [IO + a for a in (0x19, 0x16, 0x13, 0x10)]
OUTPUTS = [IO + a for a in (0x1B, 0x1A, 0x18, 0x17, 0x15, 0x14, 0x12, 0x11, 0x0C)]  # PORTx, DDRx and UDR
# control, counter and compare, the bits of overflow and compare in TIFR, and the divisors by the low three bits of control
TIMERS = [
    (IO + 0x33, IO + 0x32, IO + 0x3C, 0, 1, [0, 1, 8, 64, 256, 1024, 0, 0]),
    (IO + 0x25, IO + 0x24, IO + 0x23, 6, 7, [0, 1, 8, 32, 64, 128, 256, 1024]),
]
R0, X, Z = 0, 26, 30
C, ZERO, N, V, S, H, INTERRUPTS = 1, 2, 4, 8, 16, 32, 0x80
BREAK = 0x9598


def is_two_word(word):
    """LDS, STS, JMP or CALL."""
    return word & 0xFE0F in (0x9000, 0x9200) or word & 0xFE0C == 0x940C


def is_skip(word):
    """CPSE, SBRC, SBRS, SBIC or SBIS."""
    return word & 0xFC00 == 0x1000 or word & 0xFC08 == 0xFC00 or word & 0xFD00 == 0x9900


def is_undefined(word):
    """No instruction has the word; of those words, the ones that occur."""
    return 0 < word < 0x100 or word == 0xFFFF


def signed(value, bits):
    return value - (1 << bits) if value >> bits - 1 else value


class Target:
    """A state of the target. The data space, with the bytes that its I/O registers keep, is one array."""

    def __init__(self, part):
        self.part = part
        self.memory = bytearray(part.sram_end)
        self.pc = self.cycles = self.steps = 0
        self.hold = False  # no interrupt is taken in the next step
        self.outputs = []  # cycle, I/O address and byte of each output write

    def restart(self):
        self.pc, self.hold = 0, False
        self.memory[IO:IO + 64] = bytes(64)

    # the data space

    def load(self, address):
        if address in PINS:
            return self.memory[address + 2]
        if address in (UCSRA, EECR):
            return 0x20 if address == UCSRA else 0
        return self.memory[address] & (0xC3 if address == TIFR else 0xFF) if address < self.part.sram_end else 0

    def store(self, address, byte):
        if address in OUTPUTS:
            self.outputs.append((self.cycles, address - IO, byte))
        if address in PINS or address in (UCSRA, EECR) or address >= self.part.sram_end:
            return
        self.memory[address] = self.memory[address] & ~byte if address == TIFR else byte

    def pair(self, low):
        return self.memory[low] + 256 * self.memory[low + 1]

    def set_pair(self, low, value):
        self.memory[low], self.memory[low + 1] = value % 256, value // 256 % 256

    def push(self, *content):
        top = self.pair(SPL)
        for i, byte in enumerate(content):
            self.store((top - i) % 65536, byte)
        self.set_pair(SPL, top - len(content))

    def push_pc(self):
        self.push(self.pc % 256, self.pc // 256)

    def pop_pc(self):
        top = self.pair(SPL)
        high, low = self.load((top + 1) % 65536), self.load((top + 2) % 65536)
        self.set_pair(SPL, top + 2)
        self.pc = (256 * high + low) % self.part.words

    # time

    def count(self, control, counter, compare, overflow_bit, compare_bit):
        """One count of a timer."""
        memory = self.memory
        before = memory[counter]
        clears = memory[control] & 0x48 == 0x08 and before == memory[compare]
        memory[counter] = 0 if clears else (before + 1) % 256
        if before == 255:
            memory[TIFR] |= 1 << overflow_bit
        if memory[counter] == memory[compare]:
            memory[TIFR] |= 1 << compare_bit

    def end_step(self, cycles):
        self.steps += 1
        clocks = [(divisors[self.memory[timer[0]] % 8], timer) for *timer, divisors in TIMERS if self.memory[timer[0]] % 8]
        for _ in range(cycles):
            self.cycles += 1
            for every, timer in clocks:
                if every and self.cycles % every == 0:
                    self.count(*timer)

    # flags

    def set_flags(self, **flags):
        for name, value in flags.items():
            bit = {"c": C, "z": ZERO, "n": N, "v": V, "s": S, "h": H}[name]
            self.memory[SREG] = self.memory[SREG] & ~bit | (bit if value else 0)

    def set_signs(self, result, overflow):
        negative = result >> 7 == 1
        self.set_flags(z=result == 0, n=negative, v=overflow, s=negative != overflow)

    def sum(self, d, a, b, carry):
        result = (a + b + carry) % 256
        self.set_signs(result, not -128 <= signed(a, 8) + signed(b, 8) + carry <= 127)
        self.set_flags(c=a + b + carry > 255, h=a % 16 + b % 16 + carry > 15)
        self.memory[d] = result

    def difference(self, a, b, with_carry):
        """The difference, and its flags; with the carry, zero says whether all bytes so far are."""
        carry, was_zero = self.memory[SREG] & C if with_carry else 0, self.memory[SREG] & ZERO != 0
        result = (a - b - carry) % 256
        self.set_signs(result, not -128 <= signed(a, 8) - signed(b, 8) - carry <= 127)
        self.set_flags(c=a < b + carry, h=a % 16 < b % 16 + carry)
        if with_carry:
            self.set_flags(z=result == 0 and was_zero)
        return result

    def logic(self, d, result):
        self.set_signs(result, False)
        self.memory[d] = result

    # steps

    def due(self):
        """The vector of the interrupt that is due, and its bit, or None."""
        asked = self.memory[TIFR] & self.memory[TIMSK]
        if self.hold or not self.memory[SREG] & INTERRUPTS or not asked:
            return None
        return next((vector for vector in self.part.vectors if asked >> vector[1] & 1), None)

    def stops_at_word(self, words):
        """The cause of a stop for the word at pc: 5 for a BREAK, 6 for a word that does not run, or None."""
        if self.due():
            return None
        return 5 if words[self.pc] == BREAK else 6 if is_undefined(words[self.pc]) else None

    def step(self, words):
        """One step under these words of the flash. A BREAK runs as a NOP."""
        vector = self.due()
        self.hold = False
        if vector:
            self.push_pc()
            self.memory[SREG] &= 0x7F
            self.memory[TIFR] &= ~(1 << vector[1])
            self.pc = vector[0]
            self.end_step(4)
            return
        word = words[self.pc]
        self.pc = (self.pc + 1) % self.part.words
        self.end_step(self.execute(word, words))

    def second_word(self, words):
        word = words[self.pc]
        self.pc = (self.pc + 1) % self.part.words
        return word

    def jump_by(self, distance):
        self.pc = (self.pc + distance) % self.part.words

    def execute(self, word, words):
        """Executes an instruction, with pc behind its first word, and answers its cycles."""
        memory = self.memory
        d, r = word >> 4 & 31, word >> 5 & 16 | word & 15
        kind, group = word >> 12, word & 0xFC00
        if word in (0x0000, BREAK):  # NOP
            return 1
        if word & 0xFF00 == 0x0100:  # MOVW
            self.set_pair(word >> 3 & 30, self.pair(word << 1 & 30))
        elif group in (0x0400, 0x1400):  # CPC, CP
            self.difference(memory[d], memory[r], group == 0x0400)
        elif group in (0x0C00, 0x1C00):  # ADD, ADC
            self.sum(d, memory[d], memory[r], memory[SREG] & C if group == 0x1C00 else 0)
        elif group == 0x2400:  # EOR
            self.logic(d, memory[d] ^ memory[r])
        elif group == 0x2C00:  # MOV
            memory[d] = memory[r]
        elif kind in (3, 4, 5, 6, 14):
            self.with_immediate(kind, 16 + (word >> 4 & 15), word >> 4 & 0xF0 | word & 15)
        elif group == 0x9C00:  # MUL
            product = memory[d] * memory[r]
            self.set_pair(R0, product)
            self.set_flags(c=product >= 0x8000, z=product == 0)
            return 2
        elif kind == 11:  # IN, OUT
            address = IO + (word >> 5 & 0x30 | word & 15)
            if word & 0x800:
                self.store(address, memory[d])
            else:
                memory[d] = self.load(address)
        elif kind == 12:  # RJMP
            self.jump_by(signed(word & 0xFFF, 12))
            return 2
        elif group in (0xF000, 0xF400):  # BRBS, BRBC
            if (memory[SREG] >> (word & 7) & 1 == 1) == (group == 0xF000):
                self.jump_by(signed(word >> 3 & 127, 7))
                return 2
        elif word & 0xFF00 == 0x9B00:  # SBIS
            if self.load(IO + (word >> 3 & 31)) >> (word & 7) & 1:
                over = 2 if is_two_word(words[self.pc]) else 1
                self.jump_by(over)
                return 1 + over
        else:
            return self.load_or_control(word, d, words)
        return 1

    def with_immediate(self, kind, d, immediate):
        """CPI, SBCI, SUBI, ORI, LDI"""
        if kind == 14:
            self.memory[d] = immediate
        elif kind == 6:
            self.logic(d, self.memory[d] | immediate)
        else:
            result = self.difference(self.memory[d], immediate, kind == 4)
            if kind != 3:
                self.memory[d] = result

    def load_or_control(self, word, d, words):
        """1001 00.. and 1001 010.: loads and stores, jumps and calls."""
        memory = self.memory
        if word in (0x9478, 0x94F8):  # SEI, CLI
            self.hold = word == 0x9478
            memory[SREG] = memory[SREG] & 0x7F | (INTERRUPTS if self.hold else 0)
            return 1
        if word in (0x9508, 0x9518):  # RET, RETI
            self.pop_pc()
            if word == 0x9518:
                memory[SREG] |= INTERRUPTS
                self.hold = True
            return 4
        if word & 0xFE0C == 0x940C:  # JMP, CALL
            target = self.second_word(words)
            if word & 2:
                self.push_pc()
            self.pc = target % self.part.words
            return 4 if word & 2 else 3
        kind = word & 0xFE0F
        if kind == 0x9000:  # LDS
            memory[d] = self.load(self.second_word(words))
        elif kind == 0x9200:  # STS
            self.store(self.second_word(words), memory[d])
        elif kind == 0x900F:  # POP
            self.set_pair(SPL, self.pair(SPL) + 1)
            memory[d] = self.load(self.pair(SPL))
        elif kind == 0x920F:
            self.push(memory[d])
        elif kind == 0x9004:  # LPM
            address = self.pair(Z) % (2 * self.part.words)
            memory[d] = words[address // 2] >> (8 if address % 2 else 0) & 0xFF
            return 3
        elif kind == 0x9001:  # LD Z+
            address = self.pair(Z)
            byte = self.load(address)
            self.set_pair(Z, address + 1)
            memory[d] = byte
        else:
            pointer = {0x9201: Z, 0x920D: X}[kind]  # ST Z+, ST X+
            address = self.pair(pointer)
            self.store(address, memory[d])
            self.set_pair(pointer, address + 1)
        return 2

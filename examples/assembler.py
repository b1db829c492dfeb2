"""The assembler of `ice2 asm` in plain Python: the words of a text, or its first error, after the AVR Instruction Set Manual and docs/ASSEMBLER.md.

It shares no code with ice2.
"""
import re
import typing

WORDS = {"m16": 8192, "m32": 16384}
MOST = 1_048_576  # bytes of a text
ERASED = 0xFFFF

# the mnemonic, the kinds of its operands with the letters of their fields, and the bits; a second word is 16 bits more
#   Rd r0 to r31, Hd r16 to r31, Ld r16 to r23, Pd each second register, Wd each second one from r24 on, #K a number, .k a distance,
#   @ the address of a datum, *k that of an instruction, Y+q a displacement; all else is written as it stands
ROWS = """
nop            0000000000000000
movw Pd Pr     00000001ddddrrrr
muls Hd Hr     00000010ddddrrrr
mulsu Ld Lr    000000110ddd0rrr
fmul Ld Lr     000000110ddd1rrr
fmuls Ld Lr    000000111ddd0rrr
fmulsu Ld Lr   000000111ddd1rrr
cpc Rd Rr      000001rdddddrrrr
sbc Rd Rr      000010rdddddrrrr
add Rd Rr      000011rdddddrrrr
cpse Rd Rr     000100rdddddrrrr
cp Rd Rr       000101rdddddrrrr
sub Rd Rr      000110rdddddrrrr
adc Rd Rr      000111rdddddrrrr
and Rd Rr      001000rdddddrrrr
eor Rd Rr      001001rdddddrrrr
or Rd Rr       001010rdddddrrrr
mov Rd Rr      001011rdddddrrrr
cpi Hd #K      0011KKKKddddKKKK
sbci Hd #K     0100KKKKddddKKKK
subi Hd #K     0101KKKKddddKKKK
ori Hd #K      0110KKKKddddKKKK
andi Hd #K     0111KKKKddddKKKK
ldi Hd #K      1110KKKKddddKKKK
ldd Rd Y+q     10q0qq0ddddd1qqq
ldd Rd Z+q     10q0qq0ddddd0qqq
std Y+q Rr     10q0qq1rrrrr1qqq
std Z+q Rr     10q0qq1rrrrr0qqq
lds Rd @       1001000ddddd0000
sts @ Rr       1001001rrrrr0000
ld Rd Z+       1001000ddddd0001
ld Rd -Z       1001000ddddd0010
ld Rd Y+       1001000ddddd1001
ld Rd -Y       1001000ddddd1010
ld Rd X        1001000ddddd1100
ld Rd X+       1001000ddddd1101
ld Rd -X       1001000ddddd1110
st Z+ Rr       1001001rrrrr0001
st -Z Rr       1001001rrrrr0010
st Y+ Rr       1001001rrrrr1001
st -Y Rr       1001001rrrrr1010
st X Rr        1001001rrrrr1100
st X+ Rr       1001001rrrrr1101
st -X Rr       1001001rrrrr1110
lpm            1001010111001000
lpm Rd Z       1001000ddddd0100
lpm Rd Z+      1001000ddddd0101
pop Rd         1001000ddddd1111
push Rr        1001001rrrrr1111
com Rd         1001010ddddd0000
neg Rd         1001010ddddd0001
swap Rd        1001010ddddd0010
inc Rd         1001010ddddd0011
asr Rd         1001010ddddd0101
lsr Rd         1001010ddddd0110
ror Rd         1001010ddddd0111
dec Rd         1001010ddddd1010
bset #s        100101000sss1000
bclr #s        100101001sss1000
ijmp           1001010000001001
icall          1001010100001001
ret            1001010100001000
reti           1001010100011000
sleep          1001010110001000
break          1001010110011000
wdr            1001010110101000
spm            1001010111101000
jmp *k         1001010kkkkk110k
call *k        1001010kkkkk111k
adiw Wd #K     10010110KKddKKKK
sbiw Wd #K     10010111KKddKKKK
cbi #A #b      10011000AAAAAbbb
sbic #A #b     10011001AAAAAbbb
sbi #A #b      10011010AAAAAbbb
sbis #A #b     10011011AAAAAbbb
mul Rd Rr      100111rdddddrrrr
in Rd #A       10110AAdddddAAAA
out #A Rr      10111AArrrrrAAAA
rjmp .k        1100kkkkkkkkkkkk
rcall .k       1101kkkkkkkkkkkk
brbs #s .k     111100kkkkkkksss
brbc #s .k     111101kkkkkkksss
bld Rd #b      1111100ddddd0bbb
bst Rd #b      1111101ddddd0bbb
sbrc Rr #b     1111110rrrrr0bbb
sbrs Rr #b     1111111rrrrr0bbb
"""

ALIASES = {
    "sei": "bset 7", "cli": "bclr 7", "brcs": "brbs 0", "brcc": "brbc 0", "breq": "brbs 1", "brne": "brbc 1", "brmi": "brbs 2",
    "brpl": "brbc 2", "brlt": "brbs 4", "brge": "brbc 4",
}  # fmt: skip
TWICE = {"clr": "eor", "tst": "and", "lsl": "add", "rol": "adc"}

# the registers that the values of a field name: the first one, and how far apart they are
REGISTERS = {"R": (0, 1), "H": (16, 1), "L": (16, 1), "P": (0, 2), "W": (24, 2)}
NAME = re.compile(r"[A-Za-z_][A-Za-z_0-9]{0,30}")
NUMBER = re.compile(r"0x[0-9A-Fa-f]{1,8}|0|[1-9][0-9]*")


class Row(typing.NamedTuple):
    name: str
    kinds: tuple
    bits: str

    def size(self):
        return 2 if any(kind in ("@", "*k") for kind in self.kinds) else 1


def rows():
    table = {}
    for line in ROWS.split("\n")[1:-1]:
        name, *kinds, bits = line.split()
        table.setdefault(name, []).append(Row(name, tuple(kinds), bits))
    return table


TABLE = rows()


class Wrong(Exception):
    """What is wrong with a line, in a word."""


class Named(typing.NamedTuple):
    """An operand that is the place of a label."""

    name: str


OUTSIDE = object()  # an operand whose number is outside of its field


def number(word):
    """The number that a word is, or None."""
    return int(word, 0) if NUMBER.fullmatch(word) else None


def within(value, least, most):
    return None if value is None else value if least <= value <= most else OUTSIDE


def operand(kind, bits, word, part):
    """The value of an operand, a label or OUTSIDE; or None where the word is none of this kind."""
    first, letter = kind[0], kind[-1]
    count = 1 << bits.count(letter)
    if first in REGISTERS and len(kind) == 2:
        least, apart = REGISTERS[first]
        named = number(word[1:]) if word[:1] == "r" and word[1:2].isdigit() and "x" not in word else None
        if named is None:
            return None
        value, rest = divmod(named - least, apart)
        return value if rest == 0 and 0 <= value < count else OUTSIDE
    if first == "#":
        return within(number(word), 0, count - 1)
    if kind[1:] == "+q":
        return within(number(word[2:]), 0, count - 1) if word[:2] == kind[:2] else None
    if first in ".@*":
        return place(first, count, word, part)
    return 0 if word == kind else None


def place(first, count, word, part):
    """The value of an operand that may be a label."""
    if first == "." and word[:2] in (".+", ".-"):
        away = number(word[2:])
        if away is None:
            return None
        return within(away if word[1] == "+" else -away, -count // 2, count // 2 - 1)
    value = None if first == "." else within(number(word), 0, 0xFFFF if first == "@" else WORDS[part] - 1)
    return Named(word) if value is None and NAME.fullmatch(word) else value


def statement_of(text):
    """The mnemonic and the operands of a statement, with its alias written out."""
    name, *more = re.split("[ \t]+", text, maxsplit=1)
    operands = [word.strip(" \t") for word in more[0].split(",")] if more and more[0] else []
    if name in ALIASES:
        name, bit = ALIASES[name].split()
        operands = [bit, *operands]
    elif name in TWICE:
        name, operands = TWICE[name], operands * 2
    return name, operands


def instruction(name, words, part):
    """The row of a statement and the values of its operands."""
    for row in TABLE.get(name, []):
        if len(row.kinds) == len(words):
            values = [operand(kind, row.bits, word, part) for kind, word in zip(row.kinds, words)]
            if None not in values:
                if OUTSIDE in values:
                    raise Wrong("value")
                return row, values
    raise Wrong("text")


def read(line, part):
    """The label of a line, or None, and its statement: None, a place, a word, or an instruction."""
    head, colon, text = line.split(";", 1)[0].partition(":")
    label = head.lstrip(" \t") if colon else None
    if colon and not NAME.fullmatch(label):
        raise Wrong("text")
    text = (text if colon else head).strip(" \t")
    if not text:
        return label, None
    name, words = statement_of(text)
    if name in (".org", ".word"):
        value = number(words[0]) if len(words) == 1 else None
        if value is None:
            raise Wrong("text")
        if name == ".word" and value > 0xFFFF:
            raise Wrong("value")
        return label, (name, value)
    return label, instruction(name, words, part)


def lines_of(text):
    *ended, last = text.split("\n")
    return [line.removesuffix("\r") for line in ended] + [last]


class Assembly:
    """A text on its way: the place, the labels, and what was put, each with its line."""

    def __init__(self, part):
        self.part, self.place, self.labels, self.put, self.taken = part, 0, {}, [], set()

    def take(self, number, line):
        label, statement = read(line, self.part)
        if label in self.labels:
            raise Wrong("twice")
        if label is not None:
            self.labels[label] = self.place
        if statement is None:
            return
        what, value = statement
        if what == ".org":
            if value >= WORDS[self.part]:
                raise Wrong("place")
            self.place = value
            return
        size = 1 if what == ".word" else what.size()
        places = range(self.place, self.place + size)
        if places.stop > WORDS[self.part]:
            raise Wrong("place")
        if not self.taken.isdisjoint(places):
            raise Wrong("overlap")
        self.taken.update(places)
        self.put.append((number, self.place, what, value))
        self.place += size

    def words_of(self, at, what, value):
        """The words of what was put at a place."""
        if what == ".word":
            return [value]
        fields, second = {}, None
        for kind, one in zip(what.kinds, value):
            if isinstance(one, Named):
                one = self.of_label(kind, one.name, at + what.size(), 1 << what.bits.count(kind[-1]))
            if kind == "*k":
                fields["k"], second = divmod(one, 0x10000)
            elif kind == "@":
                second = one
            else:
                fields[kind[-1]] = one
        return [coded(what.bits, fields)] + ([] if second is None else [second])

    def of_label(self, kind, name, behind, count):
        if name not in self.labels:
            raise Wrong("name")
        at = self.labels[name]
        value = at - behind if kind == ".k" else at
        if (kind == ".k" and not -count // 2 <= value < count // 2) or (kind == "*k" and at == WORDS[self.part]):
            raise Wrong("far")
        return value


def coded(bits, fields):
    """The bits of a row with its fields, whose bits stand in order."""
    word, left = 0, dict(fields)
    for at, bit in enumerate(reversed(bits)):
        if bit.isdigit():
            word |= int(bit) << at
        else:
            word |= (left[bit] & 1) << at
            left[bit] >>= 1
    return word


def assemble(text, part):
    """The image of a text, or the note of its first error; the text has a character for each byte."""
    if len(text) > MOST:
        return None, "asm: large"
    whole, image = Assembly(part), {}
    line = 0
    try:
        for line, content in enumerate(lines_of(text), 1):
            whole.take(line, content)
        for line, at, what, value in whole.put:
            image.update(enumerate(whole.words_of(at, what, value), at))
    except Wrong as wrong:
        return None, f"asm: line {line} {wrong}"
    used = max(image, default=-1) + 1
    return b"".join(image.get(at, ERASED).to_bytes(2, "little") for at in range(used)), None

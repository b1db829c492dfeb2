#!/usr/bin/env python3
"""What `bench_alu all ROUNDS` must print: each operation by the Boolean formulas of the AVR Instruction Set Manual."""
import sys


def bit(number, k):
    return number >> k & 1


def sreg_of(old, **new):
    """The status byte `old` with these flags; S follows N and V where both are given."""
    if "V" in new:
        new["S"] = new["N"] ^ new["V"]
    for place, name in enumerate("CZNVSHTI"):
        if name in new:
            old = old & ~(1 << place) | new[name] << place
    return old


def sum_(a, b, c, s):
    r = a + b + c & 0xFF

    def out(k):
        x, y, z = bit(a, k), bit(b, k), bit(r, k)
        return x & y | y & (1 - z) | (1 - z) & x

    x, y, z = bit(a, 7), bit(b, 7), bit(r, 7)
    v = x & y & (1 - z) | (1 - x) & (1 - y) & z
    return r, sreg_of(s, H=out(3), C=out(7), V=v, N=z, Z=int(r == 0))


def difference(a, b, c, s):
    r = a - b - c & 0xFF

    def out(k):
        x, y, z = bit(a, k), bit(b, k), bit(r, k)
        return (1 - x) & y | y & z | z & (1 - x)

    x, y, z = bit(a, 7), bit(b, 7), bit(r, 7)
    v = x & (1 - y) & (1 - z) | (1 - x) & y & z
    return r, sreg_of(s, H=out(3), C=out(7), V=v, N=z, Z=int(r == 0))


def sbc(a, b, s):
    r, after = difference(a, b, bit(s, 0), s)
    return r, sreg_of(after, Z=bit(after, 1) & bit(s, 1))


def logic(r, s, **new):
    return r, sreg_of(s, V=0, N=bit(r, 7), Z=int(r == 0), **new)


def inc(b, s):
    r = b + 1 & 0xFF
    return r, sreg_of(s, V=int(r == 0x80), N=bit(r, 7), Z=int(r == 0))


def dec(b, s):
    r = b - 1 & 0xFF
    return r, sreg_of(s, V=int(r == 0x7F), N=bit(r, 7), Z=int(r == 0))


def shift(top, b, s):
    r = top << 7 | b >> 1
    return r, sreg_of(s, C=bit(b, 0), V=bit(r, 7) ^ bit(b, 0), N=bit(r, 7), Z=int(r == 0))


def adiw(w, k, s):
    r = w + k & 0xFFFF
    v, c = (1 - bit(w, 15)) & bit(r, 15), (1 - bit(r, 15)) & bit(w, 15)
    return r, sreg_of(s, V=v, C=c, N=bit(r, 15), Z=int(r == 0))


def sbiw(w, k, s):
    r = w - k & 0xFFFF
    v, c = bit(w, 15) & (1 - bit(r, 15)), bit(r, 15) & (1 - bit(w, 15))
    return r, sreg_of(s, V=v, C=c, N=bit(r, 15), Z=int(r == 0))


def product(p, s, shift):
    p &= 0xFFFF
    r = p << shift & 0xFFFF
    return r, sreg_of(s, C=bit(p, 15), Z=int(r == 0))


def signed(b):
    return b - 256 * bit(b, 7)


OPERATIONS = {
    "plain": lambda a, b, s: (256 * a + b, s),
    "add": lambda a, b, s: sum_(a, b, 0, s),
    "adc": lambda a, b, s: sum_(a, b, bit(s, 0), s),
    "sub": lambda a, b, s: difference(a, b, 0, s),
    "sbc": sbc,
    "and": lambda a, b, s: logic(a & b, s),
    "or": lambda a, b, s: logic(a | b, s),
    "eor": lambda a, b, s: logic(a ^ b, s),
    "com": lambda a, b, s: logic(0xFF - b, s, C=1),
    "neg": lambda a, b, s: difference(0, b, 0, s),
    "inc": lambda a, b, s: inc(b, s),
    "dec": lambda a, b, s: dec(b, s),
    "asr": lambda a, b, s: shift(bit(b, 7), b, s),
    "lsr": lambda a, b, s: shift(0, b, s),
    "ror": lambda a, b, s: shift(bit(s, 0), b, s),
    "adiw": lambda a, b, s: adiw(256 * a + b, b % 64, s),
    "sbiw": lambda a, b, s: sbiw(256 * a + b, b % 64, s),
    "mul": lambda a, b, s: product(a * b, s, 0),
    "muls": lambda a, b, s: product(signed(a) * signed(b), s, 0),
    "mulsu": lambda a, b, s: product(signed(a) * b, s, 0),
    "fmul": lambda a, b, s: product(a * b, s, 1),
    "fmuls": lambda a, b, s: product(signed(a) * signed(b), s, 1),
    "fmulsu": lambda a, b, s: product(signed(a) * b, s, 1),
}

rounds = int(sys.argv[1]) if len(sys.argv) > 1 else 1
for name, call in OPERATIONS.items():
    total, status = 0x811C9DC5, 0
    for _ in range(rounds):
        for a in range(256):
            for b in range(256):
                value, status = call(a, b, status)
                total = (total ^ 256 * value + status) * 0x01000193 & 0xFFFFFFFF
    print(f"{name} {total:08x}")

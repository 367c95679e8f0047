#!/usr/bin/env python3
"""Writes the list of the kernels' answers: crates/replay_real/list.py > crates/replay_real/stdin

An independent model, Python's standard library alone: roots by whole numbers, logarithm and power step by step as the
document has them, in Python's doubles; and for L and P the library's own logarithm and power, which must be within 1e-12.
A line is an opcode and three words: x, a (or zeros), the answer.
"""
import math, random, struct

chance = random.Random(20261115)
NAN = 0x7ff8000000000000
LN2 = struct.unpack('<d', struct.pack('<Q', 0x3fe62e42fefa39ef))[0]


def double(bits):
    return struct.unpack('<d', struct.pack('<Q', bits))[0]


def bits(x):
    return NAN if x != x else struct.unpack('<Q', struct.pack('<d', x))[0]


def line(op, x, a, answer):
    print(f'{op} {x:016x} {a:016x} {answer:016x}')


def root(x):
    """The double nearest the true root, ties to even, by whole numbers."""
    if x != x or x < 0:
        return math.nan
    if x == 0 or x == math.inf:
        return x
    m, e = math.frexp(x)
    n, e = int(m * 2 ** 53), e - 53
    if e % 2:
        n, e = 2 * n, e - 1
    n, e = n << 60, e - 60
    q = math.isqrt(n)
    extra = q.bit_length() - 53
    low, q2 = q & ((1 << extra) - 1), q >> extra
    half = 1 << (extra - 1)
    exact = q * q == n
    up = low > half or (low == half and (not exact or q2 & 1))
    return math.ldexp(q2 + up, e // 2 + extra)


def ln(x):
    if not (0 < x < math.inf):
        return math.nan
    m, e = math.frexp(x)
    m, e = 2 * m, e - 1
    if m > 1.4140625:
        m, e = m / 2, e + 1
    s = (m - 1) / (m + 1)
    z, c = s * s, 1 / 21
    for j in range(19, 0, -2):
        c = 1 / j + z * c
    return e * LN2 + (2 * s) * c


def power(y, a):
    if not (2 ** -10 <= y <= 2 and 0 <= a <= 10):
        return math.nan
    t = a * ln(y)
    k = math.floor(0.5 - t / LN2)
    r, p = t + k * LN2, 1.0
    for j in range(14, 0, -1):
        p = 1 + (r * p) / j
    return p * 2.0 ** -k


def whole(x):
    return 0 if not x > 0 else min(int(x), 2 ** 64 - 1) if x < math.inf else 2 ** 64 - 1


def words(count):
    """Edges of the format and any words, signs and NaN among them."""
    edges = [0, 1, 2, 0xfffffffffffff, 0x10000000000000, 0x10000000000001, 0x3feffffffffffff, 0x3ff0000000000000, 0x3ff0000000000001,
             0x3fd0000000000000, 0x4000000000000000, 0x4330000000000000, 0x4340000000000000, 0x43e0000000000000, 0x43efffffffffffff,
             0x43f0000000000000, 0x7fefffffffffffff, 0x7ff0000000000000, NAN, 0x7ff0000000000001]
    for e in edges:
        yield e
        yield e | 1 << 63
    for _ in range(count):
        yield chance.getrandbits(64)


def near_half(count):
    """Squares of numbers half between two doubles, which no rounding may get wrong, and their neighbours."""
    for _ in range(count):
        q = chance.getrandbits(52) | 1 << 52
        d = (q * q + q) >> 52
        for shift in (-1, 0, 1):
            yield bits(math.ldexp(float((d + shift) & (2 ** 53 - 1)), 2 * chance.randrange(-200, 200)))


for x in list(words(800)) + list(near_half(130)):
    line('s', x, 0, bits(root(double(x))))
for x in list(words(400)) + [bits(chance.random()) for _ in range(349)]:
    line('l', x, 0, bits(ln(double(x))))
for _ in range(700):
    y, a = chance.uniform(2 ** -10, 1.2), chance.choice((0.0, -0.0, 1.0, 1.5, 10.0, chance.uniform(0, 10)))
    line('p', bits(y), bits(a), bits(power(y, a)))
for y in (2 ** -10, math.nextafter(2 ** -10, 0), 2.0, math.nextafter(2.0, 3), 0.0, -1.0, math.inf, math.nan, 1.0, 0.5):
    for a in (0.0, -0.0, 10.0, math.nextafter(10.0, 11), -1.0, math.nan):
        line('p', bits(y), bits(a), bits(power(y, a)))
for _ in range(400):
    y, a = chance.uniform(2 ** -10, 1), chance.uniform(0, 10)
    line('L', bits(y), 0, bits(math.log(y)))
    line('P', bits(y), bits(a), bits(math.pow(y, a)))
for x in words(90):
    v = double(x)
    line('n', x, 0, bits(abs(v)))
    line('i', x, 0, bits(1 / v if v else math.copysign(math.inf, v)))
    line('c', x, 0, bits(float(x)))
    line('w', x, 0, whole(v))
    line('f', x, 0, int(math.isfinite(v)))

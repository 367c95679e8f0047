#!/usr/bin/env python3
"""Writes the list that replay_plan is run on: python3 list.py > stdin

A reader of plan bytes of its own, made from the document alone. Each section of the list is a rule that makes cases
(cuts of a plan, every change of one of its bytes, every row of so many fields, every change of a word of its table),
and a code for each case: 4096 times the refusal's number plus its offset, or what a digest of the answer leaves modulo 4096.
Every number is a word of 16 hex digits on a line of its own; bytes stand eight to a word, codes four to a word, lowest first.
"""
import itertools
import math
import struct

WORDS = 512  # of the table that the program lends


class Refused(Exception):
    def __init__(self, number, offset):
        self.number, self.offset = number, offset


def field(data, at):
    """The tag and payload of the field at a place, or 1."""
    if at == len(data) or len(data) < at + 3:
        raise Refused(1, at)
    tag, length = struct.unpack_from('<BH', data, at)
    if len(data) < at + 3 + length:
        raise Refused(1, at)
    return tag, data[at + 3 : at + 3 + length]


class Reader:
    def __init__(self, data):
        self.data, self.grids, self.bins = data, 0, 0
        self.words, self.reals, self.counts = [], 0, 0

    def lengths(self, at, wanted):
        tag = self.data[at]
        if tag not in wanted:
            raise Refused(1, at)
        tag, payload = field(self.data, at)
        if len(payload) != wanted[tag]:
            raise Refused(1, at)
        return payload

    def grid(self, at, depth, root):
        """Reads what hangs at a place: the offset past it, and its link."""
        if at >= len(self.data):
            raise Refused(1, len(self.data))
        tag = self.data[at]
        payload = self.lengths(at, {1: 16, 3: 11} if root else {1: 16, 3: 11, 4: 0})
        if tag == 4:
            return at + 3, 0
        link = len(self.words)
        if tag == 1:
            return self.axes(at, depth, payload), link
        bins, ratio, flag = struct.unpack('<HdB', payload)
        if self.grids == 64 or depth == 4 or not 1 <= bins <= 256:
            raise Refused(2, at)
        if flag > 1 or not 1 <= ratio < float('inf'):
            raise Refused(3, at)
        self.grids += 1
        self.words += [2, 4 - depth, bins, struct.unpack('<Q', payload[2:10])[0], flag, self.reals, self.counts] + [0] * bins
        self.reals, self.counts, self.bins = self.reals + 14 + 15 * bins, self.counts + 7 + 7 * bins, self.bins + bins
        at += 14
        for i in range(bins):
            at, self.words[link + 7 + i] = self.grid(at, depth + 1, False)
        return at, link

    def axes(self, at, depth, payload):
        axes, bins, least, flag, floor = struct.unpack('<BHIBd', payload)
        if self.grids == 64 or not 1 <= axes <= 8 or not 1 <= bins <= 1024:
            raise Refused(2, at)
        if flag > 1 or not 0 <= floor <= 1:
            raise Refused(3, at)
        at += 19
        values = []
        if at < len(self.data) and self.data[at] == 2:
            tag, evolution = field(self.data, at)
            if len(evolution) % 2:
                raise Refused(1, at)
            values = list(struct.unpack('<%dH' % (len(evolution) // 2), evolution))
            if not 1 <= len(values) <= 16 or any(not 1 <= v <= 1024 for v in values):
                raise Refused(2, at)
            at += 3 + len(evolution)
        self.grids += 1
        most = max([bins] + values)
        self.words += [1, 4 - depth, axes, bins, least, flag, struct.unpack('<Q', payload[8:])[0], most, len(values), self.reals, self.counts] + values
        self.reals += 14 + axes * (6 * most + 1)
        self.counts += 7 + axes * (3 * most + 2)
        self.bins += axes * most
        return at


def digest(numbers):
    d = 0
    for x in numbers:
        d = (d * 31 + x % 2**32 + x // 2**32) % 4294967291
    return d % 4096


def read(data, whole):
    r = Reader(data)
    end = r.grid(0, 0, True)[0]
    if whole and end < len(data):
        raise Refused(1, end)
    if len(r.words) > WORDS:
        raise Refused(10, 0)
    return r, end


def code(data, whole):
    try:
        r, end = read(data, whole)
    except Refused as e:
        return e.number * 4096 + e.offset
    return digest([end, len(r.words), r.reals, r.counts, r.bins] + r.words)


def tree(words, at):
    """The bytes of the record at a word, if only its plan's own numbers are believed; links say where children are."""
    if words[at] == 1:
        axes, bins, least, flag, floor = words[at + 2 : at + 7]
        k = words[at + 8]
        if k > 16 or axes > 255 or bins > 65535 or least >= 2**32 or flag > 255:
            return None
        values = words[at + 11 : at + 11 + k]
        if len(values) < k or any(v > 65535 for v in values):
            return None
        out = b'\1\x10\0' + struct.pack('<BHIBQ', axes, bins, least, flag, floor)
        return out + (struct.pack('<BH%dH' % k, 2, 2 * k, *values) if k else b'')
    if words[at] == 2:
        bins, ratio, flag = words[at + 2 : at + 5]
        if bins > 256 or flag > 255 or at + 7 + bins > len(words):
            return None
        out = b'\3\x0b\0' + struct.pack('<HQB', bins, ratio, flag)
        for link in words[at + 7 : at + 7 + bins]:
            below = b'\4\0\0' if link == 0 else tree(words, link) if at < link < len(words) - 11 else None
            if below is None:
                return None
            out += below
        return out
    return None


def sizes(words):
    """What a table of a plan's words, with room behind them, answers: it is a plan's exactly if reading its bytes writes it."""
    data = tree(words, 0)
    try:
        r = read(data, True)[0] if data is not None else None
    except Refused:
        r = None
    if r is None or r.words != words[: len(r.words)]:
        return 12 * 4096
    return digest([len(r.words), r.reals, r.counts, r.bins])


def word(x):
    print('%016x' % x)


def pack(numbers, bits):
    each = 64 // bits
    for i in range(0, len(numbers), each):
        word(sum(x << bits * j for j, x in enumerate(numbers[i : i + each])))


def section(kind, call, depth, base, codes):
    for x in (kind, call, depth, len(base), len(codes)):
        word(x)
    pack(list(base), 8)
    pack(codes, 16)


def cuts(base, whole):
    section(1, 0 if whole else 1, 0, base, [code(base[:k], whole) for k in range(len(base) + 1)])


def changes(base):
    codes = []
    for i in range(len(base)):
        for d in range(1, 256):
            codes.append(code(base[:i] + bytes([(base[i] + d) % 256]) + base[i + 1 :], True))
    section(2, 0, 0, base, codes)


def rows(fields, depth, whole):
    base = b''.join((bytes([len(f)]) + f).ljust(32, b'\0') for f in fields)
    codes = [code(b''.join(reversed(c)), whole) for c in itertools.product(fields, repeat=depth)]
    section(3, 0 if whole else 1, depth, base, codes)


def tables(base):
    words = read(base, True)[0].words + [7] * 16
    n, codes = len(words) - 16, []
    for i in range(n):
        for v in ((words[i] + 1) % 2**64, (words[i] - 1) % 2**64, 0, 1, 2, 2**64 - 1):
            codes.append(sizes(words[:i] + [v] + words[i + 1 :]))
    section(4, 0, 0, base, codes)


def axes(n=2, bins=3, least=5, flag=1, floor=0.25):
    return b'\1\x10\0' + struct.pack('<BHIBd', n, bins, least, flag, floor)


def evolution(*values):
    return struct.pack('<BH%dH' % len(values), 2, 2 * len(values), *values)


def bins(n, ratio=10.0, flag=0):
    return b'\3\x0b\0' + struct.pack('<HdB', n, ratio, flag)


none = b'\4\0\0'
leaf = axes() + evolution(4, 1024, 1)
nest = bins(2) + axes(1, 2, 0, 0, 0.0) + none
deep = bins(1) + bins(1) + bins(2) + none + bins(1)
above, under, infinity, nan = math.nextafter(1, 2), math.nextafter(1, 0), math.inf, math.nan
floors = [axes(floor=f) for f in (0.0, -0.0, 5e-324, -5e-324, 1.0, above, infinity, -infinity, nan, -nan)]
sizes_of_axes = [axes(0), axes(8), axes(9), axes(bins=0), axes(bins=1), axes(bins=1024), axes(bins=1025), axes(flag=2), axes(9, flag=2), axes(least=2**32 - 1)]
ratios = [bins(1, r) for r in (1.0, under, above, 1e308, infinity, -infinity, nan, -nan, 0.0, -0.0, -1.0)]
sizes_of_bins = [bins(0), bins(257), bins(1, flag=1), bins(1, flag=2), bins(0, nan, 2)]
evolutions = [evolution(), evolution(1), evolution(1024), evolution(0), evolution(1025), evolution(3, 0), evolution(3, 1025), b'\2\3\0\1\0\1', evolution(*range(1, 14))]

if __name__ == '__main__':
    for base in (leaf, nest, deep + axes(), deep + bins(1) + none, bins(40) + axes() * 40, bins(63) + axes() * 63, bins(64) + axes() * 64, bins(3) + none * 3 + none, axes() + evolution(*[9] * 16), axes() + evolution(*[9] * 17)):
        cuts(base, True)
        cuts(base, False)
    for base in (leaf, nest):
        changes(base)
    for depth in range(5):
        rows([axes(), evolution(7), bins(1), bins(2), none, b'\5\0\0', axes(9, 3, 0, 9), b'\2\1\0\1'], depth, True)
        rows([axes(), evolution(7), bins(1), bins(2), none], depth, False)
        rows([bytes([b]) for b in (0, 1, 2, 3, 4, 16)], depth, True)
    rows(floors + sizes_of_axes, 1, True)
    rows(ratios + sizes_of_bins + [none], 2, True)
    rows([axes()] + evolutions, 2, True)
    rows([axes(), none, bins(1)] + evolutions, 3, False)
    for base in (leaf, nest, bins(3) + leaf + bins(2) + none + axes() + none):
        tables(base)

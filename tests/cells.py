#!/usr/bin/env python3
# Works out document 01's cell numbers and the checksums over all measurements straight from its rules, in exact fractions.
# It shares no code with the proved crates: tests/compare looks for its lines in what the vectors program prints.
import struct
from fractions import Fraction


def nearest(x):
    """The nearest whole number, a half going away from zero."""
    size = abs(x) + Fraction(1, 2)
    whole = size.numerator // size.denominator
    return -whole if x < 0 else whole


def single(x):
    """The bit pattern of x in single precision, which must lose nothing."""
    packed = struct.pack(">f", float(x))
    assert Fraction(struct.unpack(">f", packed)[0]) == x, x
    return int.from_bytes(packed, "big")


def volts(name, m):
    return Fraction((m if name == "unipolar" else m - 8192) * 5, 16384)


def read_cell(name, mask, c, register):
    """A pair of microvolts and pattern, or the words that stand in its place."""
    if not 1 <= c <= 12:
        return "number 12, turned away, CHANNEL"
    if not mask & (1 << (c - 1)):
        return "number 0, not measured"
    if register & 3:
        return "number 13, turned away, LOW BITS"
    v = volts(name, register >> 2)
    return nearest(v * 1000000), single(v)


def show(name, mask, c, register):
    answer = read_cell(name, mask, c, register)
    if not isinstance(answer, str):
        answer = "number 0, %d microvolts, volts %08x" % answer
    print("cell %d, %s, mask %03x, register %04x: %s" % (c, name, mask, register, answer))


def fold(total, word):
    return ((total << 5) & 0xFFFFFFFF | total >> 27) ^ word


def sweep(name):
    total = 0
    for m in range(16384):
        answer = read_cell(name, 0xFFF, 1 + m % 12, 4 * m)
        if isinstance(answer, str):
            answer = 0xFFFFFFFF, 0xFFFFFFFF
        total = fold(fold(total, answer[0] & 0xFFFFFFFF), answer[1])
    print("measurements 0 to 16383, %s: checksum %08x" % (name, total))


for c, name, m, microvolts in [
    (1, "unipolar", 128, 39063),
    (2, "bipolar", 8064, -39063),
    (1, "bipolar", 0, -2500000),
    (12, "unipolar", 16383, 4999695),
    (6, "unipolar", 8192, 2500000),
    (6, "bipolar", 8192, 0),
    (11, "unipolar", 11796, 3599854),
]:
    # the paper's own figure, so that one slip in both programs is not taken for agreement
    assert nearest(volts(name, m) * 1000000) == microvolts, m
    show(name, 1 << (c - 1), c, 4 * m)
show("unipolar", 0x001, 1, 0x0001)
show("unipolar", 0xFFE, 1, 0x0001)
show("unipolar", 0xFFF, 0, 0x0001)
show("unipolar", 0xFFF, 13, 0x0001)
sweep("unipolar")
sweep("bipolar")

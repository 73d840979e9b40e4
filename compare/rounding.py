"""Holds a table of interval operations (driver/rounding.rs) against fractions: each bound must be the exact result's next
double downward or upward, and a zero -0 below and +0 above."""
import itertools
import math
import operator
import struct
from fractions import Fraction

EXACT = {"minus": operator.sub, "over": operator.truediv, "fused": lambda a, b, c: a * b + c}


def double(digits):
    return struct.unpack(">d", int(digits, 16).to_bytes(8, "big"))[0]


def interval(text):
    return tuple(map(double, text.split(":")))


def is_between(a, q, b):
    """Whether a is at most q and q is less than b, which may be infinite."""
    return (a == -math.inf or Fraction(a) <= q) and (b == math.inf or q < Fraction(b))


def is_tight(lower, upper, least, greatest):
    down = lower < math.inf and is_between(lower, least, math.nextafter(lower, math.inf))
    up = upper > -math.inf and is_between(-upper, -greatest, math.nextafter(-upper, math.inf))
    signs = math.copysign(1, lower) == -1 or lower > 0, math.copysign(1, upper) == 1 or upper < 0
    return down and up and all(signs)


def wrong(line):
    """Whether a line's result is not the one that is due."""
    name, *words = line.split()
    *operands, (lower, upper) = map(interval, words)
    values = [EXACT[name](*map(Fraction, corner)) for corner in itertools.product(*operands)]
    return not is_tight(lower, upper, min(values), max(values))


def differences(file):
    """How many operations a table has, and those whose result is wrong."""
    with open(file) as table:
        lines = table.read().splitlines()
    return len(lines), [line for line in lines if wrong(line)]

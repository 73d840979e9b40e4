#!/usr/bin/env python3
"""make.py: writes data/leaves (questions to the leaf crates) and stdout (the answers that they must print).

    python3 crates/replay_leaves/make.py        run from anywhere; the same bytes come out each time

The answers are computed here from documents 01 and 02 with whole numbers and fractions, by no code of the crates:
a midpoint is the exact half sum as a fraction, rounded by Python's own division of whole numbers (which rounds once, to nearest, ties to even).
Those of share.tsv were made from document 02 by another hand; they are played as they stand, and held against the ones computed here.

A question has 25 bytes: its kind, then 24 bytes, unused ones 0.
    1  a number to code           x in 8 bytes, the more significant first (so are all numbers below)
    2  bytes to read as a code    how many (0 to 16), then the bytes
    3  a coordinate and a side    index in 8, level + 48 in 1, side in 4
    4  an interval                lower in 8 and upper in 8 (bit patterns), 1 for an integer parameter in 1
    5  a share                    settled pixels in 4, all pixels in 4
An answer is a line of hexadecimal numbers, each after a space; r and a number stands for a refusal.
"""
import math
import os
import random
import sys
from fractions import Fraction

sys.path.append(os.path.join(os.path.dirname(os.path.abspath(__file__)), ".."))
from lists import bits, bounds, lines_of, next_to, of_bits, one_nan, write

INF = math.inf
MAX = of_bits(0x7FEFFFFFFFFFFFFF)


# ---- small numbers

LIMITS = [0x7F, 0x3FFF, 0x1FFFFF, 0xFFFFFFF, 0x7FFFFFFFF, 0x3FFFFFFFFFF, 0x1FFFFFFFFFFFF, 0xFFFFFFFFFFFFFF]


def code(x, z):
    return bytes([((2 * x + 1) * 2**z) % 256]) + (x // 2 ** (7 - z)).to_bytes(z, "little")


def written(x):
    for z, limit in enumerate(LIMITS):
        if x <= limit:
            c = code(x, z)
            return f"{c[0]:x} {int.from_bytes(c[1:], 'little'):x} {z:x}"
    return "r9"


def read(b):
    if len(b) == 0:
        return "ra"
    if b[0] == 0:
        return "rb"
    z = 0
    while b[0] >> z & 1 == 0:
        z += 1
    if len(b) < z + 1:
        return "ra"
    word = int.from_bytes(b[: z + 1], "little")
    return f"{word >> (z + 1):x} {z + 1:x}"


# ---- coordinates

FLOOR = 16  # level -32, by its number level + 48


def coordinate(index, rank, side):
    if not (FLOOR <= rank <= 63 and index < 2**47):
        return "0 r8 r8 r8 r8"
    k = rank - 48
    start = Fraction(index) * Fraction(2) ** k
    pixel = math.floor(start)
    if k > -32 and 2 * index + 1 < 2**47:
        halves = f"{2 * index:x} {rank - 1:x} {2 * index + 1:x} {rank - 1:x}"
    else:
        halves = "r8"
    return f"1 {pixel:x} {halves} {int(k > -32)} {int(pixel < side)}"


# ---- intervals


def legal(a, b, integer):
    if math.isnan(a) or math.isnan(b) or not a <= b or a == INF or b == -INF:
        return False
    return not integer or all(math.isinf(v) or Fraction(v).denominator == 1 for v in (a, b))


def put(a, b):
    return (-0.0 if a == 0 else a, 0.0 if b == 0 else b)


def nearest(q):
    """The double nearest to a fraction, ties to even; a zero is +0."""
    return q.numerator / q.denominator + 0.0


def whole(x):
    """Half away from zero."""
    if math.isinf(x):
        return x
    q = Fraction(x)
    n = math.floor(abs(q) + Fraction(1, 2))
    return float(n if q > 0 else -n) + 0.0


def midpoint(a, b):
    if a == -INF:
        return 0.0 if b == INF else -MAX
    if b == INF:
        return MAX
    return nearest((Fraction(a) + Fraction(b)) / 2)


def up_to(b):
    if b < 0:
        return max(2 * b, -MAX)
    return -1.0 if b == 0 else 0.0


def cut_point(a, b, integer):
    if a == -INF:
        return 0.0 if b == INF else up_to(b)
    if b == INF:
        return -up_to(-a) + 0.0
    return whole(midpoint(a, b)) if integer else midpoint(a, b)


def subdivisible(a, b, integer):
    m = midpoint(a, b)
    m = whole(m) if integer else m
    return m != a and m != b


def width(a, b):
    return INF if math.isinf(a) or math.isinf(b) else Fraction(b) - Fraction(a)


def first_cut(a, b, integer):
    pieces = [p for p in [(a, a), (a, b), (b, b)] if legal(*p, integer)]
    if integer:
        pieces = [p for p in pieces if width(*p) != 1]
        pieces = [p for i, p in enumerate(pieces) if i == 0 or p != pieces[i - 1]]
    return pieces


def later_cut(a, b, integer):
    c = cut_point(a, b, integer)
    pieces = [(a, c), (c, c), (c, b)]
    if not integer:
        return pieces
    out = []
    for p in pieces:
        if width(*p) == 1:
            continue
        if width(*p) == 2 and subdivisible(*p, True):
            m = nearest((Fraction(p[0]) + Fraction(p[1])) / 2)
            p = (m, m)
        out.append(p)
    return out


def simple_fraction(a, b):
    x, y = bits(a), bits(b)
    n = 64 - (x ^ y).bit_length()
    if n == 64:
        return x
    keep = x if a <= 0 else y
    return keep >> (63 - n) << (63 - n)


def listed(pieces):
    return " ".join([f"{len(pieces):x}"] + [f"{bits(v):x}" for p in pieces for v in put(*p)])


def as_put(a, b):
    """The bounds put, and whether they count as the same ones."""
    low, high = put(a, b)
    return f"{one_nan(low):x} {one_nan(high):x} {int(a == low and b == high)}"


def interval(lower, upper, integer):
    return answers(lower, upper, integer) + " " + as_put(of_bits(lower), of_bits(upper))


def answers(lower, upper, integer):
    a, b = of_bits(lower), of_bits(upper)
    if not legal(a, b, integer):
        # midpoint and fraction ask for no whole bounds
        if not legal(a, b, False):
            return "0 r3 r3 r3 r3 r3 r3 r3"
        a, b = put(a, b)
        return f"0 {bits(midpoint(a, b)):x} r3 r3 r3 r3 {simple_fraction(a, b):x} r3"
    a, b = put(a, b)
    return " ".join(
        [
            "1",
            f"{bits(midpoint(a, b)):x}",
            f"{bits(cut_point(a, b, integer)):x}",
            f"{int(subdivisible(a, b, integer))}",
            listed(first_cut(a, b, integer)),
            listed(later_cut(a, b, integer)),
            f"{simple_fraction(a, b):x}",
            f"{bits(a):x} {bits(b):x}",
        ]
    )


# ---- the share


def share(settled, pixels):
    return math.floor(Fraction(1000 * settled, pixels)) if pixels else 0


def shares():
    """Settled pixels, all pixels and the share: the recorded ones; then every number settled of small pictures, and what no picture has."""
    recorded = [tuple(map(int, line.split("\t"))) for line in lines_of(next_to(__file__, "share.tsv"))[1:]]
    for settled, pixels, said in recorded:
        assert share(settled, pixels) == said, (settled, pixels, said)
    yield from recorded
    top = 2**32 - 1
    pairs = [(s, n) for n in (5, 6, 16, 20) for s in range(n + 1)]
    pairs += [(0, 0), (1, 0), (top, 0), (0, top), (top - 1, top), (top, top), (top, 1), (3, 2), (4097, 4096)]
    for settled, pixels in pairs:
        yield settled, pixels, share(settled, pixels)


# ---- the questions


def questions(rng):
    edges = [0, 1, 2] + [v for l in LIMITS for v in (l - 1, l, l + 1)] + [2**56 + 1, 2**63, 2**64 - 1]
    for x in edges + [rng.getrandbits(rng.randint(1, 64)) for _ in range(300)]:
        yield 1, x.to_bytes(8, "big"), written(x)

    codes = [b"", bytes([0]), bytes(9), bytes([0, 1, 2, 3, 4, 5, 6, 7, 8])]
    for z in range(8):
        for x in (0, 1, 127, LIMITS[z], rng.randint(0, LIMITS[z])):
            c = code(min(x, LIMITS[z]), z)  # also longer than needed
            codes += [c, c + bytes([rng.getrandbits(8)]), c[:-1], c + bytes([255] * 7)]
    codes += [bytes([h]) + bytes(rng.getrandbits(8) for _ in range(8)) for h in range(256)]
    codes += [bytes(rng.getrandbits(8) for _ in range(rng.randint(1, 9))) for _ in range(200)]
    for b in codes:
        yield 2, bytes([len(b)]) + b, read(b)

    sides = [0, 1, 2, 3, 5, 127, 128, 129, 32767, 32768, 32769, 2**32 - 1]
    for rank in [0, 15, 16, 17, 31, 32, 46, 47, 48, 49, 50, 55, 62, 63, 64, 255]:
        for index in [0, 1, 2, 3, 2**31, 2**32 - 1, 2**32, 2**46 - 1, 2**46, 2**47 - 1, 2**47, 2**63, 2**64 - 1, rng.getrandbits(40)]:
            side = rng.choice(sides)
            yield 3, index.to_bytes(8, "big") + bytes([rank]) + side.to_bytes(4, "big"), coordinate(index, rank, side)
    for side in sides:
        for rank in (16, 17, 40, 47, 48, 49, 55, 62, 63):
            last = math.ceil(Fraction(side) / Fraction(2) ** (rank - 48))
            for index in {max(last - 1, 0), last, last + 1}:
                yield 3, index.to_bytes(8, "big") + bytes([rank]) + side.to_bytes(4, "big"), coordinate(index, rank, side)

    tiny, small = of_bits(1), of_bits(0x0010000000000000)
    values = [0.0, tiny, 2 * tiny, 3 * tiny, small, 0.3, 0.4, 0.5, 1.0, 1.5, 2.0, 2.5, 3.0, 4.0, 5.0, 8.0]
    values += [2.0**52 - 1, 2.0**52 - 0.5, 2.0**52, 2.0**53 - 1, 2.0**53, 2.0**53 + 2, 2.0**970, MAX / 2, of_bits(bits(MAX) - 1), MAX, INF]
    values += [-v for v in values]
    pairs = [(bits(a), bits(b)) for a in values for b in values if rng.random() < (0.4 if a <= b else 0.02)]
    pairs += [(0x7FF8000000000000, 0), (0, 0xFFF8000000000001), (0x7FF0000000000001, 0x7FF0000000000001), (0xFFFFFFFFFFFFFFFF, 0)]
    named = [(1, INF), (-INF, -1), (0.3, 0.4), (0, 3), (0, INF), (5, 5), (-INF, INF), (INF, INF), (-INF, -INF), (MAX, INF), (-INF, -MAX)]
    named += [(0.0, 0.0), (-0.0, 0.0), (0.0, -0.0), (-0.0, -0.0), (0.0, 1.0), (-1.0, -0.0), (MAX, MAX), (-MAX, MAX), (-MAX, -MAX), (-tiny, 0.0), (-tiny, tiny)]
    named += [(a, a + w) for a in (-3, -1, 0, 1, 2**51, 2**53 - 4) for w in (0, 1, 2, 3, 4)]
    named += [(2**53 - 2, 2**53), (2**53 - 1, 2**53), (2**53, 2**53 + 2), (2**53 + 2, 2**53 + 4), (2**53, 2**53 + 4), (-(2**53) - 2, -(2**53))]
    named += [(3, 1), (1, -INF)]
    pairs += [(bits(float(a)), bits(float(b))) for a, b in named]
    for _ in range(300):  # bit patterns of any kind
        pairs.append((rng.getrandbits(64), rng.getrandbits(64)))
    for _ in range(800):  # ordered, near and far
        a = of_bits(rng.getrandbits(64))
        b = of_bits(bits(a) ^ rng.getrandbits(rng.randint(1, 60))) if rng.random() < 0.6 else of_bits(rng.getrandbits(64))
        if a == a and b == b:
            pairs.append((bits(min(a, b)), bits(max(a, b))))
    for lower, upper in pairs:
        for integer in (0, 1):
            a, b = of_bits(lower), of_bits(upper)
            if integer and legal(a, b, False) and not legal(a, b, True) and rng.random() < 0.85:
                continue
            yield 4, lower.to_bytes(8, "big") + upper.to_bytes(8, "big") + bytes([integer]), interval(lower, upper, integer)
    for _ in range(700):  # whole bounds, widths 0 to 3 and more
        a = float(rng.choice([1, -1]) * rng.getrandbits(rng.randint(1, 60)))
        b = rng.choice([a + rng.randint(0, 3), a + rng.getrandbits(rng.randint(1, 55)), INF])
        if rng.random() < 0.3:
            a, b = -b, -a
        yield 4, bounds((a, b)) + bytes([1]), interval(bits(a), bits(b), 1)

    for settled, pixels, said in shares():
        yield 5, settled.to_bytes(4, "big") + pixels.to_bytes(4, "big"), f"{said:x}"


def main():
    rng = random.Random(20261115)
    every = list(questions(rng))
    asked = b"".join(bytes([kind]) + body + bytes(24 - len(body)) for kind, body, _ in every)
    printed = "".join(f" {answer}\n" for _, _, answer in every)
    write(__file__, "data/leaves", asked, printed + f" {len(every):x} questions\n")


main()

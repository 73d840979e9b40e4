#!/usr/bin/env python3
"""make.py: writes data/boxes (blocks and the plots that they stand in) and stdout (the boxes that must be printed).

    python3 crates/replay_boxes/make.py        run from anywhere; the same bytes come out each time

The answers are those of model.py. It is held against every row of boxes.tsv, those marked open too; and of every box it is
seen, on fractions, that its edges hold the exact mapped values wherever the picture's edges stand in their intervals.

A question has 19 words of 64 bits, the least significant byte first: 0 for the quick map and 1 for the precise one; width,
height; padding left, right, bottom, top; the lower and upper bounds of the edges left, right, bottom, top, by their bits; index
and level + 48 of x, then of y. An answer is a line: the bounds of left, right, bottom, top, x and y, or r and a refusal.
"""
import math
import os
import random
import struct
import sys
from fractions import Fraction

sys.path.append(os.path.join(os.path.dirname(os.path.abspath(__file__)), ".."))
from lists import bits, lines_of, next_to, of_bits, of_digits, one_nan, write
from model import INF, PRECISE, QUICK, Box, Place, Plot, Refused, axes, block_box, ends, mapped

MAX, TINY, NAN = of_bits(0x7FEFFFFFFFFFFFFF), of_bits(1), math.nan
KINDS = (QUICK, PRECISE)
NONE = (0, 0, 0, 0)


def at(*numbers):
    """Edges that are known exactly."""
    return tuple((float(n), float(n)) for n in numbers)


def answer(question):
    try:
        return block_box(*question)
    except Refused as refused:
        return refused.number


# ---- what holds of every box


def within(x, q):
    return Fraction(x[0]) <= q <= Fraction(x[1])


def standings(edge, rng):
    """Where an edge may stand: its two ends, and a point between."""
    a, b = map(Fraction, edge)
    return a, b, a + (b - a) * Fraction(rng.randint(0, 2**20), 2**20)


def examine_axis(axis, place, low, high, rng):
    begin, end = ends(axis, place)
    inner = begin + (end - begin) * Fraction(rng.randint(0, 2**20), 2**20)
    for first in standings(axis.first, rng):
        for last in standings(axis.last, rng):
            assert within(low, mapped(axis, first, last, begin)), (axis, place, first, last)
            assert within(high, mapped(axis, first, last, end)), (axis, place, first, last)
            # with the picture's edges in order the outermost ends hold every point of the block
            if first <= last:
                assert within((low[0], high[1]), mapped(axis, first, last, inner)), (axis, place, first, last)


def share_an_end(question, box):
    """The part of the pixel to the right begins where this one ends, unless it has no box."""
    plot, kind, x, y = question
    if x.rank < 48 and (x.index + 1) % 2 ** (48 - x.rank):
        beside = answer((plot, kind, x._replace(index=x.index + 1), y))
        assert beside == 15 or beside.x[0] == box.x[1], question


def examine(question, box, rng):
    plot, _, x, y = question
    across, up = axes(plot)
    share_an_end(question, box)
    examine_axis(across, x, box.left, box.right, rng)
    examine_axis(up, y, box.bottom, box.top, rng)


# ---- the rows of another hand


def intervals(text):
    return tuple(tuple(map(of_digits, pair.split(":"))) for pair in text.split())


def same(x, y):
    return [tuple(map(one_nan, p)) for p in x] == [tuple(map(one_nan, p)) for p in y]


def given():
    """The recorded questions, each after its answer has been held against the model's."""
    for line in lines_of(next_to(__file__, "boxes.tsv"))[1:]:
        row = line.split("\t")
        kind = (QUICK, PRECISE)[row[1] == "precise"]
        plot = Plot(int(row[2]), int(row[3]), tuple(map(int, row[4].split())), intervals(row[5]))
        x, y = (Place(int(row[i]), int(row[i + 1]) + 48) for i in (6, 8))
        got = answer((plot, kind, x, y))
        if not isinstance(got, Box):
            assert got == int(row[10]), row
        else:
            assert row[10] == "0" and same(got[:4], intervals(row[11])), row
            # no narrowed column above level 0: there x and y are the outermost ends
            outermost = f"{bits(got.left[0]):x}:{bits(got.right[1]):x} {bits(got.bottom[0]):x}:{bits(got.top[1]):x}"
            assert same(got[4:6], intervals(row[12] or outermost)), row
            assert same(got.maps[0], intervals(row[13])) and same(got.maps[1], intervals(row[14])), row
        yield plot, kind, x, y


# ---- worked values


def hexed(*digits):
    return tuple(map(float.fromhex, digits))


def worked():
    """Boxes and refusals as they were worked out by hand and by another model: (question, what is due)."""
    square = Plot(4, 4, NONE, at(0, 1, 0, 2))
    halves = square, Place(1, 49), Place(0, 49)
    half = hexed("0x1.ffffffffffffap-2", "0x1.0000000000005p-1")
    whole = hexed("0x1.ffffffffffffap-1", "0x1.0000000000005p+0")
    bottom = hexed("-0x0.0000000000004p-1022", "0x0.0000000000004p-1022")
    yield (halves[0], QUICK, *halves[1:]), {"left": half, "right": whole, "bottom": bottom, "top": whole, "x": (half[0], whole[1])}
    yield (halves[0], PRECISE, *halves[1:]), {"left": hexed("0x1.ffffffffffff9p-2", "0x1.0000000000006p-1")}
    parts = Place(3, 47), Place(4, 47)
    upper = hexed("0x1.8p-2", "0x1.0000000000005p-1")
    yield (square, QUICK, *parts), {"x": upper, "y": hexed("0x1.ffffffffffffap-1", "0x1.4000000000001p+0")}
    yield (square, PRECISE, *parts), {"y": hexed("0x1.ffffffffffff9p-1", "0x1.4p+0")}
    # the outermost ends are equal, and do not cross
    touching = hexed("0x1.999999999999ap-4", "0x1.9999999999998p-4")
    one = Plot(1, 1, NONE, at(*touching, 0, 1))
    yield (one, PRECISE, Place(0, 48), Place(0, 48)), {"x": hexed("0x1.9999999999999p-4", "0x1.9999999999999p-4")}
    # edges in order, and yet the narrowed ends cross
    least = Plot(1, 1, NONE, at(0, TINY, 0, 1))
    yield (least, QUICK, Place(4, 45), Place(4, 45)), 15
    yield (square._replace(padding=(2, 2, 0, 0)), QUICK, *parts), 16
    yield (square._replace(edges=at(1, 0, 0, 2)), QUICK, *halves[1:]), 15
    unbounded = square._replace(edges=((0.0, 0.0), (1.0, INF), (0.0, 0.0), (2.0, 2.0)))
    yield (unbounded, QUICK, *parts), 15
    yield (unbounded, QUICK, Place(4, 48), Place(0, 48)), 8
    yield (square._replace(edges=at(-MAX, MAX, 0, 2)), PRECISE, *parts), 15


def orders():
    """Each refusal with everything wrong that comes after it: (question, what is due)."""
    bad, far = (NAN, 0.0), Place(2**64 - 1, 255)
    wild = (bad, (INF, INF), (1.0, 0.0), (-INF, -INF))
    crossing = at(1, -1, 1, -1)
    padded = (2**32 - 1,) * 4
    for kind in KINDS:
        for width, height in ((0, 0), (0, 5), (5, 0), (32769, 5), (5, 2**32 - 1)):
            yield (Plot(width, height, padded, wild), kind, far, far), 1
        for padding in (padded, (5, 0, 0, 0), (0, 0, 3, 2), (0, 0, 0, 5), (3, 2**32 - 3, 0, 0), (0, 0, 2**32 - 1, 2)):
            yield (Plot(5, 5, padding, wild), kind, far, far), 16
        for i, edge in enumerate(wild):
            edges = tuple(edge if j == i else p for j, p in enumerate(crossing))
            yield (Plot(32768, 1, (16384, 16383, 0, 0), edges), kind, far, Place(1, 48)), 3
        plot = Plot(5, 5, (2, 2, 0, 4), crossing)
        for x, y in ((Place(5, 48), Place(0, 48)), (Place(0, 48), Place(5, 48)), (Place(0, 48), Place(0, 47)), (Place(0, 63), Place(0, 62))):
            yield (plot, kind, x, y), 8
        yield (plot, kind, Place(0, 48), Place(0, 48)), 15
        # each single edge without an end
        for i in range(4):
            for open_ended in ((-INF, -1.0), (1.0, INF), (-INF, INF)):
                edges = tuple(open_ended if j == i else p for j, p in enumerate(at(0, 1, 0, 1)))
                yield (Plot(3, 3, NONE, edges), kind, Place(1, 48), Place(1, 48)), 15


def rims():
    """The first and last levels and indices, inside and outside: (question, whether it is a box or 8)."""
    for kind in KINDS:
        for width, rank in ((1, 16), (1, 48), (5, 47), (5, 49), (32768, 16), (32768, 63), (32767, 62), (3, 17)):
            plot = Plot(width, width, NONE, at(-3, 5, -0.1, 0.3))
            count = math.ceil(Fraction(width) / Fraction(2) ** (rank - 48))
            last, first = Place(count - 1, rank), Place(0, rank)
            yield (plot, kind, last, last), Box
            yield (plot, kind, first, last), Box
            yield (plot, kind, Place(count, rank), first), 8
            yield (plot, kind, first, Place(count, rank)), 8
        plot = Plot(32768, 32768, NONE, at(0, 1, 2, 3))
        for rank in (0, 15, 64, 255):
            yield (plot, kind, Place(0, rank), Place(0, rank)), 8
        yield (plot, kind, Place(2**47 - 1, 16), Place(2**47 - 1, 16)), Box
        for index in (2**47, 2**63, 2**64 - 1):
            yield (plot, kind, Place(index, 16), Place(0, 16)), 8
            yield (plot, kind, Place(0, 16), Place(index, 16)), 8


def zeros():
    """Edges at the least numbers, where a bound may come out as a zero of either side."""
    for kind in KINDS:
        for n in range(1, 9):
            for edges in (at(n * TINY, (n + 3) * TINY, 0, 1), at(-(n + 3) * TINY, -n * TINY, -0.0, 1)):
                for rank in (47, 48):
                    yield (Plot(1, 1, NONE, edges), kind, Place(0, rank), Place(0, rank)), Box


def held(pairs):
    """The questions, each after its due answer has been held against the model's."""
    for question, due in pairs:
        got = answer(question)
        if isinstance(due, dict):
            assert all(same([getattr(got, name)], [value]) for name, value in due.items()), (question, got, due)
        else:
            assert isinstance(got, Box) if due is Box else got == due, (question, got, due)
        yield question


# ---- why the every-point law asks for edges in order


def disordered():
    """Boxes that a point of their block is mapped outside of: the picture's edges stand in the wrong order, and the ends do not
    cross all the same. (question, where the edges stand, the point)"""
    wide = Plot(1, 1, NONE, ((4.0, 10.0), (0.0, 6.0), (0.0, 0.0), (1.0, 1.0)))
    lone = Place(0, 48)
    for kind in KINDS:
        yield (wide, kind, lone, lone), (10, 0), 1
        # nor do the two parts of the pixel hold it
        for index in (0, 1):
            yield (wide, kind, Place(index, 47), Place(0, 47)), (10, 0), Fraction(9, 10)
    # edges that are known exactly, two or three doubles apart; the whole pixel and both of its parts
    for kind, doubles in ((QUICK, 3), (PRECISE, 2)):
        first = 1 + doubles * 2.0**-52
        for place in (lone, Place(0, 47), Place(1, 47)):
            yield (Plot(1, 1, NONE, at(first, 1, 0, 1)), kind, place, Place(0, place.rank)), (first, 1), 0


def outside():
    for question, (first, last), p in disordered():
        box = answer(question)
        across, _ = axes(question[0])
        assert not within(box.x, mapped(across, Fraction(first), Fraction(last), Fraction(p))), question
        yield question


# ---- random boxes


def number(rng):
    """A bound of any size."""
    shape = rng.random()
    if shape < 0.45:
        return rng.choice([rng.uniform(-10, 10), float(rng.randint(-9, 9)), rng.randint(-99, 99) / 10])
    if shape < 0.6:
        return rng.choice([0.0, -0.0])
    if shape < 0.7:
        return rng.choice([1, -1]) * rng.getrandbits(rng.randint(1, 54)) * TINY
    if shape < 0.76:
        return rng.choice([1, -1]) * of_bits(rng.randint(bits(2.0**1005), bits(MAX)))
    if shape < 0.8:
        return rng.choice([MAX, -MAX, TINY, -TINY, 2.0**-1022, -(2.0**-1022), INF, -INF])
    return rng.choice([1, -1]) * of_bits(rng.randint(bits(2.0**-900), bits(2.0**900)))


def edge(rng, x):
    """An interval from x on: alone, some doubles wide, or wide."""
    shape = rng.random()
    if shape < 0.45 or math.isinf(x):
        return (x, x) if not math.isinf(x) else (min(x, 1.0), max(x, -1.0))
    if shape < 0.75:
        y = x
        for _ in range(rng.randint(1, 9)):
            y = math.nextafter(y, INF)
        return (x, y)
    y = rng.choice([x + abs(x) * rng.random(), x + rng.random(), number(rng)])
    return (min(x, y), max(x, y))


def edges_of(rng):
    """Two edges of an axis, mostly in order."""
    x = number(rng)
    y = rng.choice([number(rng), number(rng), x, x + rng.uniform(0, 1e-9) * abs(x), x + rng.random()])
    if rng.random() < 0.93:
        x, y = min(x, y), max(x, y)
    pair = [edge(rng, x), edge(rng, y)]
    if rng.random() < 0.02:
        i = rng.randrange(2)
        pair[i] = rng.choice([(NAN, 1.0), (1.0, NAN), (pair[i][1], math.nextafter(pair[i][0], -INF)), (INF, INF), (-INF, -INF)])
    return pair


def padding_of(rng, side):
    shape = rng.random()
    if shape < 0.5:
        return 0, 0
    if shape < 0.97:
        before = rng.randrange(side)
        return before, rng.randrange(side - before)
    before = rng.choice([side, rng.randrange(side), 2**32 - 1])
    return before, max(side - before, 0) if rng.random() < 0.5 else 2**32 - rng.randint(1, side + 1)


def place_of(rng, side, rank):
    count = math.ceil(Fraction(side) / Fraction(2) ** (rank - 48))
    if rng.random() < 0.03:
        return Place(count + rng.choice([0, 0, 1, 2**40]), rank)
    index = rng.choice([rng.randrange(count), rng.randrange(count), 0, count - 1, min(rng.randrange(16), count - 1)])
    return Place(index, rank)


def anything(rng):
    width, height = (rng.choice([1, 2, 3, 5, 8, rng.randint(1, 300), rng.randint(1, 32768), 32768]) for _ in range(2))
    across, up = padding_of(rng, width), padding_of(rng, height)
    plot = Plot(width, height, across + up, tuple(edges_of(rng) + edges_of(rng)))
    rank = rng.choice([rng.randint(16, 63), rng.randint(16, 47), rng.randint(44, 47), 48, rng.randint(48, 52)])
    x, y = place_of(rng, width, rank), place_of(rng, height, rank)
    if rng.random() < 0.01:
        y = y._replace(rank=rng.choice([15, 16, 47, 48, 63, 64]))
    return plot, rng.choice(KINDS), x, y


# ---- the list


def words(question):
    plot, kind, x, y = question
    bounds = [one_nan(bound) for pair in plot.edges for bound in pair]
    return struct.pack("<19Q", kind, plot.width, plot.height, *plot.padding, *bounds, *x, *y)


def line(question, rng):
    """What must be printed, after it has been seen that it holds what it must."""
    got = answer(question)
    if not isinstance(got, Box):
        return f" r{got:x}"
    examine(question, got, rng)
    return "".join(f" {bits(bound):x}" for pair in got[:6] for bound in pair)


def main():
    rng = random.Random(20261116)
    every = list(given())
    for part in (worked, orders, rims, zeros):
        every += held(part())
    every += outside()
    every += [anything(rng) for _ in range(1200)]
    printed = [line(question, rng) for question in every]
    # and more that are looked at, but not played
    more = [line(anything(rng), rng) for _ in range(2500)]
    boxes = sum(" r" not in text for text in printed + more)
    print(len(every), "questions in the list,", boxes, "boxes looked at")
    total = f" {len(every):x} questions"
    write(__file__, "data/boxes", b"".join(map(words, every)), "".join(text + "\n" for text in printed + [total]))


main()

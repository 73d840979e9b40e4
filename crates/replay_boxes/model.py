"""model.py: a block's box by document 02's words, (ii), on exact fractions; nothing of the crates is in it.

An interval is a pair of doubles. Each operation takes the exact results of the four pairs of bounds as fractions, rounds
each once, to nearest, ties to even (as Python's division of whole numbers does), and goes one double outward.
"""
import math
import operator
from collections import namedtuple
from fractions import Fraction

INF = math.inf
QUICK, PRECISE = 0, 1

# padding and edges are in the order left, right, bottom, top
Plot = namedtuple("Plot", "width height padding edges")
# level is the rank less 48
Place = namedtuple("Place", "index rank")
# one side of a plot: its pixels, the padding at its two ends, and where its edges between stand
Axis = namedtuple("Axis", "pixels before after first last")
Box = namedtuple("Box", "left right bottom top x y maps")


class Refused(Exception):
    """A refusal, by its number."""

    def __init__(self, number):
        self.number = number


# ---- operations


def rounded(q):
    try:
        return q.numerator / q.denominator
    except OverflowError:
        return INF if q > 0 else -INF


def put(a, b):
    return (-0.0 if a == 0 else a, 0.0 if b == 0 else b)


def operation(exact, x, y):
    """An infinite bound of x or y makes one of the result infinite; no divisor holds zero here."""
    if any(math.isinf(bound) for bound in x + y):
        raise Refused(15)
    near = [rounded(exact(Fraction(a), Fraction(b))) for a in x for b in y]
    bounds = math.nextafter(min(near), -INF), math.nextafter(max(near), INF)
    if any(math.isinf(bound) for bound in bounds):
        raise Refused(15)
    return put(*bounds)


def plus(x, y):
    return operation(operator.add, x, y)


def minus(x, y):
    return operation(operator.sub, x, y)


def times(x, y):
    return operation(operator.mul, x, y)


def over(x, y):
    return operation(operator.truediv, x, y)


def negated(x):
    return (-x[1], -x[0])


# ---- maps


def quick(a0, a1, x0, x1):
    """Slope and offset."""
    slope = over(minus(x1, x0), minus(a1, a0))
    return slope, plus(times(negated(a0), slope), x0)


def precise(a0, a1, x0, x1):
    """An anchor and a span in pixels, then in coordinates."""
    return a0, minus(a1, a0), put(*x0), minus(x1, x0)


def image(made, p):
    if len(made) == 2:
        slope, offset = made
        return plus(times(p, slope), offset)
    a0, a01, x0, x01 = made
    return plus(times(over(minus(p, a0), a01), x01), x0)


def mapped(axis, first, last, p):
    """The exact value of the pixel coordinate p where the picture's edges stand at first and last."""
    a0, a1 = axis.before, axis.pixels - axis.after
    return (p - a0) * (last - first) / (a1 - a0) + first


# ---- blocks


def ends(axis, place):
    """The edges of a block in pixels, exact; from level 0 up the second is clipped to the side."""
    width = Fraction(2) ** (place.rank - 48)
    end = (place.index + 1) * width
    return place.index * width, min(end, Fraction(axis.pixels)) if place.rank >= 48 else end


def pixel_edge(q):
    assert Fraction(float(q)) == q
    return put(float(q), float(q))


def middle(x):
    """Document 01's midpoint."""
    return rounded((Fraction(x[0]) + Fraction(x[1])) / 2)


def narrowed(place, low, high):
    """The outermost ends; below level 0 an edge inside a pixel is put at its middle."""
    parts = 2 ** max(48 - place.rank, 0)
    a = low[0] if place.index % parts == 0 else middle(low)
    b = high[1] if (place.index + 1) % parts == 0 else middle(high)
    if low[0] > high[1] or a > b:
        raise Refused(15)
    return put(a, b)


def span(kind, axis, place):
    """Along one axis: the map, the images of both edges, and what is narrowed between."""
    a0, a1 = pixel_edge(axis.before), pixel_edge(axis.pixels - axis.after)
    made = (quick if kind == QUICK else precise)(a0, a1, axis.first, axis.last)
    low, high = (image(made, pixel_edge(end)) for end in ends(axis, place))
    return made, low, high, narrowed(place, low, high)


# ---- refusals


def legal(x):
    return x[0] <= x[1] and x[0] != INF and x[1] != -INF


def stands(axis, place):
    return place.index < 2**47 and 16 <= place.rank <= 63 and ends(axis, place)[0] < axis.pixels


def axes(plot):
    left, right, bottom, top = plot.padding
    return (
        Axis(plot.width, left, right, *plot.edges[:2]),
        Axis(plot.height, bottom, top, *plot.edges[2:]),
    )


def block_box(plot, kind, x, y):
    both = axes(plot)
    if not all(1 <= axis.pixels <= 32768 for axis in both):
        raise Refused(1)
    if not all(axis.before + axis.after < axis.pixels for axis in both):
        raise Refused(16)
    if not all(legal(edge) for edge in plot.edges):
        raise Refused(3)
    if not (stands(both[0], x) and stands(both[1], y) and x.rank == y.rank):
        raise Refused(8)
    (map_x, left, right, across), (map_y, bottom, top, up) = span(kind, both[0], x), span(kind, both[1], y)
    return Box(left, right, bottom, top, across, up, (map_x, map_y))

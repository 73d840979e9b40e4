"""Blocks as an evaluator sees them, and what a picture is begun with."""

from typing import NamedTuple, Tuple

from . import _library as lib
from ._refusal import check

# The variables: x and y, the integer parameters m, n and theta, the real parameter t.
X, Y, M, N, THETA, T = 32, 16, 8, 4, 2, 1

Interval = Tuple[float, float]
WHOLE: Interval = (float("-inf"), float("inf"))


class Coordinate(NamedTuple):
    """An index on a level: the square from index times 2 to the level, in pixels from the picture's left or lower edge."""

    index: int
    level: int

    @property
    def span(self) -> Interval:
        """Its two ends in pixels, both exact."""
        return (self.index * 2.0**self.level, (self.index + 1) * 2.0**self.level)


class Block(NamedTuple):
    """A part of the picture with an interval for each parameter; an unused parameter is the whole line."""

    x: Coordinate
    y: Coordinate
    m: Interval
    n: Interval
    theta: Interval
    t: Interval

    @property
    def level(self) -> int:
        """Of both coordinates: below 0 the block is a part of a pixel."""
        return self.x.level


class Setup(NamedTuple):
    """Sides in pixels, the variables that the relation uses, and the ranges of the parameters among them; other ranges are not looked at.
    `uses` is the header's `set`."""

    width: int
    height: int
    uses: int
    m: Interval = WHOLE
    n: Interval = WHOLE
    theta: Interval = WHOLE
    t: Interval = WHOLE

    def _chosen(self) -> lib.Chosen:
        return lib.Chosen(fits(self.width, 32, "the width"), fits(self.height, 32, "the height"), fits(self.uses, 8, "the set of variables"))

    def _ranges(self) -> lib.Ranges:
        return lib.Ranges(*(lib.Interval(*r) for r in (self.m, self.n, self.theta, self.t)))

    def _used_ranges(self) -> lib.Ranges:
        """With the whole line for each parameter that is not used."""
        pairs = zip((M, N, THETA, T), (self.m, self.n, self.theta, self.t))
        return lib.Ranges(*(lib.Interval(*(r if self.uses & bit else WHOLE)) for bit, r in pairs))

    @property
    def cells(self) -> int:
        """How many cells the picture needs: one for each pixel."""
        n = lib.library.smyrilox_cells(fits(self.width, 32, "the width"), fits(self.height, 32, "the height"))
        check(n.refusal)
        return n.value

    @property
    def least_ring(self) -> int:
        """The least ring, in bytes, with which the picture can begin. What later steps need is enough_ring."""
        n = lib.library.smyrilox_least_ring(self._chosen(), self._ranges())
        check(n.refusal)
        return n.value

    def enough_ring(self, steps: int) -> int:
        """A ring, in bytes, with which none of the first steps, so many of them, is refused by 6, whatever the verdicts."""
        n = lib.library.smyrilox_enough_ring(self._chosen(), self._ranges(), fits(steps, 32, "the number of steps"))
        check(n.refusal)
        return n.value


def fits(value: int, bits: int, what: str) -> int:
    """ctypes would cut a number that is too large, and so call for something else."""
    if not 0 <= value < 2**bits:
        raise ValueError(f"{what} is {value}, and must lie from 0 to {2 ** bits - 1}")
    return value


def pair(v: lib.Interval) -> Interval:
    return (v.lower, v.upper)


def block_of(b: lib.Child) -> Block:
    x, y = (Coordinate(c.index, c.level) for c in (b.x, b.y))
    return Block(x, y, pair(b.m), pair(b.n), pair(b.theta), pair(b.t))


def setup_of(chosen: lib.Chosen, r: lib.Ranges) -> Setup:
    return Setup(chosen.width, chosen.height, chosen.set, pair(r.m), pair(r.n), pair(r.theta), pair(r.t))

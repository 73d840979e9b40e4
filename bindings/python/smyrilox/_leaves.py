"""What an evaluator may want of the engine's own arithmetic."""

from typing import List

from . import _library as lib
from ._block import Interval, pair
from ._refusal import check


def midpoint(lower: float, upper: float) -> float:
    """The midpoint of an interval: exact, then rounded once to nearest, ties to even."""
    return _point(lib.library.smyrilox_midpoint(lib.Interval(lower, upper)))


def simple_fraction(lower: float, upper: float) -> float:
    """A number of the interval with few bits: the first of the sample points."""
    return _point(lib.library.smyrilox_simple_fraction(lib.Interval(lower, upper)))


def first_cut(lower: float, upper: float, integer: bool) -> List[Interval]:
    """The pieces with which a parameter's range begins."""
    return _pieces(lib.library.smyrilox_first_cut(lib.Interval(lower, upper), integer))


def later_cut(lower: float, upper: float, integer: bool) -> List[Interval]:
    """The pieces into which a step cuts a parameter."""
    return _pieces(lib.library.smyrilox_later_cut(lib.Interval(lower, upper), integer))


def _point(p: lib.Point) -> float:
    check(p.refusal)
    return p.value


def _pieces(p: lib.Pieces) -> List[Interval]:
    check(p.refusal)
    return [pair(v) for v in p.at[: p.count]]

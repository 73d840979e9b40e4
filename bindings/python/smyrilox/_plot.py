"""Where a picture lies in the caller's units, and the boxes of its blocks there."""

import enum
from dataclasses import dataclass, field
from typing import Any, NamedTuple, Tuple, Union

from . import _library as lib
from ._block import Block, Coordinate, Interval, fits, pair
from ._refusal import check

# An edge: a number, or the interval in which it stands.
Edge = Union[float, Interval]


class MapKind(enum.IntEnum):
    """The kind of map from pixels to units. Both enclose. QUICK goes by slope and offset, as graphest draws implicit graphs; PRECISE from
    the left or the lower edge, by the part of the way."""

    QUICK = 0
    PRECISE = 1


class Padding(NamedTuple):
    """Pixels at the rim of a picture, outside of its edges."""

    left: int = 0
    right: int = 0
    bottom: int = 0
    top: int = 0


class Edges(NamedTuple):
    """Four intervals: somewhere in each stands the edge of that name, in the caller's units."""

    left: Interval
    right: Interval
    bottom: Interval
    top: Interval


class BlockBox(NamedTuple):
    """A block's box. `edges` enclose the exact places of the block's own edges, wherever in their intervals the plot's stand; a block that
    reaches over the picture's right or upper edge is clipped to it. `x` and `y` are what graphest hands to its evaluator: above level 0 the
    outer box; from level 0 down an end on a pixel's edge is the outer one too, and any other is the midpoint of its interval, which the
    part beside it shares. Of the box narrowed so nothing is proved: judge `outer`."""

    edges: Edges
    x: Interval
    y: Interval

    @property
    def outer(self) -> Tuple[Interval, Interval]:
        """The outer box, x and y: from the least place of the one edge to the greatest of the other. If the plot's edges are in order,
        every point of the block lies in it: a no for all of it is a no for the block."""
        left, right, bottom, top = self.edges
        return (left[0], right[1]), (bottom[0], top[1])


@dataclass(frozen=True)
class Plot:
    """A picture, and where it lies in the caller's units (arrivals, crew). Pixel padding.left stands at the left edge and pixel width -
    padding.right at the right one, padding.bottom at the lower edge and height - padding.top at the upper one; the pixels between share
    the way evenly, and those of the padding go on outside. An edge is a number, or the pair (lower, upper) of the interval in which it
    stands: one that is no float, as 1/10 (0.1 is another number), needs a pair around it."""

    width: int
    height: int
    left: Edge
    right: Edge
    bottom: Edge
    top: Edge
    padding: Padding = Padding()
    kind: MapKind = MapKind.QUICK
    _record: Any = field(init=False, repr=False, compare=False)

    def __post_init__(self) -> None:
        rim = lib.Padding(*(fits(pixels, 32, "the padding") for pixels in Padding(*self.padding)))
        edges = lib.Edges(*(_interval(edge) for edge in (self.left, self.right, self.bottom, self.top)))
        record = lib.Plot(fits(self.width, 32, "the width"), fits(self.height, 32, "the height"), rim, edges)
        for name, value in (("padding", Padding(*self.padding)), ("kind", MapKind(self.kind)), ("_record", record)):
            object.__setattr__(self, name, value)

    def block_box(self, block: Block) -> BlockBox:
        """The box of a block, a child of a chart as it is listed. Refused by 1 for a side, 16 for the padding, 3 for an edge, 8 for a block
        outside the picture, 15 where a bound is not finite or ends cross, in this order."""
        boxed = lib.library.smyrilox_block_box(self._record, self.kind, _coordinate(block.x), _coordinate(block.y))
        check(boxed.refusal)
        return BlockBox(Edges(*(pair(getattr(boxed.edges, side)) for side in lib.SIDES)), pair(boxed.x), pair(boxed.y))


def _interval(edge: Edge) -> lib.Interval:
    lower, upper = edge if isinstance(edge, tuple) else (edge, edge)
    return lib.Interval(_float(lower), _float(upper))


def _float(x: float) -> float:
    """ctypes would round a number that is no float, and so put the edge elsewhere."""
    rounded = float(x)
    if rounded != x and x == x:
        raise ValueError(f"{x!r} is no float: give a pair (lower, upper) around it")
    return rounded


def _coordinate(c: Coordinate) -> lib.Coordinate:
    index, level = c
    if not -(2**31) <= level < 2**31:
        raise ValueError(f"a level is {level}, and must lie from -32 to 15")
    return lib.Coordinate(fits(index, 64, "an index"), level)

"""What an evaluator answers."""

from typing import Any, Callable, List

from ._block import Block
from ._refusal import Refused


class Verdict(int):
    """What an evaluator answers about a child: one byte, of a Verdict or of a plain int. The byte 0 says no, so what only counts as 0 in
    Python is no verdict: a bool, numpy's bool, a Reading."""

    __slots__ = ()

    def __new__(cls, byte: int) -> "Verdict":
        if type(byte) not in (int, Verdict):
            raise TypeError(f"a verdict is NO, UNDECIDED, YES or another byte, not {byte!r} of type {type(byte).__name__}")
        if not 0 <= byte <= 255:
            raise ValueError(f"a verdict is a byte, 0 to 255, not {byte}")
        return super().__new__(cls, byte)

    def __or__(self, other: int) -> "Verdict":
        return Verdict(int(self) | int(Verdict(other)))

    __ror__ = __or__

    def __repr__(self) -> str:
        return f"Verdict({int(self):#04x})"

    def is_legal_for(self, child: Block) -> bool:
        """Whether a child of this level can have it: a step refuses any other by 5."""
        result, area, points = self >> 6, self & 0x20 != 0, self & 0x1F != 0
        if child.level < 0:
            return result < 3 and (not points or result == 1 and area)
        return result < 3 and not area and not points


# No solution in the pixels that the child covers; neither known; each of them holds one.
NO, UNDECIDED, YES = Verdict(0x00), Verdict(0x40), Verdict(0x80)
# Only below level 0: points of the child may be sampled. A true verdict counts there only with it: see yes_for.
AREA = Verdict(0x20)


def found_at(place: int) -> Verdict:
    """Undecided, but a point at this place (0: the simple fraction; 1 to 4: the corners) shows a solution."""
    if place not in range(5):
        raise ValueError(f"there are five sample points, 0 to 4, not {place}")
    return UNDECIDED | AREA | 0x10 >> place


def yes_for(child: Block) -> Verdict:
    """That each pixel of the child holds a solution, as a child of its level may say it. A plain YES below level 0 counts as undecided."""
    return YES | AREA if child.level < 0 else YES


def bytes_of(given: Any) -> bytes:
    """Bytes, or whatever lends its memory as bytes; a number or a list is a mistake, and so are bools, though each takes a byte."""
    view = memoryview(given)
    if view.format.lstrip("@=<>!") not in ("B", "c"):
        raise TypeError(f"verdicts are bytes, not elements of the format {view.format!r}")
    return view.tobytes()


def step_refused(number: int, verdicts: bytes, children: Callable[[], List[Block]]) -> Refused:
    """Why a step was refused, with these verdicts: of 4 and 5, what is wrong with them, by the children that it asked about."""
    if number == 4:
        counts = {"given": len(verdicts), "children": len(children())}
        return Refused(4, "{given} verdicts for {children} children".format(**counts), **counts)
    for place, (child, byte) in enumerate(zip(children() if number == 5 else [], verdicts)):
        if not Verdict(byte).is_legal_for(child):
            words = f"child {place} (the first is 0), on level {child.level}, cannot have the verdict {byte:#04x}"
            return Refused(5, words, child=place, level=child.level, byte=byte)
    return Refused(number)

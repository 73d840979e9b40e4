"""Why a pixel reads what it reads: the steps of a setup are repeated on their tape, and what happened to the pixel is named."""

import enum
from ctypes import c_uint8, c_uint64
from dataclasses import dataclass
from typing import Any, List, NamedTuple, Optional

from . import _library as lib
from ._block import Block, Setup, block_of, fits
from ._memory import zeros
from ._refusal import Refused, check
from ._saved import queue_bytes
from ._verdict import bytes_of, step_refused


class ReasonKind(enum.IntEnum):
    """What a reason is for, by its number in the header."""

    TRUE = 1
    FALSE = 2
    GIVEN_UP = 3
    WAITING = 4


class SamplePoint(enum.IntEnum):
    """A point of a child at which a solution was found, by its place from 1."""

    SIMPLE_FRACTION = 1
    BOTTOM_LEFT = 2
    BOTTOM_RIGHT = 3
    TOP_LEFT = 4
    TOP_RIGHT = 5

    def __str__(self) -> str:
        words = self.name.lower().replace("_", " ")
        return "the simple fraction" if self is SamplePoint.SIMPLE_FRACTION else words


class NotExplained(Exception):
    """A pixel of a chart cannot be explained: the chart keeps no verdicts, does not know its ranges, or was handed another chart's tape."""


@dataclass(frozen=True)
class Reason:
    """Why a pixel reads what it reads; as a string it is a sentence. Steps count from 1 from the setup on, and a child's place counts from
    1 over all children of its step, skipped ones too (a step's refusal by 5 counts it from 0). What does not apply to the kind is None.

    TRUE: `child` of `step` marked it last, at the sample point `point` or, where that is None, by its area verdict.
    FALSE: `step` took the last block that covers it, and `child` is the first covering one that was answered false; every covering child
    of the step was.
    GIVEN_UP: `step` was the last to give it up, and `child` the first one there that found no direction to be cut in.
    WAITING: `block` is the last queued block that covers it, `number` its number, from 0 as blocks are queued, `before` how many stand
    before it, and `direction` the place, from 0, of the direction in which it is cut next: x and y together where either is used, then the
    used parameters in order."""

    kind: ReasonKind
    step: Optional[int] = None
    child: Optional[int] = None
    point: Optional[SamplePoint] = None
    number: Optional[int] = None
    before: Optional[int] = None
    block: Optional[Block] = None
    direction: Optional[int] = None

    def __str__(self) -> str:
        by = "by its area verdict" if self.point is None else f"at sample point {int(self.point)} ({self.point})"
        return {
            ReasonKind.TRUE: f"True: step {self.step} marked it last; child {self.child} of that step showed it, {by}.",
            ReasonKind.FALSE: f"False: step {self.step} took the last block that covered it; every child of that step that covered it was "
            f"answered false, the first is child {self.child}.",
            ReasonKind.GIVEN_UP: f"Given up: step {self.step} was the last to give it up; child {self.child} of that step found no direction "
            "to be cut in.",
            ReasonKind.WAITING: f"Waiting: block {self.number} is the last one queued that covers it; blocks before it in the queue: "
            f"{self.before}.",
        }[self.kind]


class Explanation(NamedTuple):
    """A reason, and what a run of the same steps answers: `ending` is done, limit or more. If the queue emptied sooner, `steps`, how many
    are finished, says for which end the reason is. `tape` counts the bytes that they took."""

    reason: Reason
    ending: str
    steps: int
    evaluations: int
    tape: int


class Repeated(NamedTuple):
    """The steps repeated in memory of their own, which then holds what they left."""

    explained: lib.Explained
    ring: Any
    cells: Any
    tape: bytes

    def explanation(self) -> Explanation:
        e = self.explained
        ending = lib.ENDINGS.get(e.ending)
        if ending == "stop":
            raise self._stopped()
        check(e.refusal)
        return Explanation(_reason_of(e), ending, e.steps, e.evaluations, e.tape)

    def _stopped(self) -> Refused:
        e = self.explained
        why, step = step_refused(e.refusal, self.tape[e.tape :], self._children), e.steps + 1
        why.args = (why.number, f"{why.args[1]}, in step {step}")
        why.__dict__.update(step=step)
        return why

    def _children(self) -> List[Block]:
        listed = lib.library.smyrilox_children(self.explained.state, self.ring, len(self.ring))
        return [block_of(b) for b in listed.at[: listed.count]]

    def leads_to(self, state: lib.State, ring: Any, cells: Any) -> bool:
        """The steps left this chart: the same sums, blocks in the queue and cells. Where the queue begins in its ring is not looked at."""
        there = self.explained.state
        return (
            _sums(there) == _sums(state)
            and queue_bytes(there, self.ring) == queue_bytes(state, ring)
            and self.cells[:] == cells[: len(self.cells)]
        )


def _sums(state: lib.State) -> tuple:
    return (state.taken, state.queued, state.used, bytes(state.front), bytes(state.back))


def _reason_of(e: lib.Explained) -> Reason:
    kind = ReasonKind(e.reason)
    if kind == ReasonKind.WAITING:
        return Reason(kind, number=e.number, before=e.before, block=block_of(e.block), direction=e.direction)
    return Reason(kind, e.step, e.child, SamplePoint(e.point) if e.point else None)


def repeated(setup: Setup, ring: int, tape: bytes, steps: int, column: int, row: int) -> Repeated:
    bytes_, cells = zeros(c_uint8, ring), zeros(c_uint64, setup.cells)
    given = (c_uint8 * len(tape)).from_buffer_copy(tape)
    lent = (bytes_, len(bytes_), cells, len(cells), given, len(given))
    pixel = (fits(column, 32, "the column"), fits(row, 32, "the row"))
    explained = lib.library.smyrilox_explain(setup._chosen(), setup._ranges(), *lent, fits(steps, 32, "the number of steps"), *pixel)
    return Repeated(explained, bytes_, cells, tape)


def repeated_with_room(setup: Setup, ring: int, tape: bytes, steps: int, column: int, row: int) -> Repeated:
    """In a ring of so many bytes, or in a longer one where the chart has been moved from a longer ring to this one."""
    enough = setup.enough_ring(steps)
    while True:
        done = repeated(setup, ring, tape, steps, column, row)
        if done.explained.refusal != 6 or ring >= enough:
            return done
        ring = min(enough, 2 * max(1, ring))


def explain(setup: Setup, tape: bytes, steps: int, column: int, row: int) -> Explanation:
    """Why the pixel in this column, and in this row from the top, reads what it reads after so many steps of a picture that is begun with
    this setup, with the verdicts of the tape, one for each child of each step. If the queue empties sooner, that is the end it answers for.
    Refused by 1 or 3 as a setup is, by 18 for a pixel outside the picture, and by the number of a step that is refused on the way, which
    the error names: `step`. Steps and children count from 1; only the `child` of a refusal by 5 counts from 0."""
    tape = bytes_of(tape)
    # each step takes a byte of the tape at least
    ring = setup.enough_ring(min(fits(steps, 32, "the number of steps"), len(tape)))
    return repeated(setup, ring, tape, steps, column, row).explanation()

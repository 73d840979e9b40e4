"""A picture being refined."""

import enum
import threading
from ctypes import c_uint8, c_uint64, memmove
from typing import Any, Callable, List, NamedTuple, Optional, Tuple, Union

from . import _library as lib
from . import _pictures, _reason, _saved, _table
from ._block import Block, Setup, block_of, fits, setup_of
from ._memory import copied, zeros
from ._reason import NotExplained, Reason
from ._refusal import NoMemory, Refused, check
from ._saved import NotLoaded
from ._table import Table
from ._verdict import Verdict, bytes_of, step_refused


class Reading(enum.IntEnum):
    """What a pixel reads. False is white: no mix of the pixel is a solution, if the evaluator was right."""

    FALSE = 0
    UNCERTAIN = 1
    TRUE = 2


class Grey(enum.IntEnum):
    """Which grey a pixel is. WAITS: a queued block covers it, and further steps may decide it. GIVEN_UP: a part of it can no longer be
    divided; it is not found False any more, and True only where a queued block still covers it."""

    DECIDED = 0
    WAITS = 1
    GIVEN_UP = 2


class Step(NamedTuple):
    evaluations: int
    verdicts: int


class Run(NamedTuple):
    """`ending` is done, limit, more or stop; `stop` is the number of the refusal that stopped the run, or 0, and `why` its words."""

    ending: str
    stop: int
    steps: int
    evaluations: int
    tape: int
    why: str = ""


class Counts(NamedTuple):
    """Pixels by reading, given-up pixels (these are uncertain too), queued blocks, and the settled pixels (yes and no) in thousandths of
    all, rounded down: `share` is 1000 exactly if no pixel is uncertain."""

    yes: int
    no: int
    uncertain: int
    given_up: int
    queued: int
    share: int


class Chart:
    """A picture being refined. One object owns record, ring and cells; a copy has its own.

    The ring has `ring` bytes; or as many as are enough for `steps` steps, none of which is then refused by 6; or, of a chart that grows,
    as many as its beginning needs. Where a step finds no room, a chart with `grows` doubles its ring and takes the step.
    `tag` says what the chart is of, the relation and the evaluator with its version: it is saved, and `load` must name it.
    A chart that is begun or loaded `with_table` also keeps how many pixels of each tile read what: `table`. It is not saved.
    One that is begun with `keep_verdicts` keeps the verdicts of its steps, so that `why` needs no tape: `verdicts`. They are not saved with
    it either; `load` takes them along."""

    def __init__(
        self,
        setup: Setup,
        ring: Optional[int] = None,
        *,
        steps: Optional[int] = None,
        grows: bool = False,
        tag: Union[bytes, str] = b"",
        with_table: bool = False,
        keep_verdicts: bool = False,
    ):
        if ring is None:
            if steps is None and not grows:
                raise TypeError("a chart begins with a ring of so many bytes, with a number of steps, or grows")
            ring = setup.least_ring if steps is None else setup.enough_ring(steps)
        tag, bytes_, cells, chosen = _tag(tag), zeros(c_uint8, ring), zeros(c_uint64, setup.cells), setup._chosen()
        begin, lent = lib.library.smyrilox_setup, [bytes_, len(bytes_), cells, len(cells)]
        numbers = _table.room(chosen) if with_table else None
        if numbers is not None:
            begin, lent = lib.library.smyrilox_setup_with_table, lent + [numbers, len(numbers)]
        started = begin(chosen, setup._ranges(), *lent)
        check(started.refusal)
        self._own(started.state, bytes_, cells, setup._used_ranges(), tag, grows, numbers, b"" if keep_verdicts else None)

    def _own(self, state, ring, cells, ranges, tag, grows, numbers=None, verdicts=None):
        # a lock that its holder may take again: step_with holds it while the evaluator is asked
        self._lock = threading.RLock()
        self._state, self._ring, self._cells, self._ranges = state, ring, cells, ranges
        self.tag, self.grows = tag, grows
        self._table = None if numbers is None else Table(state.chosen, self._lock, numbers)
        self._verdicts = None if verdicts is None else bytearray(bytes_of(verdicts))

    def __copy__(self) -> "Chart":
        with self._lock:
            copy = object.__new__(type(self))
            state, ring, cells = map(copied, (self._state, self._ring, self._cells))
            numbers = None if self._table is None else copied(self._table._numbers)
            copy._own(state, ring, cells, self._ranges, self.tag, self.grows, numbers, self._verdicts)
            return copy

    def __deepcopy__(self, memo) -> "Chart":
        return self.__copy__()

    def __reduce__(self):
        with self._lock:
            return (Chart.load, (self.save(), self.tag, self.grows, self._table is not None, self.verdicts))

    def __repr__(self) -> str:
        width, height = self.size
        used, length = self.ring_use
        tag = f", tag {self.tag!r}" if self.tag else ""
        return f"<Chart {width} by {height}: {self.steps} steps, {self.queued} queued in {used} of {length} bytes{tag}>"

    @property
    def size(self) -> Tuple[int, int]:
        return (self._state.chosen.width, self._state.chosen.height)

    @property
    def setup(self) -> Optional[Setup]:
        """What it was begun with; None where it was loaded from layout 1, which does not say the ranges."""
        return None if self._ranges is None else setup_of(self._state.chosen, self._ranges)

    @property
    def steps(self) -> int:
        """How many steps are finished: each takes one block."""
        return self._state.taken

    @property
    def queued(self) -> int:
        return self._state.queued - self._state.taken

    @property
    def finished(self) -> bool:
        return self.queued == 0

    @property
    def ring_use(self) -> Tuple[int, int]:
        """The bytes that the queue takes, of those that the ring has."""
        return (self._state.used, self._state.len)

    @property
    def table(self) -> Optional[Table]:
        """How many pixels of each tile read what, if the chart was begun or loaded `with_table`: every step brings it up to date."""
        return self._table

    @property
    def verdicts(self) -> Optional[bytes]:
        """The verdicts of all steps, if they are kept: the chart's tape."""
        with self._lock:
            return None if self._verdicts is None else bytes(self._verdicts)

    def _keep(self, verdicts: bytes) -> None:
        if self._verdicts is not None:
            self._verdicts += verdicts

    def grow(self, ring: int) -> None:
        """Moves the queue to a ring of so many bytes, longer or shorter. Refused by 6 where the queue's bytes are more; where there is no
        memory for it the error, NoMemory, names the bytes. Then nothing has changed."""
        with self._lock:
            if ring < self._state.used:
                raise Refused(6)
            other = zeros(c_uint8, ring)
            moved = lib.library.smyrilox_move_queue(self._state, self._ring, len(self._ring), other, len(other))
            check(moved.refusal)
            self._state, self._ring = moved.state, other

    def children(self) -> List[Block]:
        """The children of the front block, about which the next step wants verdicts."""
        with self._lock:
            listed = lib.library.smyrilox_children(self._state, self._ring, len(self._ring))
        check(listed.refusal)
        return [block_of(b) for b in listed.at[: listed.count]]

    def _call(self, name, given, *more):
        """A step or a run, over what the chart owns."""
        lent = [self._ring, len(self._ring), self._cells, len(self._cells)]
        if self._table is not None:
            name, lent = name + "_with_table", lent + [self._table._numbers, len(self._table._numbers)]
        return getattr(lib.library, "smyrilox_" + name)(self._state, *lent, given, len(given), *more)

    def step(self, verdicts: bytes) -> Step:
        """One step, with a verdict byte for each child."""
        verdicts = bytes_of(verdicts)
        given = (c_uint8 * len(verdicts)).from_buffer_copy(verdicts)
        with self._lock:
            stepped = self._call("step", given)
            while stepped.refusal == 6 and self.grows:
                self.grow(2 * len(self._ring))
                stepped = self._call("step", given)
            if stepped.refusal:
                raise step_refused(stepped.refusal, verdicts, self.children)
            self._state = stepped.state
            self._keep(verdicts)
        return Step(stepped.evaluations, stepped.tape)

    def _ask(self, evaluator: Callable[[Block], int], children: List[Block]) -> bytes:
        steps = self.steps
        verdicts = bytes([Verdict(evaluator(child)) for child in children])
        if self.steps != steps:
            raise RuntimeError("the chart was stepped while the evaluator was asked: these verdicts are of other blocks")
        return verdicts

    def step_with(self, evaluator: Callable[[Block], int]) -> Step:
        """One step: the evaluator is asked about each child, and answers a Verdict or a plain int. It must not step the chart itself."""
        with self._lock:
            return self.step(self._ask(evaluator, self.children()))

    def refine(self, evaluator: Callable[[Block], int], steps: int, progress: Optional[Callable[["Chart", int], object]] = None) -> Run:
        """Steps with an evaluator until, as in a run, the queue is empty (done, or limit), so many steps are finished (more), or one is
        refused (stop). `tape` counts the verdicts. After each step `progress` is called with the chart and the steps finished of these;
        between two steps other threads can look at the chart."""
        sums, steps = [0, 0, 0], fits(steps, 32, "the number of steps")
        while sums[0] < steps:
            with self._lock:
                if self.finished:
                    break
                verdicts = self._ask(evaluator, self.children())
                try:
                    step = self.step(verdicts)
                except Refused as why:
                    return Run("stop", why.number, *sums, str(why))
            sums = [sums[0] + 1, sums[1] + step.evaluations, sums[2] + step.verdicts]
            if progress is not None:
                progress(self, sums[0])
        # a run of no steps says how it stands with the chart
        return Run(self.run(b"", 0).ending, 0, *sums)

    def run(self, tape: bytes, budget: int) -> Run:
        """Steps with verdicts from a tape, at most `budget` of them."""
        tape, budget = bytes_of(tape), fits(budget, 32, "the budget")
        steps = evaluations = taken = 0
        with self._lock:
            while True:
                given = (c_uint8 * (len(tape) - taken)).from_buffer_copy(tape, taken)
                ran = self._call("run", given, budget - steps)
                check(ran.refusal)
                self._state = ran.state
                self._keep(tape[taken : taken + ran.tape])
                steps, evaluations, taken = steps + ran.steps, evaluations + ran.evaluations, taken + ran.tape
                why = step_refused(ran.stop, tape[taken:], self.children) if ran.stop else ""
                if ran.stop != 6 or not self.grows:
                    break
                try:
                    self.grow(2 * len(self._ring))
                except NoMemory as no:
                    why = no
                    break
        return Run(lib.ENDINGS[ran.ending], ran.stop, steps, evaluations, taken, str(why))

    def picture(self) -> bytes:
        """A byte for each pixel, rows from the top: the values of Reading."""
        width, height = self.size
        out = (c_uint8 * (width * height))()
        with self._lock:
            check(lib.library.smyrilox_picture(self._state, self._cells, len(self._cells), out, len(out)))
        return bytes(out)

    def rows(self) -> List[bytes]:
        """The picture's rows, from the top."""
        width, picture = self.size[0], self.picture()
        return [picture[i : i + width] for i in range(0, len(picture), width)]

    def greys(self) -> bytes:
        """The greys of the picture told apart: a byte for each pixel, rows from the top, the values of Grey."""
        with self._lock:
            return bytes(map(_grey, self.picture(), self._cells))

    def array(self) -> Any:
        """The picture as an array of numpy's, the values of Reading: one row of it for each row, from the top. Needs numpy."""
        return _pictures.array(self)

    def plot(self, axes: Any = None, x: Optional[Tuple[float, float]] = None, y: Optional[Tuple[float, float]] = None) -> Any:
        """Draws the picture with a legend into matplotlib's axes, or into a figure of its own on tinted paper, and answers the axes.
        `x` and `y` are the picture's ends in your units, left and right, bottom and top; without them pixels. Needs matplotlib."""
        return _pictures.plot(self, axes, x, y)

    def counts(self) -> Counts:
        with self._lock:
            counted = lib.library.smyrilox_counts(self._state, self._cells, len(self._cells))
        check(counted.refusal)
        c = counted.counts
        return Counts(c.trues, c.falses, c.uncertain, c.givenup, c.queued, c.share)

    def why(self, column: int, row: int, tape: Optional[bytes] = None) -> Reason:
        """Why the pixel in this column, and in this row from the top, reads what it reads, by the verdicts that the chart keeps or by a tape
        with those of all its steps; what follows them there is not looked at. The steps are repeated in memory beside the chart's, and must
        lead to this very chart; of two tapes that do, each gets the answer of its own verdicts. Refused by 18 for a pixel outside the
        picture, or by the number of a step, which the error names: `step`; NotExplained where there are no verdicts, or a tape leads to
        another chart."""
        with self._lock:
            setup, tape = self.setup, self._verdicts if tape is None else tape
            if tape is None:
                raise NotExplained("the chart keeps no verdicts: hand in its tape, or begin it with keep_verdicts")
            if setup is None:
                raise NotExplained("the chart was loaded from layout 1, which does not say its ranges")
            repeated = _reason.repeated_with_room(setup, self._state.len, bytes_of(tape), self.steps, column, row)
            explanation = repeated.explanation()
            if not repeated.leads_to(self._state, self._ring, self._cells):
                raise NotExplained("the steps of this tape lead to another chart")
            return explanation.reason

    def save(self) -> bytes:
        """The chart as bytes, to be loaded again: record, queue and cells together, layout 2 of bindings/SAVED.md."""
        with self._lock:
            return _saved.written(self._state, self._ranges, _tag(self.tag), self._ring, self._cells)

    @classmethod
    def load(
        cls,
        saved: bytes,
        tag: Union[bytes, str] = b"",
        grows: bool = False,
        with_table: bool = False,
        verdicts: Optional[bytes] = None,
    ) -> "Chart":
        """The chart that these bytes were saved from, with this tag; a table is filled anew. Handed the `verdicts` of all its steps it keeps
        them, and those of its further ones; that they are its own is seen when a pixel is explained. Raises NotLoaded, or Refused where the
        engine refuses the record, a cell, the front block or a range."""
        has = _saved.read(saved)
        if has.tag != _tag(tag):
            raise NotLoaded(f"a chart saved with the tag {has.tag!r}, not {_tag(tag)!r}")
        ring, cells = zeros(c_uint8, has.state.len), (c_uint64 * (len(has.cells) // 8)).from_buffer_copy(has.cells)
        memmove(ring, has.ring, len(has.ring))
        chart = cls.__new__(cls)
        chart._own(has.state, ring, cells, has.ranges, has.tag, grows, verdicts=verdicts)
        chart.counts()
        if not chart.finished:
            chart.children()
        if has.ranges is not None:
            check(lib.library.smyrilox_least_ring(has.state.chosen, has.ranges).refusal)
        if with_table:
            chart._table = Table(has.state.chosen, chart._lock, _table.filled(has.state, cells))
        return chart


# the cell of a pixel that is given up
_GIVEN_UP = 2**32 + 1


def _grey(reading: int, cell: int) -> Grey:
    if reading != Reading.UNCERTAIN:
        return Grey.DECIDED
    return Grey.GIVEN_UP if cell == _GIVEN_UP else Grey.WAITS


def _tag(tag: Union[bytes, str]) -> bytes:
    return tag.encode() if isinstance(tag, str) else memoryview(tag).tobytes()

"""Why a pixel reads what it reads: document 02's values, what a chart keeps for it, and every pixel of many charts after every step, held
against a history that the test keeps by the words of documents 01 and 02."""

import copy
import os
import pickle
import random
import unittest
from unittest import mock

from smyrilox import M, N, NO, T, THETA, UNDECIDED, WHOLE, X, Y, Block, Chart, Coordinate, Grey, NoMemory, NotExplained, Reading, Reason
from smyrilox import Explanation, ReasonKind, Refused, SamplePoint, Setup, explain, first_cut, midpoint, yes_for
from smyrilox import _library as lib

PLANE = Setup(5, 3, X | Y)
PIXEL = Setup(1, 1, X | Y)
# one pixel, its lower left quarter undecided 31 times; the last step finds another quarter True, but gives the pixel up
DOWN = b"\x40\0\0\0" * 31 + b"\x40\xa0\0\0"
TAPE = b"\x40\x40" + b"\x40\x80\0\x40" + b"\x40\0"
HERE = os.path.dirname(os.path.abspath(__file__))


def yes(step, child, point=None):
    return Reason(ReasonKind.TRUE, step, child, point)


def no(step, child):
    return Reason(ReasonKind.FALSE, step, child)


def given_up(step, child):
    return Reason(ReasonKind.GIVEN_UP, step, child)


def reason_of(*asked):
    return explain(*asked).reason


class Values(unittest.TestCase):
    def waits(self, reason, number, before):
        self.assertEqual((reason.kind, reason.number, reason.before), (ReasonKind.WAITING, number, before))
        self.assertEqual((reason.step, reason.child, reason.point), (None, None, None))

    def test_one_by_one(self):
        self.waits(reason_of(PIXEL, DOWN, 0, 0, 0), 0, 0)
        self.waits(reason_of(PIXEL, DOWN, 31, 0, 0), 31, 0)
        for steps in (32, 99):
            self.assertEqual(reason_of(PIXEL, DOWN, steps, 0, 0), given_up(32, 1))
        # the end that it answers for
        self.assertEqual(explain(PIXEL, DOWN + b"\x09\x09", 99, 0, 0), Explanation(given_up(32, 1), "limit", 32, 126, 128))

    def test_five_by_three(self):
        self.waits(reason_of(PLANE, b"\x40\x40", 1, 0, 0), 1, 0)
        reason = reason_of(PLANE, b"\x40\x40", 1, 4, 0)
        self.waits(reason, 2, 1)
        self.assertEqual((reason.block, reason.direction), (Block(Coordinate(1, 2), Coordinate(0, 2), WHOLE, WHOLE, WHOLE, WHOLE), 0))
        self.assertEqual(explain(PLANE, b"\x40\0", 1, 4, 2)[:3], (no(1, 2), "more", 1))

    def test_one_parameter(self):
        setup, tape = Setup(1, 1, M, m=(0.0, 8.0)), b"\0\0\0\x40\x40\x40\x80\0\0"
        self.waits(reason_of(setup, tape, 1, 0, 0), 2, 1)
        self.assertEqual(reason_of(setup, tape, 2, 0, 0), given_up(2, 2))
        self.assertEqual(reason_of(setup, tape, 3, 0, 0), yes(3, 1))
        with self.assertRaises(Refused) as caught:
            explain(setup, tape, 4, 0, 0)
        self.assertEqual((caught.exception.number, caught.exception.given, caught.exception.step), (4, 0, 4))

    def test_refused(self):
        rows = (
            (1, Setup(0, 3, X), b"", 9, 9),
            (3, Setup(1, 1, 64), b"", 9, 9),
            (18, PLANE, b"\x40\x40", 5, 0),
            (18, PLANE, b"\x40\x40", 0, 3),
            (4, PLANE, b"\x40\x40\0", 0, 0),
            (5, PLANE, b"\x40\x40\0\0\x90\0", 0, 0),
        )
        for number, setup, tape, column, row in rows:
            with self.assertRaises(Refused) as caught:
                explain(setup, tape, 2, column, row)
            self.assertEqual((caught.exception.number, getattr(caught.exception, "step", None)), (number, 2 if number in (4, 5) else None))
        words = "refused 5: child 2 (the first is 0), on level 1, cannot have the verdict 0x90, in step 2"
        for error in (caught.exception, pickle.loads(pickle.dumps(caught.exception))):
            self.assertEqual((str(error), error.child, error.step), (words, 2, 2))
        for wrong in ((-1, 0), (0, 2**32)):
            self.assertRaises(ValueError, explain, PLANE, b"", 0, *wrong)
        self.assertRaises(ValueError, explain, PLANE, b"", -1, 0, 0)
        self.assertRaises(TypeError, explain, PLANE, [0x40], 0, 0, 0)

    def test_sentences(self):
        true = "True: step 1 marked it last; child {} of that step showed it, {}."
        self.assertEqual(str(reason_of(PLANE, b"\x40\x80", 1, 4, 0)), true.format(2, "by its area verdict"))
        words = ("1 (the simple fraction)", "2 (bottom left)", "3 (bottom right)", "4 (top left)", "5 (top right)")
        for point, place in zip(SamplePoint, words):
            reason = reason_of(PIXEL, bytes([0, 0, 0, 0x60 | 0x20 >> point]), 9, 0, 0)
            self.assertEqual((reason, str(reason)), (yes(1, 4, point), true.format(4, "at sample point " + place)))
        false = "False: step 1 took the last block that covered it; every child of that step that covered it was answered false, the first is"
        self.assertEqual(str(reason_of(PLANE, b"\x40\0", 1, 4, 0)), false + " child 2.")
        up = "Given up: step 32 was the last to give it up; child 1 of that step found no direction to be cut in."
        self.assertEqual(str(reason_of(PIXEL, DOWN, 32, 0, 0)), up)
        waiting = "Waiting: block 2 is the last one queued that covers it; blocks before it in the queue: 1."
        self.assertEqual(str(reason_of(PLANE, b"\x40\x40", 1, 4, 0)), waiting)
        self.assertEqual(repr(no(6, 1))[:48], "Reason(kind=<ReasonKind.FALSE: 2>, step=6, child")


def disc(block):
    """A disc about the middle of 16 by 16 pixels."""
    (x0, x1), (y0, y1) = ((low - 8, high - 8) for low, high in (block.x.span, block.y.span))
    near = [0 if low <= 0 <= high else min(abs(low), abs(high)) for low, high in ((x0, x1), (y0, y1))]
    far = [max(abs(low), abs(high)) for low, high in ((x0, x1), (y0, y1))]
    return yes_for(block) if far[0] ** 2 + far[1] ** 2 < 36 else NO if near[0] ** 2 + near[1] ** 2 > 36 else UNDECIDED


class Charts(unittest.TestCase):
    def test_each_kind(self):
        chart = Chart(Setup(16, 16, X | Y), grows=True, keep_verdicts=True)
        chart.refine(disc, 60)
        kinds = {chart.why(column, row).kind for column in range(16) for row in range(16)}
        self.assertEqual(kinds, {ReasonKind.TRUE, ReasonKind.FALSE, ReasonKind.WAITING})
        deep = Chart(PIXEL, grows=True, keep_verdicts=True)
        self.assertEqual((deep.run(DOWN, 99).ending, deep.why(0, 0)), ("limit", given_up(32, 1)))

    def test_what_is_kept(self):
        """The verdicts of finished steps, by whatever call, and no others."""
        chart = Chart(PLANE, 13, keep_verdicts=True)
        chart.step(TAPE[:2])
        for refused in (b"\x40\x40", TAPE[2:6]):
            self.assertRaises(Refused, chart.step, refused)
        self.assertEqual(chart.verdicts, TAPE[:2])
        chart.grow(64)
        self.assertEqual(chart.run(TAPE[2:] + b"\x09\x09", 2).tape, 6)
        self.assertEqual((chart.verdicts, chart.why(3, 2)), (TAPE, yes(2, 2)))
        for twin in (copy.copy(chart), copy.deepcopy(chart), pickle.loads(pickle.dumps(chart))):
            self.assertEqual((twin.verdicts, twin.why(3, 2)), (TAPE, yes(2, 2)))
            twin.refine(lambda block: NO, 99)
            self.assertEqual((twin.why(0, 2).kind, chart.why(0, 2).kind), (ReasonKind.FALSE, ReasonKind.WAITING))
            self.assertEqual(chart.verdicts, TAPE)
        # moved to a ring that would not have been enough for all steps, and to one that is too short for a setup
        chart.grow(chart.ring_use[0])
        twin.grow(1)
        self.assertEqual((chart.why(3, 2), twin.why(0, 2).kind), (yes(2, 2), ReasonKind.FALSE))

    def test_by_a_tape(self):
        chart = Chart(PLANE, 64)
        chart.run(TAPE, 2)
        self.assertIsNone(chart.verdicts)
        with self.assertRaisesRegex(NotExplained, "keeps no verdicts"):
            chart.why(0, 0)
        for tape in (TAPE, TAPE[:6], bytearray(TAPE)):
            self.assertEqual(chart.why(3, 2, tape), yes(2, 2))
        for number, column, tape in ((18, 5, TAPE), (4, 0, TAPE[:5])):
            with self.assertRaises(Refused) as caught:
                chart.why(column, 0, tape=tape)
            self.assertEqual(caught.exception.number, number)
        for other in (b"\x40\x40\x40\x80\0\0", b"\x40\0\x40\x80\0\x40", b"\x40\0\0\0\0\0"):
            with self.assertRaisesRegex(NotExplained, "lead to another chart"):
                chart.why(3, 2, other)

    def test_another_queue(self):
        """Another quarter of the pixel is undecided: counts and cells are the same, but not the bytes of the queue, the block queued last or,
        once the queue is empty, the block taken last."""
        one, two = (b"\x40\0\0\0" + bytes(4), b"\0\x40\0\0" + bytes(4)), (b"\x40\0\0\x40", b"\0\x40\0\x40")
        for tapes, steps in ((two, 1), (one, 1), (one, 2)):
            charts = [Chart(PIXEL, 64), Chart(PIXEL, 64)]
            for chart, tape in zip(charts, tapes):
                chart.run(tape, steps)
            self.assertEqual((charts[0].counts(), charts[0]._cells[:]), (charts[1].counts(), charts[1]._cells[:]))
            for chart, own, other in zip(charts, tapes, reversed(tapes)):
                chart.why(0, 0, own)
                with self.assertRaisesRegex(NotExplained, "lead to another chart"):
                    chart.why(0, 0, other)

    def test_another_tape_of_the_same_chart(self):
        """What cannot be seen: a verdict that marks as another does leads to the same chart, and gets the answer of its own."""
        chart = Chart(PIXEL, 64, keep_verdicts=True)
        chart.step(b"\0\x61\0\0")
        self.assertEqual((chart.why(0, 0), chart.why(0, 0, b"\0\xa0\0\0")), (yes(1, 2, SamplePoint.TOP_RIGHT), yes(1, 2)))

    def test_wherever_the_queue_stands(self):
        """The queue is held against the repeated one wherever in its ring it stands, also around the ring's end."""
        around = 0
        for ring in range(13, 20):
            chart = Chart(PIXEL, ring, keep_verdicts=True)
            for step in range(1, 32):
                chart.step(b"\x40\0\0\0")
                around += chart._state.head + chart._state.used > ring
                moved = copy.copy(chart)
                moved.grow(ring if step % 2 else 200)
                self.assertEqual((chart.why(0, 0).number, moved.why(0, 0).number), (step, step))
        self.assertGreater(around, 0)

    def test_a_loaded_chart(self):
        """Layout 2 knows its ranges, and the verdicts are handed in beside it; layout 1 does not."""
        chart = Chart(PLANE, 64, keep_verdicts=True)
        chart.run(TAPE, 2)
        loaded = Chart.load(chart.save())
        self.assertRaises(NotExplained, loaded.why, 3, 2)
        self.assertEqual((loaded.verdicts, loaded.why(3, 2, TAPE)), (None, yes(2, 2)))
        loaded = Chart.load(chart.save(), verdicts=chart.verdicts)
        loaded.step(TAPE[6:])
        self.assertEqual((loaded.verdicts, loaded.why(3, 2)), (TAPE, yes(2, 2)))
        self.assertRaises(NotExplained, Chart.load(chart.save(), verdicts=b"\x40\0\0\0\0\0").why, 3, 2)
        with open(os.path.join(HERE, "..", "saved", "layout1.chart"), "rb") as file:
            old = Chart.load(file.read())
        with self.assertRaisesRegex(NotExplained, "layout 1"):
            old.why(0, 0, b"")

    def test_no_memory(self):
        chart = Chart(PLANE, 64, keep_verdicts=True)
        with mock.patch.object(lib.library, "smyrilox_cells", mock.Mock(return_value=lib.Number(0, 2**60))):
            self.assertRaises(NoMemory, chart.why, 0, 0)


PARAMETERS = (("m", M), ("n", N), ("theta", THETA), ("t", T))


class History:
    """What happened in the steps of a chart: of each the children with their outcomes, and the first that found no direction; and all
    blocks ever queued, by number, each with the direction in which it is cut."""

    def __init__(self, setup):
        self.setup, self.past = setup, []
        level = next(k for k in range(16) if 2**k >= max(setup.width, setup.height))
        blocks = [Block(Coordinate(0, level), Coordinate(0, level), WHOLE, WHOLE, WHOLE, WHOLE)]
        for name, bit in PARAMETERS:
            if setup.uses & bit:
                pieces = first_cut(*getattr(setup, name), name != "t")
                blocks = [block._replace(**{name: piece}) for block in blocks for piece in pieces]
        self.queued = [(block, 0) for block in blocks]
        self.directions = ["xy"] * bool(setup.uses & (X | Y)) + [name for name, bit in PARAMETERS if setup.uses & bit]

    def covers(self, block, column, row):
        spans = ((block.x.span, column), (block.y.span, self.setup.height - 1 - row))
        return all(int(low) <= pixel < -int(-high // 1) for (low, high), pixel in spans)

    def under(self, block):
        width, height = self.setup.width, self.setup.height
        return [row * width + column for row in range(height) for column in range(width) if self.covers(block, column, row)]

    def note(self, chart, verdicts):
        """To be told before the step with these verdicts is taken."""
        true, children = {i for i, reading in enumerate(chart.picture()) if reading == Reading.TRUE}, []
        for child, byte in zip(chart.children(), verdicts):
            outcome = "skipped" if true.issuperset(self.under(child)) else judged(child, byte)
            if isinstance(outcome, int):
                true.update(self.under(child))
            children.append((child, outcome))
        open_ = [(place, child) for place, (child, outcome) in enumerate(children, 1) if outcome == "incomplete"]
        at = self.queued[len(self.past)][1]
        start = at if len(open_) <= (1 if self.directions[at] == "xy" else 2) else at + 1
        stuck = []
        for place, child in open_:
            found = self.direction(child, start)
            if found is None:
                stuck.append(place)
            else:
                self.queued.append((child, found))
        self.past.append((children, stuck))

    def direction(self, block, start):
        count = len(self.directions)
        for at in (i % count for i in range(start, start + count)):
            name = self.directions[at]
            if block.level > -32 if name == "xy" else subdivisible(getattr(block, name), name != "t"):
                return at

    def reason(self, chart, column, row):
        here = lambda block: self.covers(block, column, row)
        steps = [(step, children, stuck) for step, (children, stuck) in enumerate(self.past, 1)][::-1]
        place = row * self.setup.width + column
        reading, grey = chart.picture()[place], chart.greys()[place]
        if reading == Reading.TRUE:
            marks = ((s, c, o) for s, children, _ in steps for c, (b, o) in [*enumerate(children, 1)][::-1] if here(b) and isinstance(o, int))
            step, child, point = next(marks)
            return yes(step, child, SamplePoint(point) if point else None)
        if reading == Reading.FALSE:
            step, covering = next((s, c) for s, children, _ in steps for c in [[i for i in enumerate(children, 1) if here(i[1][0])]] if c)
            assert all(outcome == "false" for _, (_, outcome) in covering)
            return no(step, covering[0][0])
        if grey == Grey.GIVEN_UP:
            return given_up(*next((s, stuck[0]) for s, children, stuck in steps if stuck and any(here(b) for b, _ in children)))
        number = max(n for n in range(len(self.past), len(self.queued)) if here(self.queued[n][0]))
        block, direction = self.queued[number]
        return Reason(ReasonKind.WAITING, number=number, before=number - len(self.past), block=block, direction=direction)


def judged(child, byte):
    """What a verdict makes of a child that is not skipped; a number is what marks it."""
    if byte >> 6 == 0:
        return "false"
    if byte >> 6 == 2:
        return 0 if child.level >= 0 or byte & 0x20 else "incomplete"
    return next((point for point in SamplePoint if byte & 0x20 >> point), "incomplete")


def subdivisible(x, integer):
    middle = midpoint(*x)
    return (float(round(middle)) if integer and abs(middle) < 2**52 else middle) not in x


class Random(unittest.TestCase):
    def test_against_a_history(self):
        chance, kinds = random.Random(20260419), dict.fromkeys(ReasonKind, 0)
        for turn, uses in enumerate((X | Y, X | Y, M, X | Y | M, X | T, N | T) * 4):
            sides = chance.randint(1, 5), chance.randint(1, 5)
            setup = Setup(*sides, uses, m=(0.0, float(chance.randint(1, 9))), n=(-3.0, 2.0), t=(0.0, 1.0))
            chart, history = Chart(setup, grows=True, keep_verdicts=True), History(setup)
            while not chart.finished and chart.steps < 30:
                low, plain = (0x40, 0x60, 0x00, 0xA0, 0x64, 0x71), (0x40, 0x40, 0x40, 0x00, 0x00, 0x80)
                verdicts = bytes(chance.choice(low if child.level < 0 else plain) for child in chart.children())
                history.note(chart, verdicts)
                chart.step(verdicts)
                for column, row in ((c, r) for c in range(setup.width) for r in range(setup.height)):
                    reason = chart.why(column, row)
                    self.assertEqual(reason, history.reason(chart, column, row), (turn, chart.steps, column, row))
                    kinds[reason.kind] += 1
        self.assertGreater(min(kinds.values()), 20, kinds)


if __name__ == "__main__":
    unittest.main()

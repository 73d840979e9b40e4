"""The values of document 01, refusals and verdicts, through the Python module."""

import array
import copy
import ctypes
import pickle
import threading
import unittest

import smyrilox
from smyrilox import AREA, NO, UNDECIDED, YES, Chart, Counts, Reading, Refused, Run, Setup, Step, Verdict, M, X, Y, yes_for


def begun():
    chart = Chart(Setup(5, 3, X | Y), ring=64)
    chart.step(bytes([UNDECIDED, UNDECIDED]))
    return chart


class Case(unittest.TestCase):
    def refused(self, number, call, *words):
        with self.assertRaises(Refused) as caught:
            call(*words)
        self.assertEqual(caught.exception.number, number)


class Charts(Case):
    def test_the_sample_sheet(self):
        chart = Chart(Setup(2, 1, X | Y), ring=16384)
        self.assertEqual(chart.run(b"\x80\x00", 5), Run("done", 0, 1, 2, 2))
        self.assertEqual(chart.picture(), b"\x02\x00")
        self.assertEqual(Reading(chart.picture()[1]), Reading.FALSE)
        self.assertEqual(chart.counts(), Counts(1, 1, 0, 0, 0, 1000))

    def test_five_by_three(self):
        chart = Chart(Setup(5, 3, X | Y), ring=64)
        self.assertEqual([(b.x, b.y) for b in chart.children()], [((0, 2), (0, 2)), ((1, 2), (0, 2))])
        self.assertEqual(chart.children()[1].x.span, (4.0, 8.0))
        self.assertEqual(chart.step(b"\x40\x40"), Step(2, 2))
        self.assertEqual((chart.steps, chart.queued, chart.ring_use), (1, 2, (10, 64)))
        self.assertEqual(bytes(chart._ring)[:15].hex(), "010301030001020102000302010200")

    def test_one_by_one_ends_given_up(self):
        chart = Chart(Setup(1, 1, X | Y), ring=16384)
        evaluations = sum(chart.step(b"\x40\0\0\0").evaluations for _ in range(31))
        run = chart.run(b"\x40\xa0\0\0", 9)
        self.assertEqual((run.ending, run.steps, run.evaluations + evaluations), ("limit", 1, 126))
        self.assertEqual(chart.counts().given_up, 1)

    def test_an_evaluator_is_asked(self):
        chart = Chart(Setup(3, 3, X | Y), ring=4096)
        while not chart.finished:
            chart.step_with(lambda b: NO if b.x.index or b.y.index else UNDECIDED if b.level else YES)
        self.assertEqual(chart.rows(), [b"\0\0\0", b"\0\0\0", b"\2\0\0"])

    def test_a_parameter_is_cut(self):
        setup = Setup(1, 1, M, m=(0.0, 3.0))
        self.assertEqual((setup.cells, setup.least_ring), (1, 63))
        chart = Chart(setup, setup.least_ring)
        self.assertEqual((chart.queued, chart.children()[0].m), (3, (0.0, 0.0)))

    def test_leaves(self):
        self.assertEqual(smyrilox.simple_fraction(0.3, 0.4), 0.375)
        self.assertEqual(smyrilox.midpoint(1.0, 2.0), 1.5)
        self.assertEqual(smyrilox.later_cut(0.0, 3.0, True), [(1.0, 1.0), (2.0, 2.0)])
        self.assertEqual([len(smyrilox.first_cut(5.0, 5.0, kind)) for kind in (True, False)], [1, 3])
        self.refused(3, smyrilox.midpoint, 2.0, 1.0)


class Refusals(Case):
    def test_setups(self):
        self.refused(1, Chart, Setup(0, 3, X), 64)
        self.refused(3, Chart, Setup(1, 1, 64), 64)
        self.refused(3, Chart, Setup(1, 1, M, m=(2.0, 1.0)), 64)
        self.refused(6, Chart, Setup(2, 2, X), 4)

    def test_steps(self):
        chart = Chart(Setup(2, 2, X | Y), 64)
        before = chart.save()
        self.refused(4, chart.step, b"\0\0\0")
        self.refused(5, chart.step, b"\x40\x41\0\0")
        self.assertEqual(chart.save(), before)
        chart.step(b"\0\0\0\0")
        self.refused(13, chart.step, b"")
        self.refused(13, chart.children)

    def test_no_room(self):
        chart = Chart(Setup(4, 4, X | Y), 19)
        before = chart.save()
        self.refused(6, chart.step, b"\x40" * 4)
        self.assertEqual(chart.run(b"\x40" * 4, 1), Run("stop", 6, 0, 0, 0, "refused 6: the new blocks do not fit the ring"))
        self.assertEqual(chart.save(), before)

    def test_what_is_wrong_with_the_verdicts(self):
        chart = Chart(Setup(2, 1, X | Y), 64)
        with self.assertRaises(Refused) as caught:
            chart.step(b"\0\0\0")
        self.assertEqual(str(caught.exception), "refused 4: 3 verdicts for 2 children")
        self.assertEqual((caught.exception.number, caught.exception.given, caught.exception.children), (4, 3, 2))
        chart.step(b"\x40\x40")
        for call in (chart.step, lambda v: chart.step_with(lambda b: v[b.x.index + 2 * b.y.index])):
            with self.assertRaises(Refused) as caught:
                call(b"\x40\0\x01\xc0")
            why = caught.exception
            self.assertEqual(str(why), "refused 5: child 2 (the first is 0), on level -1, cannot have the verdict 0x01")
            self.assertEqual((why.number, why.child, why.level, why.byte), (5, 2, -1, 1))
        self.assertEqual(str(pickle.loads(pickle.dumps(why))), str(why))
        self.assertEqual(chart.run(b"\0\0\0", 9), Run("stop", 4, 0, 0, 0, "refused 4: 3 verdicts for 4 children"))
        self.assertEqual(chart.run(b"\0\0\0\xd0", 9).why, "refused 5: child 3 (the first is 0), on level -1, cannot have the verdict 0xd0")

    def test_numbers_have_their_words(self):
        self.assertEqual(sorted(smyrilox.WORDS), list(range(1, 19)))
        self.assertEqual(str(Refused(13)), "refused 13: the queue is empty")
        self.assertEqual(str(Refused(16)), "refused 16: the padding leaves no width or no height")
        self.assertEqual(str(Refused(17)), "refused 17: the table has fewer than four numbers a tile")
        self.assertEqual(str(Refused(18)), "refused 18: the pixel lies outside the picture")
        self.assertEqual(str(Refused(23)), "refused 23: this module has no words for it")


class bool_:
    """A value like numpy's bool: no int, but compared as one, and one wherever an index is asked for."""

    def __init__(self, value):
        self.value = bool(value)

    def __bool__(self):
        return self.value

    def __index__(self):
        return int(self.value)

    __int__ = __index__

    def __le__(self, other):
        return int(self) <= other

    def __ge__(self, other):
        return int(self) >= other


class Verdicts(Case):
    """A falsy answer is not a no: were False taken for the byte 0, a whole chart would turn white."""

    def not_taken(self, answer):
        chart = Chart(Setup(2, 1, X | Y), 64)
        before = chart.save()
        with self.assertRaises(TypeError, msg=repr(answer)):
            chart.step_with(lambda b: answer)
        self.assertRaises(TypeError, Verdict, answer)
        self.assertEqual(chart.save(), before)
        self.assertEqual(chart.counts().no, 0)

    def test_bools(self):
        self.not_taken(False)
        self.not_taken(True)

    def test_readings(self):
        for reading in Reading:
            self.not_taken(reading)

    def test_bools_like_numpys(self):
        self.not_taken(bool_(False))
        self.not_taken(bool_(True))

    def test_bools_of_numpy(self):
        try:
            import numpy
        except ImportError:
            self.skipTest("there is no numpy here; a type like its bool is tried beside")
        self.not_taken(numpy.bool_(False))
        self.not_taken(numpy.bool_(True))
        self.assertRaises(TypeError, begun().step, numpy.zeros(4, dtype=bool))

    def test_what_else_counts_as_nothing(self):
        for answer in (None, 0.0, "", b"", [], ()):
            self.not_taken(answer)

    def test_memory_of_bools(self):
        chart = begun()
        before = chart.save()
        for lent in ((ctypes.c_bool * 4)(), memoryview(bytes(4)).cast("?"), array.array("b", bytes(4))):
            self.assertRaises(TypeError, chart.step, lent)
            self.assertRaises(TypeError, chart.run, lent, 1)
        self.assertEqual(chart.save(), before)
        for lent in (bytearray(4), memoryview(bytes(4)), array.array("B", bytes(4)), (ctypes.c_uint8 * 4)()):
            self.assertEqual(copy.copy(chart).step(lent), Step(4, 4))

    def test_bytes_are_taken(self):
        for yes in (YES, Verdict(0x80), 0x80):
            chart = Chart(Setup(2, 1, X | Y), 64)
            self.assertEqual(chart.step_with(lambda b: yes), Step(2, 2))
            self.assertEqual(chart.picture(), b"\2\2")
        for number in (-1, 256):
            self.assertRaises(ValueError, Chart(Setup(2, 1, X | Y), 64).step_with, lambda b: number)

    def test_together(self):
        self.assertEqual((YES | AREA, type(YES | AREA), repr(0x20 | UNDECIDED)), (0xA0, Verdict, "Verdict(0x60)"))
        self.assertEqual([smyrilox.found_at(p) for p in range(5)], [0x70, 0x68, 0x64, 0x62, 0x61])
        self.assertRaises(TypeError, lambda: YES | True)
        self.assertEqual(pickle.loads(pickle.dumps(YES)), YES)

    def test_every_byte(self):
        """On a level above, at and below a pixel: legal exactly if the step is not refused by 5."""
        for side, level in ((4, 1), (2, 0), (1, -1)):
            chart = Chart(Setup(side, side, X | Y), 64)
            child = chart.children()[2]
            self.assertEqual(child.level, level)
            for byte in range(256):
                step = lambda: copy.copy(chart).step(bytes([0, 0, byte, 0]))
                if Verdict(byte).is_legal_for(child):
                    self.assertEqual(step().verdicts, 4)
                else:
                    self.refused(5, step)

    def test_yes_below_a_pixel(self):
        """A plain YES counts as undecided there."""
        for yes, trues in ((YES, 0), (YES | AREA, 1)):
            chart = Chart(Setup(1, 1, X | Y), 64)
            chart.step(bytes([yes, NO, NO, NO]))
            self.assertEqual((chart.counts().yes, chart.queued), (trues, 1 - trues))
        chart = Chart(Setup(1, 1, X | Y), 64)
        chart.step_with(yes_for)
        self.assertEqual((chart.counts().yes, chart.finished), (1, True))
        self.assertEqual([yes_for(Chart(Setup(side, side, X | Y), 64).children()[0]) for side in (2, 1)], [0x80, 0xA0])


class Together(Case):
    """Record, ring and cells stay together, whoever calls."""

    def test_threads_wait(self):
        for _ in range(20):
            chart = Chart(Setup(64, 64, X | Y), ring=1 << 16)
            threads = [threading.Thread(target=self.step_some, args=(chart,)) for _ in range(3)]
            [t.start() for t in threads]
            [t.join() for t in threads]
            self.assertEqual(chart.counts().no, 0)

    def step_some(self, chart):
        for _ in range(100):
            chart.step_with(lambda b: UNDECIDED)

    def test_an_evaluator_that_steps(self):
        chart = Chart(Setup(4, 4, X | Y), ring=4096)
        with self.assertRaises(RuntimeError):
            chart.step_with(lambda b: (chart.step(b"\x40" * len(chart.children())), NO)[1])
        self.assertEqual(chart.counts().no, 0)

    def test_a_copy_has_its_own(self):
        chart = begun()
        before = chart.save()
        for other in (copy.copy(chart), copy.deepcopy(chart)):
            other.step(b"\x40\x40\x40\x40")
            self.assertEqual(chart.save(), before)

    def test_a_refused_setup_changes_nothing(self):
        chart = begun()
        before = chart.save()
        self.refused(1, chart.__init__, Setup(0, 1, X), 64)
        self.assertEqual(chart.save(), before)

    def test_numbers_are_not_cut(self):
        chart = begun()
        for call in (
            lambda: Chart(Setup(2**32 + 2, 1, X), 64),
            lambda: Chart(Setup(2, 1, 256 + 48), 64),
            lambda: chart.run(b"", 2**32),
            lambda: smyrilox.found_at(5),
        ):
            self.assertRaises(ValueError, call)
        self.assertRaises(TypeError, chart.step, array.array("I", [0x40, 0x40]))
        self.assertRaises(TypeError, chart.step, 4)


if __name__ == "__main__":
    unittest.main()

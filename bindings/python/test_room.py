"""Rings that are enough, queues that move, and charts that grow by themselves."""

import copy
import pickle
import unittest

from smyrilox import M, NO, T, UNDECIDED, X, Y, YES, Chart, NoMemory, Refused, Run, Setup

PLANE = Setup(16, 16, X | Y)
MIXES = Setup(8, 8, X | Y | M | T, m=(1.0, 6.0), t=(0.0, 1.0))


def undecided(chart, steps):
    for _ in range(steps):
        chart.step(bytes([UNDECIDED] * len(chart.children())))


def same_but_for_the_ring(a, b):
    """Record but ring and head, queue, cells, picture and counts."""
    a, b = copy.copy(a), copy.copy(b)
    a.grow(5000)
    b.grow(5000)
    return (a.save(), a.picture(), a.counts(), a.children()) == (b.save(), b.picture(), b.counts(), b.children())


class Enough(unittest.TestCase):
    def test_the_figures(self):
        """The setup's bytes, and for each step 27 without parameters, 50 + 18 u with u of them."""
        self.assertEqual((PLANE.least_ring, PLANE.enough_ring(0), PLANE.enough_ring(700)), (5, 5, 5 + 700 * 27))
        self.assertEqual(MIXES.enough_ring(700), MIXES.least_ring + 700 * 86)
        self.assertEqual(PLANE.enough_ring(2**32 - 1), 5 + (2**32 - 1) * 27)
        self.assertRaises(ValueError, PLANE.enough_ring, 2**32)
        for setup, number in ((Setup(0, 1, X), 1), (Setup(1, 1, 64), 3)):
            with self.assertRaises(Refused) as caught:
                setup.enough_ring(1)
            self.assertEqual(caught.exception.number, number)

    def test_no_step_is_refused(self):
        for setup in (PLANE, MIXES):
            chart = Chart(setup, steps=200)
            self.assertEqual(chart.ring_use[1], setup.enough_ring(200))
            undecided(chart, 200)

    def test_no_memory(self):
        with self.assertRaises(NoMemory) as caught:
            Chart(Setup(1, 1, X | Y), 2**62)
        self.assertEqual((caught.exception.bytes, caught.exception.number), (2**62, 6))
        self.assertEqual(str(caught.exception), f"refused 6: there is no memory for {2 ** 62} bytes")
        self.assertIsInstance(caught.exception, MemoryError)
        self.assertEqual(str(pickle.loads(pickle.dumps(caught.exception))), str(caught.exception))

    def test_a_ring_must_be_said(self):
        self.assertRaises(TypeError, Chart, PLANE)
        self.assertEqual(Chart(PLANE, grows=True).ring_use, (5, 5))
        self.assertEqual(Chart(PLANE, 64, steps=700).ring_use, (5, 64))


class Grow(unittest.TestCase):
    def test_grown_twice(self):
        """A chart that was grown twice is one that was begun with the long ring."""
        for setup, first, steps in ((PLANE, 40, (2, 10, 60)), (MIXES, 1000, (5, 5, 30))):
            long, grown = Chart(setup, 4000), Chart(setup, first)
            for ring, count in zip((first, 2000, 4000), steps):
                grown.grow(ring)
                undecided(long, count)
                undecided(grown, count)
                self.assertTrue(same_but_for_the_ring(long, grown))
            self.assertEqual(long.save(), grown.save())

    def test_a_queue_around_the_end_of_its_ring(self):
        chart = Chart(Setup(4, 4, X | Y), 41)
        undecided(chart, 2)
        other = copy.copy(chart)
        self.assertGreater(chart._state.head + chart._state.used, 41)
        other.grow(chart.ring_use[0])
        self.assertEqual((other._state.head, other.ring_use), (0, (chart.ring_use[0],) * 2))
        self.assertTrue(same_but_for_the_ring(chart, other))

    def test_a_shorter_ring(self):
        chart = Chart(PLANE, 4000)
        undecided(chart, 20)
        used, before = chart.ring_use[0], chart.save()
        for ring in (used - 1, 0, -1):
            with self.assertRaises(Refused) as caught:
                chart.grow(ring)
            self.assertEqual((caught.exception.number, chart.save()), (6, before))
        chart.grow(used)
        self.assertEqual(chart.ring_use, (used, used))
        with self.assertRaises(NoMemory):
            chart.grow(2**62)

    def test_an_empty_queue(self):
        chart = Chart(Setup(2, 1, X | Y), 64)
        chart.step(b"\x80\0")
        with self.assertRaises(Refused) as caught:
            chart.grow(0)
        self.assertEqual(caught.exception.number, 6)
        chart.grow(1)
        self.assertEqual((chart.ring_use, chart.picture()), ((0, 1), b"\2\0"))


class GrowsByItself(unittest.TestCase):
    def test_steps(self):
        grows, long = Chart(PLANE, grows=True), Chart(PLANE, 4000)
        asked = []
        for chart, evaluator in ((grows, lambda b: asked.append(b) or UNDECIDED), (long, lambda b: UNDECIDED)):
            for _ in range(100):
                chart.step_with(evaluator)
        self.assertTrue(same_but_for_the_ring(grows, long))
        # no child was asked about twice, and the ring is 5 bytes doubled
        self.assertEqual((len(asked), len(set(asked)), grows.ring_use[1]), (400, 400, 5 * 2**9))

    def test_a_run_goes_on(self):
        tape = bytes([UNDECIDED, UNDECIDED, NO, UNDECIDED, YES, UNDECIDED, UNDECIDED]) * 60
        grows, long = Chart(PLANE, 5, grows=True), Chart(PLANE, 4000)
        self.assertEqual(grows.run(tape, 90), long.run(tape, 90))
        self.assertEqual(grows.run(tape[:10], 90), long.run(tape[:10], 90))
        self.assertTrue(same_but_for_the_ring(grows, long))
        self.assertEqual((grows.steps, grows.ring_use[1]), (92, 1280))

    def test_only_if_asked(self):
        chart = Chart(PLANE, 5)
        self.assertEqual(chart.run(bytes([UNDECIDED] * 4), 1)[:3], ("stop", 6, 0))
        chart.grows = True
        self.assertEqual(chart.run(bytes([UNDECIDED] * 4), 1), Run("more", 0, 1, 4, 4))

    def test_no_memory(self):
        chart = Chart(PLANE, 5, grows=True)
        chart.grow = self.no_memory
        before = chart.save()
        self.assertRaises(NoMemory, chart.step, bytes([UNDECIDED] * 4))
        run = Run("stop", 6, 0, 0, 0, "refused 6: there is no memory for 10 bytes")
        self.assertEqual(chart.run(bytes([UNDECIDED] * 4), 1), run)
        self.assertEqual(chart.refine(lambda b: UNDECIDED, 1), run)
        self.assertEqual(chart.save(), before)

    def no_memory(self, ring):
        raise NoMemory(ring)

    def test_copies_grow_too(self):
        chart = Chart(PLANE, grows=True, tag="a tag")
        for other in (copy.copy(chart), pickle.loads(pickle.dumps(chart))):
            undecided(other, 3)
            self.assertEqual((other.grows, other.tag), (True, b"a tag"))


if __name__ == "__main__":
    unittest.main()

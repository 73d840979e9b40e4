"""A number of steps with an evaluator, and the two greys."""

import unittest

import smyrilox
from smyrilox import NO, UNDECIDED, YES, Chart, Grey, Refused, Run, Setup, X, Y


def corner(block):
    """The lower left pixel alone is a solution."""
    return NO if block.x.index or block.y.index else UNDECIDED if block.level else YES


class Refine(unittest.TestCase):
    def test_the_endings(self):
        chart = Chart(Setup(3, 3, X | Y), steps=10)
        self.assertEqual(chart.refine(corner, 0), Run("more", 0, 0, 0, 0))
        self.assertEqual(chart.refine(corner, 1), Run("more", 0, 1, 4, 4))
        self.assertEqual(chart.refine(corner, 9), Run("done", 0, 1, 4, 4))
        self.assertEqual(chart.refine(corner, 9), Run("done", 0, 0, 0, 0))
        self.assertEqual(chart.rows(), [b"\0\0\0", b"\0\0\0", b"\2\0\0"])
        point = Chart(Setup(1, 1, X | Y), steps=40)
        thin = lambda block: NO if block.x.index or block.y.index else UNDECIDED
        self.assertEqual(point.refine(thin, 40), Run("limit", 0, 32, 128, 128))

    def test_as_a_run(self):
        """The same steps as on a tape."""
        tape, asked = bytes([UNDECIDED] * 80), Chart(Setup(16, 16, X | Y), 4000)
        taped = Chart(Setup(16, 16, X | Y), 4000)
        self.assertEqual(asked.refine(lambda b: UNDECIDED, 20), taped.run(tape, 20))
        self.assertEqual(asked.save(), taped.save())

    def test_a_refusal(self):
        chart = Chart(Setup(4, 4, X | Y), 19)
        self.assertEqual(chart.refine(lambda b: UNDECIDED, 9), Run("stop", 6, 0, 0, 0, "refused 6: the new blocks do not fit the ring"))
        run = chart.refine(lambda b: 0x41, 9)
        self.assertEqual((run.ending, run.stop, run.why), ("stop", 5, "refused 5: child 0 (the first is 0), on level 1, cannot have the verdict 0x41"))
        self.assertRaises(ValueError, chart.refine, corner, 2**32)

    def test_progress(self):
        seen, chart = [], Chart(Setup(3, 3, X | Y), steps=10)
        chart.refine(corner, 5, lambda c, finished: seen.append((c is chart, finished, c.counts().share)))
        self.assertEqual(seen, [(True, 1, 555), (True, 2, 1000)])

    def test_what_the_evaluator_raises(self):
        """It comes out as it is, a refusal of a leaf too, and the finished steps are kept."""
        chart = Chart(Setup(3, 3, X | Y), steps=10)
        chart.refine(corner, 1)
        before = chart.save()
        self.assertRaises(Refused, chart.refine, lambda b: smyrilox.midpoint(2.0, 1.0), 5)
        self.assertRaises(TypeError, chart.refine, lambda b: False, 5)
        self.assertEqual(chart.save(), before)


class Greys(unittest.TestCase):
    def test_told_apart(self):
        """The chart of the fields' test after 100 steps: two pixels are given up, and one waits."""
        chart = Chart(Setup(5, 4, X | Y), 64)
        chart.run(bytes.fromhex("4040 80400000 4080 40000000 4040 60000000" + "40000000" * 94), 100)
        picture, greys = chart.picture(), chart.greys()
        self.assertEqual([greys.count(grey) for grey in Grey], [17, 1, 2])
        self.assertTrue(all((reading == 1) == (grey != Grey.DECIDED) for reading, grey in zip(picture, greys)))
        chart.run(b"\x60\0\0\0", 9)
        self.assertEqual([chart.greys().count(grey) for grey in Grey], [17, 0, 3])

    def test_all_waits(self):
        self.assertEqual(Chart(Setup(2, 2, X | Y), 64).greys(), b"\1\1\1\1")


if __name__ == "__main__":
    unittest.main()

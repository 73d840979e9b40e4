"""Boxes of blocks: worked values, exact places in fractions, every refusal in its order. The C and Rust tests have the same plots."""

import math
import pickle
import random
import struct
import unittest
from fractions import Fraction

from smyrilox import WHOLE, X, Y, Block, BlockBox, Chart, Coordinate, Edges, MapKind, Padding, Plot, Refused, Setup

QUICK, PRECISE = MapKind.QUICK, MapKind.PRECISE
INFINITY = math.inf
SIDES = ("left", "right", "bottom", "top")


def block(x, y, level, other=None):
    return Block(Coordinate(x, level), Coordinate(y, level if other is None else other), WHOLE, WHOLE, WHOLE, WHOLE)


def four(kind=QUICK, **changed):
    """4 by 4 pixels, from 0 to 1 along x and from 0 to 2 along y."""
    return Plot(4, 4, **{**dict(left=0, right=1, bottom=0, top=2, kind=kind), **changed})


def pairs(words):
    """Intervals, two numbers each as C writes them."""
    ends = [float.fromhex(word) for word in words.split()]
    return list(zip(ends[::2], ends[1::2]))


class Case(unittest.TestCase):
    def refused(self, number, plot, asked):
        with self.assertRaises(Refused) as caught:
            plot.block_box(asked)
        self.assertEqual(caught.exception.number, number)


class Values(Case):
    def test_above_a_pixel(self):
        box = four().block_box(block(1, 0, 1))
        half, one, zero = pairs("0x1.ffffffffffffap-2 0x1.0000000000005p-1 0x1.ffffffffffffap-1 0x1.0000000000005p+0 -0x4p-1074 0x4p-1074")
        x, y = (half[0], one[1]), (zero[0], one[1])
        self.assertEqual(box, BlockBox(Edges(half, one, zero, one), x, y))
        self.assertEqual(box.outer, (x, y))
        precise = four(PRECISE).block_box(block(1, 0, 1)).edges
        wanted = pairs("0x1.ffffffffffff9p-2 0x1.0000000000006p-1 0x1.ffffffffffff9p-1 0x1.0000000000006p+0")
        self.assertEqual([precise.left, precise.right], wanted)

    def test_below_a_pixel(self):
        """An end on the pixel's edge is the outer one, the other the midpoint; the outer box is wider."""
        box = four().block_box(block(3, 4, -1))
        self.assertEqual([box.x, box.y], pairs("0x1.8p-2 0x1.0000000000005p-1 0x1.ffffffffffffap-1 0x1.4000000000001p+0"))
        self.assertEqual(list(box.outer), pairs("0x1.7fffffffffffbp-2 0x1.0000000000005p-1 0x1.ffffffffffffap-1 0x1.4000000000006p+0"))
        box = four(PRECISE).block_box(block(3, 4, -1))
        self.assertEqual([box.x, box.y], pairs("0x1.8p-2 0x1.0000000000006p-1 0x1.ffffffffffff9p-1 0x1.4p+0"))

    def test_each_field_in_its_place(self):
        plot = Plot(12, 10, left=(0.5, 0.75), right=(8, 9), bottom=(-3, -2.5), top=(4, 5.5), padding=Padding(1, 3, 2, 1))
        edges = plot.block_box(block(1, 0, 3)).edges
        self.assertEqual([edges.left, edges.right], pairs("0x1.abffffffffff9p+2 0x1.0b00000000005p+3 0x1.49ffffffffffap+3 0x1.9300000000006p+3"))
        self.assertEqual([edges.bottom, edges.top], pairs("-0x1.5b6db6db6db72p+2 -0x1.16db6db6db6d8p+2 0x1.fffffffffffe3p+0 0x1.56db6db6db6e6p+2"))

    def test_zeros(self):
        """A lower bound of zero is -0, an upper one +0; equal ends do not cross."""
        least = Plot(1, 1, left=0, right=5e-324, bottom=0, top=1, kind=PRECISE)
        self.assertEqual(struct.pack(">2d", *least.block_box(block(4, 0, -3)).x).hex(), "80" + "00" * 15)

    def test_a_childs_box_in_one_call(self):
        plot = Plot(5, 3, left=10, right=15, bottom=0, top=3)
        lefts = [plot.block_box(child).edges.left for child in Chart(Setup(5, 3, X | Y), 64).children()]
        for (lower, upper), place in zip(lefts, (10, 14)):
            self.assertTrue(place - 0.1 < lower < place < upper < place + 0.1, lefts)


class Exact(Case):
    """Wherever in their intervals the plot's edges stand, the exact places of the block's edges lie inside, as fractions of whole numbers."""

    def a_plot(self, chance):
        width, height = chance.randint(1, 40), chance.randint(1, 40)
        left, bottom = chance.randrange(width), chance.randrange(height)
        rim = Padding(left, chance.randrange(width - left), bottom, chance.randrange(height - bottom))
        ends = {}
        for low, high in (("left", "right"), ("bottom", "top")):
            a, b, c, d = sorted(chance.uniform(-100, 100) for _ in range(4))
            ends[low], ends[high] = (a, chance.choice((a, b))), (chance.choice((c, d)), d)
        return Plot(width, height, **ends, padding=rim, kind=chance.choice(list(MapKind)))

    def a_block(self, chance, plot):
        level = chance.randint(-32, 6)
        return block(*(int(Fraction(chance.randrange(side)) / Fraction(2) ** level) for side in (plot.width, plot.height)), level)

    def places(self, c, side, before, after, low, high):
        """The exact places of both ends, clipped to the side, for the plot's edges at `low` and `high`."""
        ends = (Fraction(c.index + end) * Fraction(2) ** c.level for end in (0, 1))
        return [low + (min(p, side) - before) * (high - low) / (side - after - before) for p in ends]

    def test_edges_and_outer(self):
        chance = random.Random(2)
        for _ in range(400):
            plot = self.a_plot(chance)
            asked = self.a_block(chance, plot)
            box = plot.block_box(asked)
            l, r, b, t = plot.padding
            for low, high in ((x, y) for x in (0, 1) for y in (0, 1)):
                stood = [Fraction(edge[end]) for edge, end in zip((plot.left, plot.right, plot.bottom, plot.top), (low, high, low, high))]
                exact = self.places(asked.x, plot.width, l, r, *stood[:2]) + self.places(asked.y, plot.height, b, t, *stood[2:])
                for side, place, (lower, upper) in zip(SIDES, exact, box.edges):
                    self.assertTrue(lower <= place <= upper, (plot, asked, side))
                (x0, x1), (y0, y1) = box.outer
                self.assertTrue(x0 <= exact[0] <= exact[1] <= x1 and y0 <= exact[2] <= exact[3] <= y1, (plot, asked))


class Refusals(Case):
    def test_in_their_order(self):
        """A plot and a block in which all is wrong; then one fault after the other is mended."""
        wrong = dict(width=0, left=(0, INFINITY), right=(1, 0), padding=Padding(2, 2, 3, 1))
        plot = lambda: Plot(**{**dict(height=4, bottom=0, top=2), **wrong})
        self.refused(1, plot(), block(4, 0, 0))
        wrong["width"] = 4
        self.refused(16, plot(), block(4, 0, 0))
        wrong["padding"] = Padding(2, 1, 3, 1)
        self.refused(16, plot(), block(4, 0, 0))
        wrong["padding"] = Padding(2, 1, 3, 0)
        self.refused(3, plot(), block(4, 0, 0))
        wrong["right"] = (1, 2)
        self.refused(8, plot(), block(4, 0, 0))
        self.refused(15, plot(), block(3, 0, 0))
        wrong["left"] = 0
        self.assertEqual(len(plot().block_box(block(3, 0, 0))), 3)

    def test_blocks_of_another_picture(self):
        for wrong in (block(0, 0, -33), block(0, 0, 16), block(2**47, 0, -32), block(0, 8, -1), block(0, 0, 0, -1)):
            self.refused(8, four(), wrong)

    def test_edges(self):
        self.refused(3, four(top=math.nan), block(0, 0, 0))
        self.refused(15, four(right=-1), block(0, 0, 0))
        self.refused(15, Plot(1, 1, left=0, right=5e-324, bottom=0, top=1), block(4, 0, -3))


class Given(Case):
    """What would be cut or rounded on its way to the library is not taken."""

    def test_numbers_are_not_cut(self):
        for wrong in (dict(padding=Padding(left=2**32)), dict(padding=Padding(top=-1)), dict(kind=2)):
            self.assertRaises(ValueError, four, **wrong)
        self.assertRaises(ValueError, Plot, 2**32 + 4, 4, left=0, right=1, bottom=0, top=1)
        for wrong in (block(2**64, 0, 0), block(0, 0, 2**32)):
            self.assertRaises(ValueError, four().block_box, wrong)

    def test_edges_are_not_rounded(self):
        for wrong in (Fraction(1, 10), 2**53 + 1, (0, Fraction(1, 3))):
            self.assertRaises(ValueError, four, right=wrong)
        self.assertEqual(four(right=Fraction(1, 2)).block_box(block(0, 0, 0)), four(right=0.5).block_box(block(0, 0, 0)))

    def test_a_plot_is_a_value(self):
        plot = four(padding=(1, 0, 0, 1))
        self.assertEqual((plot, hash(plot), plot.padding.top), (four(padding=Padding(1, top=1)), hash(four(padding=Padding(1, 0, 0, 1))), 1))
        self.assertEqual(pickle.loads(pickle.dumps(plot)).block_box(block(1, 1, 0)), plot.block_box(block(1, 1, 0)))
        self.assertRaises(AttributeError, setattr, plot, "width", 9)


if __name__ == "__main__":
    unittest.main()

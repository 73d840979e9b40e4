"""Tables of tile counts: the values of document 02, refusals in their order, tables held against a recount of the picture, and thumbnails."""

import copy
import ctypes
import os
import pickle
import random
import unittest
from unittest import mock

from smyrilox import AREA, NO, UNDECIDED, YES, Chart, Grey, NoMemory, Refused, Run, Setup, Table, Tile, M, X, Y
from smyrilox import _library as lib

PLANE = Setup(20, 18, X | Y)
BEGUN = [0, 0, 256, 0, 0, 0, 64, 0, 0, 0, 32, 0, 0, 0, 8, 0]
FIRST = [0, 32, 224, 0, 56, 0, 8, 0, 0, 0, 32, 0, 8, 0, 0, 0]
SECOND = [0, 256, 0, 0, 56, 0, 8, 0, 0, 32, 0, 0, 8, 0, 0, 0]
TAPE = bytes([UNDECIDED, UNDECIDED, NO, UNDECIDED, YES, UNDECIDED, UNDECIDED]) * 60


def recount(chart):
    """The tiles' counts by the picture and its greys, pixel by pixel."""
    width, height = chart.size
    columns = (width + 15) // 16
    due = [0] * (4 * columns * ((height + 15) // 16))
    for i, (reading, grey) in enumerate(zip(chart.picture(), chart.greys())):
        tile = 4 * (i // width // 16 * columns + i % width // 16)
        due[tile + (1, 2, 0)[reading]] += 1
        due[tile + 3] += grey == Grey.GIVEN_UP
    return due


class Values(unittest.TestCase):
    def test_twenty_by_eighteen(self):
        chart = Chart(PLANE, 64, with_table=True)
        table = chart.table
        self.assertEqual((table.columns, table.rows, table.numbers(), repr(table)), (2, 2, BEGUN, "<Table of 2 by 2 tiles>"))
        chart.step(b"\x40\x80\x00\x40")
        self.assertEqual(table.numbers(), FIRST)
        tiles = [Tile(0, 32, 224, 0), Tile(56, 0, 8, 0), Tile(0, 0, 32, 0), Tile(8, 0, 0, 0)]
        self.assertEqual(([table.tile(column, row) for row in (0, 1) for column in (0, 1)], table.tiles()), (tiles, tiles))
        self.assertEqual([tile.pixels for tile in tiles], [256, 64, 32, 8])
        self.assertEqual(list(table.thumbnail()), [150, 70, 140, 0])
        chart.step(b"\0\0\0\0")
        self.assertEqual((table.numbers(), list(table.thumbnail())), (SECOND, [255, 70, 255, 0]))

    def test_a_run(self):
        chart = Chart(PLANE, 64, with_table=True)
        self.assertEqual(chart.run(b"\x40\x80\x00\x40\0\0\0\0", 2), Run("more", 0, 2, 8, 8))
        self.assertEqual(chart.table.numbers(), SECOND)

    def test_only_if_asked(self):
        chart = Chart(PLANE, 64)
        self.assertIsNone(chart.table)
        chart.step(b"\x40\x80\x00\x40")
        self.assertIsNone(chart.table)

    def test_a_pixel_given_up_is_uncertain_too(self):
        chart = Chart(Setup(1, 1, X | Y), 4096, with_table=True)
        self.assertEqual(chart.run(b"\x40\0\0\0" * 32, 99).ending, "limit")
        self.assertEqual(chart.table.tile(0, 0), Tile(0, 0, 1, 1))

    def test_no_such_tile(self):
        table = Chart(PLANE, 64, with_table=True).table
        for column, row in ((2, 0), (0, 2), (-1, 0), (0, -1)):
            self.assertRaises(IndexError, table.tile, column, row)

    def test_refused_setups(self):
        for number, setup, ring in ((1, Setup(0, 1, X), 64), (3, Setup(1, 1, 64), 64), (6, PLANE, 4)):
            with self.assertRaises(Refused) as caught:
                Chart(setup, ring, with_table=True)
            self.assertEqual(caught.exception.number, number)

    def test_no_memory(self):
        tiles = mock.Mock(return_value=lib.Number(0, 2**60))
        with mock.patch.object(lib.library, "smyrilox_tile_count", tiles), self.assertRaises(NoMemory) as caught:
            Chart(PLANE, 64, with_table=True)
        self.assertEqual(caught.exception.bytes, 2**64)


class Order(unittest.TestCase):
    """The calls with a table as the library has them, since a chart's own table has the right length: 17 in its place, and nothing changed."""

    def setUp(self):
        self.ring, self.cells, self.table = (ctypes.c_uint8 * 64)(), (ctypes.c_uint64 * 360)(), (ctypes.c_uint32 * 18)(*[9] * 18)
        started = self.setup(20, 48, 64, 360, 18)
        self.assertEqual((started.refusal, self.table[:]), (0, BEGUN + [9, 9]))
        self.state = started.state
        self.keep()

    def setup(self, width, uses, ring, cells, table):
        ranges = lib.Ranges(lib.Interval(2.0, 1.0))
        lent = (self.ring, ring, self.cells, cells, self.table, table)
        return lib.library.smyrilox_setup_with_table(lib.Chosen(width, 18, uses), ranges, *lent)

    def step(self, state, cells, table, verdicts):
        given = (ctypes.c_uint8 * len(verdicts))(*verdicts)
        lent = (self.ring, state.len, self.cells, cells, self.table, table)
        return lib.library.smyrilox_step_with_table(state, *lent, given, len(given))

    def run_on(self, state, cells, table, tape):
        given = (ctypes.c_uint8 * len(tape))(*tape)
        lent = (self.ring, state.len, self.cells, cells, self.table, table)
        return lib.library.smyrilox_run_with_table(state, *lent, given, len(given), 9)

    def fill(self, state, cells, table):
        return lib.library.smyrilox_fill_table(state, self.cells, cells, self.table, table)

    def memory(self):
        return self.ring[:], self.cells[:], self.table[:]

    def keep(self):
        self.kept = self.memory()

    def refused(self, number, due):
        self.assertEqual(number, due)
        self.assertEqual(self.memory(), self.kept)

    def changed(self, **fields):
        state = lib.State.from_buffer_copy(self.state)
        for name, value in fields.items():
            setattr(state, name, value)
        return state

    def test_setups(self):
        rows = ((1, 0, 64, 0, 0, 0), (2, 20, 64, 0, 359, 0), (17, 20, 64, 0, 360, 15), (3, 20, 64, 0, 360, 16), (3, 20, 56, 0, 360, 16), (6, 20, 48, 4, 360, 16))
        for due, *given in rows:
            self.refused(self.setup(*given).refusal, due)

    def test_steps(self):
        empty = self.changed(taken=self.state.queued, used=0)
        self.refused(self.step(self.changed(taken=9), 0, 0, b"").refusal, 8)
        self.refused(self.step(empty, 359, 0, b"").refusal, 2)
        self.refused(self.step(empty, 360, 15, b"").refusal, 17)
        self.refused(self.step(empty, 360, 16, b"").refusal, 13)
        self.refused(self.step(self.state, 360, 16, b"\x41" * 3).refusal, 4)
        self.refused(self.step(self.state, 360, 16, b"\x41" * 4).refusal, 5)
        self.refused(self.step(self.changed(taken=2**32 - 1, queued=2**32), 360, 16, b"\x40" * 4).refusal, 7)

    def test_a_cell_of_a_touched_tile(self):
        """The front block covers rows 2 to 17 of columns 0 to 15, and touches the tiles 0 and 2: 8 speaks of rows 0 and 1 there too."""
        state = self.step(self.state, 360, 18, b"\x40\x80\x00\x40").state
        self.cells[0] = 2**33
        self.keep()
        self.refused(self.step(state, 360, 15, bytes(4)).refusal, 17)
        self.refused(self.step(state, 360, 16, bytes(3)).refusal, 8)
        self.cells[0], self.cells[16] = 1, 2**33
        self.assertEqual((self.step(state, 360, 16, bytes(4)).refusal, self.table[:]), (0, SECOND + [9, 9]))

    def test_runs_and_filling(self):
        self.cells[359] = 2**33
        self.keep()
        for due, state, cells, table in ((8, self.changed(taken=9), 0, 0), (2, self.state, 359, 0), (17, self.state, 360, 15)):
            self.refused(self.run_on(state, cells, table, bytes(4)).refusal, due)
            self.refused(self.fill(state, cells, table), due)
        run = self.run_on(self.state, 360, 16, bytes(4))
        self.refused((run.refusal, run.ending, run.stop, run.steps), (0, 4, 8, 0))
        self.refused(self.fill(self.state, 360, 16), 8)

    def test_tiles(self):
        count = lib.library.smyrilox_tile_count
        for width, height, tiles in ((1, 1, 1), (16, 16, 1), (17, 16, 2), (20, 18, 4), (32768, 32768, 2**22)):
            self.assertEqual((count(width, height).refusal, count(width, height).value), (0, tiles))
        self.assertEqual((count(0, 5).refusal, count(32769, 5).refusal, count(0, 5).value), (1, 1, 0))


class Recounts(unittest.TestCase):
    def test_after_every_step(self):
        chance, steps = random.Random(20260416), 0
        for round_ in range(25):
            width, height = chance.randint(1, 40), chance.randint(1, 40)
            setup = Setup(width, height, X | Y | M, m=(0.0, 3.0)) if round_ % 3 == 0 else Setup(width, height, X | Y)
            chart = Chart(setup, steps=20, with_table=True)
            self.assertEqual(chart.table.numbers(), recount(chart))
            while not chart.finished and chart.steps < 20:
                below = lambda b: chance.choice((UNDECIDED, UNDECIDED, UNDECIDED | AREA, NO, YES | AREA))
                chart.step_with(lambda b: below(b) if b.level < 0 else chance.choice((UNDECIDED,) * 4 + (NO, YES)))
                self.assertEqual(chart.table.numbers(), recount(chart), chart)
                steps += 1
            self.assertEqual(Chart.load(chart.save(), with_table=True).table.numbers(), chart.table.numbers())
        self.assertGreater(steps, 300)

    def test_a_refused_step_leaves_it(self):
        chart = Chart(PLANE, 19, with_table=True)
        for number, verdicts in ((4, b"\0"), (5, b"\x41\0\0\0"), (6, b"\x40" * 4)):
            with self.assertRaises(Refused) as caught:
                chart.step(verdicts)
            self.assertEqual((caught.exception.number, chart.table.numbers()), (number, BEGUN))
        self.assertEqual(chart.run(b"\x40" * 4, 1)[:3], ("stop", 6, 0))
        self.assertEqual(chart.table.numbers(), BEGUN)

    def test_it_goes_with_the_chart(self):
        """Grown by a step, by a run and by hand; copied; pickled."""
        setup = Setup(40, 40, X | Y)
        grows, long = Chart(setup, grows=True, with_table=True), Chart(setup, 4000, with_table=True)
        self.assertEqual(grows.run(TAPE, 60), long.run(TAPE, 60))
        grows.step_with(lambda b: NO)
        long.step_with(lambda b: NO)
        grows.grow(9000)
        self.assertEqual((grows.table.numbers(), long.table.numbers()), (recount(long), recount(long)))
        for other in (copy.copy(grows), copy.deepcopy(grows), pickle.loads(pickle.dumps(grows))):
            other.refine(lambda b: NO, 3)
            self.assertEqual(other.table.numbers(), recount(other))
            self.assertEqual(grows.table.numbers(), recount(long))
        self.assertIsNone(copy.copy(Chart(PLANE, 64)).table)
        self.assertIsNone(pickle.loads(pickle.dumps(Chart(PLANE, 64))).table)

    def test_a_loaded_chart(self):
        """The table is not saved, and filled anew where it is asked for."""
        chart, without = Chart(PLANE, 4000, with_table=True), Chart(PLANE, 4000)
        chart.run(TAPE, 9)
        without.run(TAPE, 9)
        self.assertEqual(chart.save(), without.save())
        self.assertIsNone(Chart.load(chart.save()).table)
        loaded = Chart.load(without.save(), with_table=True)
        self.assertEqual(loaded.table.numbers(), chart.table.numbers())
        for other in (chart, loaded):
            other.step_with(lambda b: NO)
        self.assertEqual((loaded.table.numbers(), chart.table.numbers()), (recount(chart), recount(chart)))
        with open(os.path.join(os.path.dirname(os.path.abspath(__file__)), "..", "saved", "layout1.chart"), "rb") as file:
            one = Chart.load(file.read(), with_table=True)
        self.assertEqual(one.table.numbers(), recount(one))


class Thumbnails(unittest.TestCase):
    def test_shades(self):
        """White only if every pixel reads False, black only if every pixel reads True; all else a grey that is neither."""
        self.assertEqual([Tile(*t).shade for t in ((0, 256, 0, 0), (256, 0, 0, 0), (0, 0, 256, 256))], [255, 0, 140])
        self.assertEqual([Tile(*t).shade for t in ((1, 255, 0, 0), (255, 1, 0, 0), (0, 255, 1, 0))], [220, 61, 220])
        self.assertEqual(Tile(0, 0, 0, 0).shade, 220)
        for pixels in (1, 2, 8, 40):
            for yes in range(pixels + 1):
                for no in range(pixels - yes + 1):
                    shade = Tile(yes, no, pixels - yes - no, 0).shade
                    self.assertEqual((shade == 255, shade == 0), (no == pixels, yes == pixels))
                    self.assertTrue(shade in (0, 255) or 60 <= shade <= 220)

    def test_one_pixel_keeps_a_tile_from_white(self):
        """The pixel at the right of the upper edge alone is a solution."""
        chart = Chart(Setup(33, 17, X | Y), steps=1000, with_table=True)
        in_corner = lambda b: b.x.span[1] > 32 and b.y.span[1] > 16
        self.assertEqual(chart.refine(lambda b: NO if not in_corner(b) else UNDECIDED if b.level else YES, 1000).ending, "done")
        self.assertEqual(chart.table.tile(2, 0), Tile(1, 15, 0, 0))
        self.assertEqual(list(chart.table.thumbnail()), [255, 255, 210, 255, 255, 255])
        self.assertIsInstance(chart.table, Table)


if __name__ == "__main__":
    unittest.main()

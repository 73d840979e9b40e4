"""Charts on disk: both layouts, stored bytes that all bindings read, and bytes that are no chart."""

import copy
import os
import pickle
import struct
import unittest
import zlib

from smyrilox import UNDECIDED, X, Y, Chart, NotLoaded, Refused, Setup, _saved

FOLDER = os.path.join(os.path.dirname(os.path.abspath(__file__)), "..", "saved")
TAG = b"doors, evaluator 7"


def stored(name):
    with open(os.path.join(FOLDER, name), "rb") as file:
        return file.read()


def begun():
    chart = Chart(Setup(5, 3, X | Y), ring=64, tag="five by three")
    chart.step(bytes([UNDECIDED, UNDECIDED]))
    return chart


def load(saved):
    return Chart.load(saved, "five by three")


def changed(saved, at, to):
    """With a check that is right for the change."""
    if saved[8] == 1:
        body = saved[:at] + bytes([to]) + saved[at + 1 : -8]
        return body + struct.pack("<Q", _saved._crc64(body))
    body = saved[:at] + bytes([to]) + saved[at + 1 : -4]
    return body + struct.pack("<I", zlib.crc32(body))


class Stored(unittest.TestCase):
    """The chart of the fields' test after 28 steps, its queue around the end of a ring of 900 bytes, as layout 1 and 2 have it."""

    def test_layout_2(self):
        chart = Chart.load(stored("layout2.chart"), TAG)
        self.assertEqual(chart.save(), stored("layout2.chart"))
        whole = (float("-inf"), float("inf"))
        self.assertEqual(chart.setup, Setup(7, 5, 61, (2.0, 9.0), (10.0, 15.0), whole, (0.5, 0.75)))
        self.assertEqual((chart.steps, chart.queued, chart.ring_use, chart.tag), (28, 2, (22, 900), TAG))

    def test_layout_1(self):
        """It has no ranges and no tag; saved again it is layout 2, and but for these the same."""
        chart = Chart.load(stored("layout1.chart"))
        self.assertEqual((chart.setup, chart.tag, chart.ring_use), (None, b"", (22, 900)))
        two = stored("layout2.chart")
        whole = struct.pack("<2d", float("-inf"), float("inf")) * 4
        body = two[:26] + b"\0\0" + bytes(4) + two[32:72] + whole + two[136:296] + two[296 + len(TAG) : -4]
        self.assertEqual(chart.save(), body + struct.pack("<I", zlib.crc32(body)))
        self.assertEqual(Chart.load(chart.save()).save(), chart.save())

    def test_both_go_on(self):
        one, two = Chart.load(stored("layout1.chart")), Chart.load(stored("layout2.chart"), TAG)
        self.assertEqual((one.picture(), one.counts()), (two.picture(), two.counts()))
        for _ in range(6):
            self.assertEqual(one.children(), two.children())
            verdicts = bytes([UNDECIDED] * len(one.children()))
            self.assertEqual(one.step(verdicts), two.step(verdicts))
        self.assertEqual((one.picture(), one.counts()), (two.picture(), two.counts()))

    def test_the_check_of_layout_1(self):
        self.assertEqual(_saved._crc64(b"123456789"), 0x995DC9BBDF1939FA)


class Tags(unittest.TestCase):
    def test_a_load_must_name_it(self):
        saved = begun().save()
        for tag in (b"", b"five by three ", b"five by thre", b"Five by three"):
            with self.assertRaisesRegex(NotLoaded, "five by three"):
                Chart.load(saved, tag)
        self.assertEqual(load(saved).tag, b"five by three")
        self.assertRaises(NotLoaded, Chart.load, stored("layout1.chart"), TAG)

    def test_a_pickle_keeps_it(self):
        chart = begun()
        self.assertEqual(pickle.loads(pickle.dumps(chart)).save(), chart.save())
        self.assertEqual(copy.copy(chart).save(), chart.save())


class OnDisk(unittest.TestCase):
    def test_a_chart_goes_on(self):
        chart = begun()
        loaded = load(chart.save())
        for verdicts in (b"\x40\0\x80\0", b"\x80\0"):
            self.assertEqual(chart.step(verdicts), loaded.step(verdicts))
            self.assertEqual(chart.save(), loaded.save())

    def test_only_the_queue_is_saved(self):
        """A long ring costs nothing on disk, and where in it the queue stands is not saved."""
        short, long = begun(), begun()
        long.grow(100_000)
        self.assertEqual(len(short.save()), 296 + 13 + 10 + 15 * 8 + 4)
        self.assertEqual([i for i, (a, b) in enumerate(zip(short.save()[:-4], long.save()[:-4])) if a != b], [48, 49, 50])

    def test_an_empty_queue(self):
        chart = Chart(Setup(2, 1, X | Y), 64)
        chart.step(b"\x80\0")
        self.assertEqual(Chart.load(chart.save()).picture(), b"\2\0")

    def test_every_changed_byte_is_noticed(self):
        saved = begun().save()
        for at in range(len(saved)):
            for bits in (16, 255):
                with self.assertRaises((NotLoaded, Refused), msg=at):
                    load(saved[:at] + bytes([saved[at] ^ bits]) + saved[at + 1 :])
            with self.assertRaises(NotLoaded, msg=at):
                load(saved[:at])
        self.assertRaises(NotLoaded, load, saved + b"\0")

    def test_every_changed_byte_with_a_right_check(self):
        """Refused, or taken as another chart that the engine holds to be sound: nothing else is raised."""
        saved, taken = begun().save(), 0
        # but the ring's length, which can ask for much memory
        for at in (*range(48), *range(56, len(saved) - 4)):
            try:
                load(changed(saved, at, saved[at] ^ 1)).picture()
                taken += 1
            except (NotLoaded, Refused):
                pass
        # those of the ranges, of which none is used, of the two blocks, and of the cells that stay legal
        self.assertIn(taken, range(100, len(saved) - 40))

    def test_kinds_of_later_releases(self):
        for at, what in ((22, "coding is 1"), (23, "mode is 1"), (24, "floor is -31"), (25, "shape is 1")):
            with self.assertRaisesRegex(NotLoaded, what):
                load(changed(begun().save(), at, begun().save()[at] ^ 1))
        narrow = begun().save()
        cells = narrow[-124:-4]
        body = narrow[:21] + b"\4" + narrow[22:-124] + b"".join(cells[i : i + 4] for i in range(0, 120, 8))
        with self.assertRaisesRegex(NotLoaded, "number of bytes a cell is 4"):
            load(body + struct.pack("<I", zlib.crc32(body)))
        for layout in (0, 3):
            with self.assertRaisesRegex(NotLoaded, f"layout {layout}"):
                load(changed(begun().save(), 8, layout))
        self.assertRaises(NotLoaded, load, changed(begun().save(), 27, 1))
        self.assertRaises(NotLoaded, load, changed(begun().save(), 26, 2))

    def test_a_cell_for_each_pixel(self):
        saved = begun().save()
        for cells, body in ((16, saved[:-4] + bytes(8)), (14, saved[:-12])):
            body = body[:64] + bytes([cells]) + body[65:]
            with self.assertRaises(NotLoaded):
                load(body + struct.pack("<I", zlib.crc32(body)))

    def test_reserved_bytes_of_layout_1(self):
        for at in (21, 22, 23):
            with self.assertRaises(NotLoaded, msg=at):
                Chart.load(changed(stored("layout1.chart"), at, 1))

    def test_the_engine_looks_too(self):
        """More taken than queued; a queue of no bytes; a cell that no picture holds; a level that no block has."""
        saved, queue = begun().save(), 296 + 13
        for at, to in ((32, 9), (40, 1), (queue + 10 + 5, 1), (queue + 1, 0x7F)):
            with self.assertRaises(Refused, msg=at) as caught:
                load(changed(saved, at, to))
            self.assertEqual(caught.exception.number, 8)
        # the range of m upside down
        with self.assertRaises(Refused) as caught:
            Chart.load(changed(stored("layout2.chart"), 79, 0x7F), TAG)
        self.assertEqual(caught.exception.number, 3)


if __name__ == "__main__":
    unittest.main()

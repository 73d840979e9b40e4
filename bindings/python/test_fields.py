"""Records and answers in which every field differs from its neighbours, against numbers worked out by hand from document 01: a field that has
moved, on either side of the library's boundary, is noticed. The C test plays the same charts, and shows the working."""

import ctypes
import struct
import unittest

import smyrilox
from smyrilox import _library
from smyrilox import NO, UNDECIDED, WHOLE, YES, Block, Chart, Counts, Run, Setup, Step, M, N, T, THETA, X, Y

# Each record's size and the place of each of its fields, in bytes.
LAYOUT = {
    "Interval": (16, {"lower": 0, "upper": 8}),
    "Coordinate": (16, {"index": 0, "level": 8}),
    "Ranges": (64, {"m": 0, "n": 16, "theta": 32, "t": 48}),
    "Child": (96, {"x": 0, "y": 16, "m": 32, "n": 48, "theta": 64, "t": 80}),
    "Last": (80, {"x": 0, "y": 8, "m": 16, "n": 32, "theta": 48, "t": 64}),
    "Chosen": (12, {"width": 0, "height": 4, "set": 8, "reserved1": 9, "reserved2": 10, "reserved3": 11}),
    "State": (216, {"chosen": 0, "taken": 16, "queued": 24, "len": 32, "head": 40, "used": 48, "front": 56, "back": 136}),
    "Started": (224, {"refusal": 0, "state": 8}),
    "Moved": (224, {"refusal": 0, "state": 8}),
    "Listed": (400, {"refusal": 0, "count": 8, "at": 16}),
    "Stepped": (240, {"refusal": 0, "evaluations": 8, "tape": 16, "state": 24}),
    "Ran": (264, {"refusal": 0, "ending": 8, "stop": 16, "steps": 24, "evaluations": 32, "tape": 40, "state": 48}),
    "Explained": (
        408,
        {
            **{"refusal": 0, "reason": 8, "step": 16, "child": 24, "point": 32, "number": 40, "before": 48, "block": 56},
            **{"direction": 152, "ending": 160, "steps": 168, "evaluations": 176, "tape": 184, "state": 192},
        },
    ),
    "Tally": (48, {"trues": 0, "falses": 8, "uncertain": 16, "givenup": 24, "queued": 32, "share": 40}),
    "Counted": (56, {"refusal": 0, "counts": 8}),
    "Number": (16, {"refusal": 0, "value": 8}),
    "Point": (16, {"refusal": 0, "value": 8}),
    "Pieces": (64, {"refusal": 0, "count": 8, "at": 16}),
    "Padding": (16, {"left": 0, "right": 4, "bottom": 8, "top": 12}),
    "Edges": (64, {"left": 0, "right": 16, "bottom": 32, "top": 48}),
    "Plot": (88, {"width": 0, "height": 4, "padding": 8, "edges": 24}),
    "Boxed": (104, {"refusal": 0, "edges": 8, "x": 72, "y": 88}),
}


class Layout(unittest.TestCase):
    def test_every_record(self):
        self.assertEqual(sorted(record.__name__ for record in _library.RECORDS), sorted(LAYOUT))
        for name, (size, places) in LAYOUT.items():
            record = getattr(_library, name)
            self.assertEqual(ctypes.sizeof(record), size, name)
            self.assertEqual({field: getattr(record, field).offset for field, *_ in record._fields_}, places, name)

    def test_the_librarys_number(self):
        """It is asked when the module is loaded; another size, place or order of records makes another number."""
        self.assertEqual(_library.layout(), _library.library.smyrilox_layout())
        moved = type("Moved", (ctypes.Structure,), {"_fields_": [("state", _library.State), ("refusal", ctypes.c_uint64)]})
        others = [moved if record is _library.Moved else record for record in _library.RECORDS]
        self.assertNotEqual(_library.layout(others), _library.layout())


def remembered(x, y, m, n, t):
    return (x, y, *m, *n, *WHOLE, *t)


def record(chart):
    """The chosen, the counters with the number of cells, and the blocks taken and queued last."""
    s = chart._state
    lasts = [struct.unpack("<2Q8d", bytes(last)) for last in (s.front, s.back)]
    return (tuple(struct.unpack("<2I4B", bytes(s.chosen))), (s.taken, s.queued, s.len, s.head, s.used, len(chart._cells)), *lasts)


class Fields(unittest.TestCase):
    def test_the_record_and_the_children(self):
        m, n, t = (2.0, 9.0), (10.0, 15.0), (0.5, 0.75)
        setup = Setup(7, 5, X | Y | M | N | T, m=m, n=n, theta=(1.0, -1.0), t=t)
        self.assertEqual((setup.cells, setup.least_ring), (35, 843))
        chart = Chart(setup, 2000)
        self.assertEqual(chart.setup, setup._replace(theta=WHOLE))
        chosen = (7, 5, 61, 0, 0, 0)
        last = remembered(0, 0, (9.0, 9.0), (15.0, 15.0), (0.75, 0.75))
        self.assertEqual(record(chart), (chosen, (0, 27, 2000, 0, 843, 35), remembered(0, 0, WHOLE, WHOLE, WHOLE), last))

        tape = bytearray(112)
        tape[0], tape[13 * 4 + 1], tape[110], tape[111] = YES, UNDECIDED, UNDECIDED, UNDECIDED
        self.assertEqual(chart.run(tape, 28), Run("more", 0, 28, 86, 112))
        front, back = remembered(1, 0, m, n, t), remembered(3, 1, m, n, t)
        self.assertEqual(record(chart), (chosen, (28, 30, 2000, 896, 22, 35), front, back))
        self.assertEqual((chart.size, chart.steps, chart.queued, chart.ring_use), ((7, 5), 28, 2, (22, 2000)))

        parts = [(2.0, 6.0), (6.0, 6.0), (6.0, 9.0)]
        self.assertEqual(chart.children(), [Block((2, 1), (1, 1), part, n, WHOLE, t) for part in parts])
        self.assertEqual(chart.step(bytes([NO, YES, UNDECIDED])), Step(evaluations=2, verdicts=3))
        self.assertEqual(record(chart), (chosen, (29, 30, 2000, 907, 11, 35), remembered(2, 1, m, n, t), back))

    def test_each_range_reaches_its_parameter(self):
        chart = Chart(Setup(3, 2, M | N | THETA | T, m=(2.0, 2.0), n=(3.0, 3.0), theta=(4.0, 4.0), t=(5.0, 6.0)), 256)
        child = Block((0, 2), (0, 2), (2.0, 2.0), (3.0, 3.0), (4.0, 4.0), (5.0, 5.0))
        self.assertEqual(chart.children(), [child] * 3)

    def test_counts_more_and_limit(self):
        chart = Chart(Setup(5, 4, X | Y), 64)
        tape = bytes.fromhex("4040 80400000 4080 40000000 4040 60000000" + "40000000" * 94)
        self.assertEqual(chart.run(tape, 100), Run("more", 0, steps=100, evaluations=399, tape=394))
        self.assertEqual(chart.counts(), Counts(yes=6, no=11, uncertain=3, given_up=2, queued=1, share=850))
        self.assertEqual([row.hex() for row in chart.rows()], ["0000000002", "0000000002", "0202000001", "0202010001"])
        self.assertEqual(chart.run(b"\x60\0\0\0", 9), Run("limit", 0, steps=1, evaluations=9, tape=4))

    def test_all_but_one_is_not_the_whole(self):
        """The share is rounded down: a pixel that waits, or that is given up at the end, keeps it under 1000."""
        for last, ending, given_up, share in (("40", "limit", 1, 999), ("a0", "done", 0, 1000)):
            chart = Chart(Setup(64, 64, X | Y), 64)
            chart.run(bytes.fromhex("80808040" * 6), 6)
            self.assertEqual(chart.counts(), Counts(yes=4095, no=0, uncertain=1, given_up=0, queued=1, share=999))
            self.assertEqual(chart.run(bytes.fromhex("00000040" * 31 + "000000" + last), 99).ending, ending)
            self.assertEqual(chart.counts()[2:], (given_up, given_up, 0, share))

    def test_done_and_stop(self):
        done = Chart(Setup(2, 1, X | Y), 64).run(bytes.fromhex("4080 70000000"), 7)
        self.assertEqual(done, Run("done", 0, steps=2, evaluations=4, tape=6))
        stop = Chart(Setup(2, 1, X | Y), 64).run(bytes.fromhex("4040 600040A0 40410000"), 7)
        self.assertEqual(stop[:5], ("stop", 5, 2, 11, 6))

    def test_the_leaves_know_their_arguments(self):
        self.assertEqual((smyrilox.midpoint(1.0, 4.0), smyrilox.simple_fraction(0.3, 0.4)), (2.5, 0.375))
        self.assertEqual(smyrilox.first_cut(1.0, 4.0, True), [(1.0, 1.0), (1.0, 4.0), (4.0, 4.0)])
        self.assertEqual(smyrilox.later_cut(1.0, 4.0, True), [(2.0, 2.0), (3.0, 3.0)])
        self.assertEqual(smyrilox.later_cut(1.0, 4.0, False), [(1.0, 2.5), (2.5, 2.5), (2.5, 4.0)])


if __name__ == "__main__":
    unittest.main()

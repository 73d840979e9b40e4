"""Charts with n_theta that an earlier release stored, taken to their ends. bindings/stored has them, and says what each line holds."""

import os
import unittest
from ctypes import c_uint8, c_uint64

from smyrilox import THETA, Chart, Counts
from smyrilox._library import State

FILE = os.path.join(os.path.dirname(os.path.abspath(__file__)), "..", "stored", "charts.txt")


def stored():
    with open(FILE) as file:
        parts = file.read().split("\nchart ")[1:]
    return [dict(line.split(" ", 1) for line in ("chart " + part).strip().split("\n")) for part in parts]


def numbers(text):
    return [int(n) for n in text.split()]


def from_memory(lines):
    """The chart of a record as C has it in memory, a ring and cells."""
    state = State.from_buffer_copy(bytes.fromhex(lines["raw"]))
    ring, cells = bytes.fromhex(lines["ring"]), numbers(lines["cells"])
    chart = Chart.__new__(Chart)
    chart._own(state, (c_uint8 * len(ring))(*ring), (c_uint64 * len(cells))(*cells), None, b"", False)
    return chart


class Stored(unittest.TestCase):
    def setUp(self):
        self.charts = stored()
        self.assertGreaterEqual(len(self.charts), 24)

    def ended(self, chart, lines):
        self.assertTrue(chart.finished)
        self.assertEqual(chart.picture(), bytes.fromhex(lines["picture"]))
        self.assertEqual(chart.counts(), Counts(*numbers(lines["counts"])))
        self.assertEqual(chart.save(), Chart.load(bytes.fromhex(lines["end-saved"])).save())

    def test_run_from_saved_bytes_and_from_memory(self):
        for lines in self.charts:
            ending, *answer = lines["run"].split()
            for chart in (Chart.load(bytes.fromhex(lines["saved"])), from_memory(lines)):
                with self.subTest(lines["chart"]):
                    ran = chart.run(bytes.fromhex(lines["tape"]), int(lines["budget"]))
                    self.assertEqual((ran.ending, ran.stop, ran.steps, ran.evaluations, ran.tape), (ending, *map(int, answer)))
                    self.ended(chart, lines)

    def test_single_steps(self):
        for lines in self.charts:
            with self.subTest(lines["chart"]):
                chart, tape, evaluations = Chart.load(bytes.fromhex(lines["saved"])), bytes.fromhex(lines["tape"]), 0
                while not chart.finished:
                    children = chart.children()
                    step = chart.step(tape[: len(children)])
                    tape, evaluations = tape[step.verdicts :], evaluations + step.evaluations
                self.assertEqual((tape, evaluations), (b"", int(lines["run"].split()[3])))
                self.ended(chart, lines)

    def test_what_is_stored(self):
        for lines in self.charts:
            with self.subTest(lines["chart"]):
                chart, record = Chart.load(bytes.fromhex(lines["saved"])), numbers(lines["record"])
                self.assertTrue(record[2] & THETA)
                self.assertEqual((*chart.size, chart.steps, chart.queued), (*record[:2], record[3], record[4] - record[3]))
                self.assertEqual(chart.ring_use, (record[7], record[5]))
                self.assertEqual(Chart.load(chart.save()).save(), chart.save())
                self.assertEqual(from_memory(lines).save(), chart.save())


if __name__ == "__main__":
    unittest.main()

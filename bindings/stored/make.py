#!/usr/bin/env python3
"""make.py LIBRARY: wrote charts.txt, once, through the library of the release that still begins charts with n_theta (README.md beside this file).

Each chart is begun by the library's setup, stepped on, stored where its case says, and taken to its end with verdicts drawn from a fixed seed; the tape is the
verdicts from the stored place on. Then the stored chart is run along the tape in one go, and must come to the same end. A library that refuses n_theta at
setup cannot make the file again: the file is what is kept. The library is x86-64 code, and so must be the python3 that loads it. Its records and layout 1
are declared here on purpose, and not taken from the bindings beside: they are that release's, whatever the bindings' become.

    python3 make.py libsmyrilox.so
"""
import ctypes
import os
import random
import struct
import sys
from ctypes import Structure, c_double, c_int32, c_size_t, c_uint8, c_uint32, c_uint64

INF = float("inf")
LINE = (-INF, INF)
X, Y, M, N, THETA, T = 32, 16, 8, 4, 2, 1
ENDINGS = ("not-run", "done", "limit", "more", "stop")

# ---- the library, as include/smyrilox.h has it


class Interval(Structure):
    _fields_ = [("lower", c_double), ("upper", c_double)]


FOUR = [(name, Interval) for name in ("m", "n", "theta", "t")]


class Ranges(Structure):
    _fields_ = FOUR


class Last(Structure):
    _fields_ = [("x", c_uint64), ("y", c_uint64)] + FOUR


class Chosen(Structure):
    _fields_ = [("width", c_uint32), ("height", c_uint32)] + [(name, c_uint8) for name in ("set", "reserved1", "reserved2", "reserved3")]


class State(Structure):
    _fields_ = [("chosen", Chosen), ("taken", c_uint64), ("queued", c_uint64)]
    _fields_ += [(n, c_size_t) for n in ("len", "head", "used")] + [("front", Last), ("back", Last)]


class Coordinate(Structure):
    _fields_ = [("index", c_uint64), ("level", c_int32)]


class Child(Structure):
    _fields_ = [("x", Coordinate), ("y", Coordinate)] + FOUR


class Number(Structure):
    _fields_ = [("refusal", c_uint64), ("value", c_uint64)]


class Started(Structure):
    _fields_ = [("refusal", c_uint64), ("state", State)]


class Listed(Structure):
    _fields_ = [("refusal", c_uint64), ("count", c_size_t), ("at", Child * 4)]


class Stepped(Structure):
    _fields_ = [("refusal", c_uint64), ("evaluations", c_uint64), ("tape", c_size_t), ("state", State)]


class Ran(Structure):
    _fields_ = [(n, c_uint64) for n in ("refusal", "ending", "stop", "steps", "evaluations")] + [("tape", c_size_t), ("state", State)]


class Counted(Structure):
    _fields_ = [("refusal", c_uint64)] + [(n, c_uint64) for n in ("trues", "falses", "uncertain", "givenup", "queued", "share")]


def loaded(path):
    library = ctypes.CDLL(os.path.abspath(path))
    data, cells = [ctypes.POINTER(c_uint8), c_size_t], [ctypes.POINTER(c_uint64), c_size_t]
    for name, takes, answers in (
        ("least_ring", [Chosen, Ranges], Number),
        ("setup", [Chosen, Ranges] + data + cells, Started),
        ("children", [State] + data, Listed),
        ("step", [State] + data + cells + data, Stepped),
        ("run", [State] + data + cells + data + [c_uint32], Ran),
        ("picture", [State] + cells + data, c_uint64),
        ("counts", [State] + cells, Counted),
    ):
        function = getattr(library, "smyrilox_" + name)
        function.argtypes, function.restype = takes, answers
    return library


class Chart:
    """Record, ring and cells."""

    def __init__(self, library, state, ring, cells):
        self.library, self.state = library, state
        self.ring, self.cells = (c_uint8 * len(ring))(*ring), (c_uint64 * len(cells))(*cells)

    def copy(self):
        return Chart(self.library, State.from_buffer_copy(self.state), self.ring, self.cells)

    def lent(self):
        return self.ring, len(self.ring), self.cells, len(self.cells)

    def children(self):
        listed = self.library.smyrilox_children(self.state, self.ring, len(self.ring))
        assert listed.refusal == 0, listed.refusal
        return listed.at[: listed.count]

    def step(self, verdicts):
        stepped = self.library.smyrilox_step(self.state, *self.lent(), (c_uint8 * len(verdicts))(*verdicts), len(verdicts))
        self.state = stepped.state
        return stepped.refusal

    def run(self, tape, budget):
        ran = self.library.smyrilox_run(self.state, *self.lent(), (c_uint8 * len(tape))(*tape), len(tape), budget)
        assert ran.refusal == 0, ran.refusal
        self.state = ran.state
        return ENDINGS[ran.ending], ran.stop, ran.steps, ran.evaluations, ran.tape

    def picture(self):
        out = (c_uint8 * (self.state.chosen.width * self.state.chosen.height))(*[9] * (self.state.chosen.width * self.state.chosen.height))
        assert self.library.smyrilox_picture(self.state, self.cells, len(self.cells), out, len(out)) == 0
        return bytes(out)

    def counts(self):
        c = self.library.smyrilox_counts(self.state, self.cells, len(self.cells))
        assert c.refusal == 0
        return c.trues, c.falses, c.uncertain, c.givenup, c.queued, c.share

    def wrapped(self):
        return self.state.head + self.state.used > self.state.len

    def given_up(self):
        return 2**32 + 1 in self.cells[: self.state.chosen.width * self.state.chosen.height]


# ---- what is written


def bits(bound):
    return struct.unpack("<Q", struct.pack("<d", bound))[0]


def last_words(last):
    intervals = [getattr(last, name) for name, _ in FOUR]
    return [last.x, last.y] + [bits(bound) for q in intervals for bound in (q.lower, q.upper)]


def raw(s):
    """The record as C has it in memory: the four bytes that no field has are 0."""
    c = s.chosen
    head = struct.pack("<2I4B4x5Q", c.width, c.height, c.set, c.reserved1, c.reserved2, c.reserved3, s.taken, s.queued, s.len, s.head, s.used)
    return head + struct.pack("<20Q", *last_words(s.front), *last_words(s.back))


def crc(data):
    """CRC-64/XZ, bit by bit."""
    r = 2**64 - 1
    for b in data:
        r ^= b
        for _ in range(8):
            r = r >> 1 ^ (r & 1) * 0xC96C5795D7870F42
    return r ^ 2**64 - 1


def saved(chart):
    """bindings/SAVED.md, layout 1."""
    s, cells = chart.state, list(chart.cells)
    body = struct.pack("<8s4I6Q", b"SMYRILOX", 1, s.chosen.width, s.chosen.height, s.chosen.set, s.taken, s.queued, s.len, s.head, s.used, len(cells))
    body += struct.pack("<20Q", *last_words(s.front), *last_words(s.back)) + bytes(chart.ring) + struct.pack(f"<{len(cells)}Q", *cells)
    return body + struct.pack("<Q", crc(body))


def last_text(last):
    x, y, *bounds = last_words(last)
    return " ".join([str(x), str(y)] + [f"{b:016x}" for b in bounds])


def chart_lines(chart, prefix=""):
    s = chart.state
    assert (s.chosen.reserved1, s.chosen.reserved2, s.chosen.reserved3) == (0, 0, 0)
    numbers = (s.chosen.width, s.chosen.height, s.chosen.set, s.taken, s.queued, s.len, s.head, s.used)
    yield prefix + "record " + " ".join(map(str, numbers))
    yield prefix + "front " + last_text(s.front)
    yield prefix + "back " + last_text(s.back)
    yield prefix + "ring " + bytes(chart.ring).hex()
    yield prefix + "cells " + " ".join(map(str, chart.cells))
    yield prefix + "raw " + raw(s).hex()
    yield prefix + "saved " + saved(chart).hex()


# ---- the cases: sides, set, ranges of m, n, n_theta, t, bytes of the ring beyond the least, spare cells, where it is stored, for how many steps from the
# first on the evaluator is in doubt, and its mood: the odds of no, undecided and yes

BEGUN = lambda chart: True
AFTER = lambda n: lambda chart: chart.state.taken >= n
WRAPPED = lambda n: lambda chart: chart.state.taken >= n and chart.wrapped()
GIVEN_UP = lambda n: lambda chart: chart.state.taken >= n and chart.given_up()
NO, DOUBT, YES = (6, 3, 1), (1, 6, 1), (1, 3, 6)
DEEP = None  # one child in doubt, the others said no

CASES = (
    ("theta-alone-done", 2, 1, THETA, (LINE, LINE, (0.0, 6.0), LINE), 40, 0, BEGUN, 4, DOUBT),
    ("theta-alone-limit", 1, 1, THETA, (LINE, LINE, (5.0, 5.0), LINE), 0, 0, BEGUN, 9, DEEP),
    ("theta-alone-whole-line", 3, 2, THETA, (LINE, LINE, LINE, LINE), 60, 2, AFTER(3), 30, DOUBT),
    ("theta-from-two", 4, 3, X | Y | THETA, (LINE, LINE, (2.0, INF), LINE), 90, 0, BEGUN, 12, DOUBT),
    ("theta-up-to-minus-one", 3, 3, X | Y | THETA, (LINE, LINE, (-INF, -1.0), LINE), 90, 0, AFTER(5), 14, DOUBT),
    ("theta-zero", 5, 3, X | Y | THETA, (LINE, LINE, (-0.0, 0.0), LINE), 60, 1, AFTER(4), 20, DOUBT),
    ("theta-one-pixel-limit", 1, 1, X | Y | THETA, (LINE, LINE, (1.0, 1.0), LINE), 30, 0, AFTER(20), 60, DEEP),
    ("theta-mixed-limit", 3, 2, X | Y | THETA, (LINE, LINE, (7.0, 7.0), LINE), 18, 0, WRAPPED(25), 60, DEEP),
    ("theta-given-up-limit", 2, 1, X | Y | THETA, (LINE, LINE, (0.0, 3.0), LINE), 60, 0, GIVEN_UP(30), 200, DEEP),
    ("theta-wrapped", 7, 5, X | Y | THETA, (LINE, LINE, (0.0, 9.0), LINE), 21, 0, WRAPPED(3), 16, DOUBT),
    ("theta-wrapped-tight", 2, 2, X | Y | THETA, (LINE, LINE, (-4.0, 4.0), LINE), 4, 3, WRAPPED(2), 30, (2, 6, 1)),
    ("x-theta", 6, 1, X | THETA, (LINE, LINE, (-7.0, 2.0), LINE), 70, 0, AFTER(2), 12, DOUBT),
    ("y-theta-wrapped", 1, 6, Y | THETA, (LINE, LINE, (0.0, 2.0), LINE), 17, 0, WRAPPED(4), 15, DOUBT),
    ("m-theta", 3, 1, M | THETA, ((0.0, 4.0), LINE, (0.0, INF), LINE), 80, 0, AFTER(3), 14, (2, 6, 1)),
    ("n-theta-limit", 2, 2, N | THETA, (LINE, (1.0, 2.0), (3.0, 5.0), LINE), 60, 0, AFTER(2), 40, (1, 5, 0)),
    ("theta-t", 2, 2, THETA | T, (LINE, LINE, (0.0, 1.0), (0.25, 0.75)), 75, 0, BEGUN, 10, DOUBT),
    ("theta-t-mid-way", 3, 3, X | Y | THETA | T, (LINE, LINE, (0.0, 5.0), (-1.5, INF)), 120, 0, AFTER(6), 18, DOUBT),
    ("theta-t-repeats", 2, 3, X | Y | THETA | T, (LINE, LINE, (0.0, 5.0), (0.5, 0.5)), 33, 0, WRAPPED(5), 20, (2, 6, 1)),
    ("m-theta-mid-way", 4, 4, X | Y | M | THETA, ((-INF, 0.0), LINE, (0.0, 12.0), LINE), 100, 0, AFTER(9), 20, DOUBT),
    ("n-theta-wrapped", 5, 4, X | Y | N | THETA, (LINE, (-3.0, 3.0), (-3.0, 3.0), LINE), 25, 0, WRAPPED(7), 22, DOUBT),
    ("m-n-theta", 3, 2, X | Y | M | N | THETA, ((0.0, 1.0), (0.0, 2.0), (0.0, 3.0), LINE), 110, 4, BEGUN, 8, NO),
    ("all-of-them-begun", 2, 2, 63, ((0.0, 1.0), LINE, (5.0, 6.0), (0.0, 1.0)), 140, 0, BEGUN, 6, NO),
    ("all-of-them-mid-way", 3, 3, 63, ((5.0, 5.0), (-INF, 4.0), (0.0, INF), LINE), 150, 0, AFTER(4), 14, DOUBT),
    ("all-of-them-wrapped", 2, 1, 63, ((0.0, 2.0), LINE, (-1.0, 1.0), (0.25, INF)), 60, 1, WRAPPED(6), 16, (3, 5, 2)),
    ("parameters-only-limit", 2, 2, M | N | THETA | T, ((1.0, 3.0), (2.0, 2.0), (3.0, 5.0), (0.5, 0.5)), 120, 0, AFTER(3), 60, (4, 4, 1)),
    ("theta-large", 4, 1, X | Y | THETA, (LINE, LINE, (2.0**53, 1.7976931348623157e308), LINE), 64, 0, AFTER(2), 13, (1, 5, 3)),
    ("theta-true", 8, 8, X | Y | THETA, (LINE, LINE, (0.0, 1.0), LINE), 300, 0, AFTER(12), 30, YES),
)


def verdict(rng, level, mood):
    result = rng.choices((0, 1, 2), mood)[0]
    if level > 0 and mood is not YES:  # a larger block is seldom true as a whole
        return min(result, rng.choice((0, 1, 1, 1, 1, 1, 1, 1, 1, 2))) << 6
    if level >= 0:
        return result << 6
    if result == 2:
        return rng.choice((0x80, 0xA0, 0xA0))
    if result == 1:
        return rng.choice((0x40, 0x40, 0x40, 0x60, 0x60 | rng.getrandbits(5)))
    return rng.choice((0x00, 0x00, 0x20))


def doubtful(rng, levels, mood):
    """A verdict for each child, from an evaluator in some mood."""
    if mood is DEEP:
        place = rng.randrange(len(levels))
        return bytes(0x40 if i == place else 0x00 for i in range(len(levels)))
    return bytes(verdict(rng, k, mood) for k in levels)


def decided(rng, level):
    if level > 0:
        return 0x00
    return rng.choice((0x00, 0x00, 0x00, 0x80 if level == 0 else 0xA0))


def begin(library, width, height, s, ranges, extra, spare):
    chosen, given = Chosen(width, height, s), Ranges(*(Interval(*r) for r in ranges))
    need = library.smyrilox_least_ring(chosen, given)
    assert need.refusal == 0
    ring, cells = (c_uint8 * (need.value + extra))(), (c_uint64 * (width * height + spare))()
    started = library.smyrilox_setup(chosen, given, ring, len(ring), cells, len(cells))
    assert started.refusal == 0, started.refusal
    return Chart(library, started.state, ring, cells)


def play(chart, rng, busy, mood, when):
    """The verdicts of every step to the end, the stored chart, and how many of the verdicts came before it."""
    verdicts, stored, before = b"", None, 0
    while chart.state.taken < chart.state.queued:
        if stored is None and when(chart):
            stored, before = chart.copy(), len(verdicts)
        levels = [c.x.level for c in chart.children()]
        v = doubtful(rng, levels, mood) if chart.state.taken < busy else bytes(decided(rng, k) for k in levels)
        if chart.step(v):  # no room: the evaluator decides more
            v = bytes(decided(rng, k) for k in levels)
            assert chart.step(v) == 0
        verdicts += v
    return verdicts, stored, before


def played(library, name, case, when, busy, mood):
    """The first seed with which the chart comes where it is stored, goes on for some steps, and ends as its name says."""
    for seed in range(200):
        chart = begin(library, *case)
        verdicts, stored, before = play(chart, random.Random(f"{name} {seed}"), busy, mood, when)
        short = stored and len(verdicts) - before <= 500 and (chart.state.taken - stored.state.taken >= 3 or "alone" in name)
        if short and ("limit" in name) == chart.given_up():
            return chart, verdicts, stored, before
    raise AssertionError(name)


def lines(library, name, width, height, s, ranges, extra, spare, when, busy, mood):
    chart, verdicts, stored, before = played(library, name, (width, height, s, ranges, extra, spare), when, busy, mood)
    tape, budget, end = verdicts[before:], 2**32 - 1, stored.copy()
    ran = end.run(tape, budget)
    assert raw(end.state) == raw(chart.state) and bytes(end.ring) == bytes(chart.ring) and list(end.cells) == list(chart.cells), name
    assert ran[0] == ("limit" if "limit" in name else "done") and ran[4] == len(tape) and s & THETA, (name, ran)
    yield f"chart {name}"
    yield f"begun {width} {height} {s} " + " ".join(f"{bits(b):016x}" for r in ranges for b in r)
    yield "before " + (verdicts[:before].hex() or "-")
    yield from chart_lines(stored)
    yield f"tape {tape.hex()}"
    yield f"budget {budget}"
    yield "run " + " ".join(map(str, ran))
    yield from chart_lines(end, "end-")
    yield "picture " + end.picture().hex()
    yield "counts " + " ".join(map(str, end.counts()))
    kinds = [w for w, true in (("begun", before == 0), ("wrapped", stored.wrapped()), ("given up", stored.given_up())) if true]
    print(name, *kinds, "steps before", stored.state.taken, "ring", stored.state.len, "cells", len(stored.cells), "ran", *ran)


def main():
    library = loaded(sys.argv[1])
    here = os.path.dirname(os.path.abspath(__file__))
    text = [line for case in CASES for line in ("", *lines(library, *case))]
    with open(os.path.join(here, "charts.txt"), "w") as out:
        out.write("# Charts with n_theta, and their ends: README.md beside this file.\n" + "\n".join(text) + "\n")


main()

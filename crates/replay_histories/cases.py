"""cases.py: document 01's worked cases, and every refusal of setup and step, alone and beside later ones. What must come out is the model's answer, and is
said here too where document 01 says it."""
import itertools

import model
from model import GIVEN, INF, LINE, MAX, NAN, START
from worlds import LINES, RANGES, TOP, begun, finished, look, one_unused, refused, with_cell, with_record, world

# ---- document 01's own


def worked(p):
    """worked cases of document 01. 5 by 3 and 1 by 1, by single steps and by runs."""
    p.setup(5, 3, 48, LINES, bytes(40), [9] * 15)
    assert model.content(p.world.record, p.world.ring).hex() == "0103010300"
    p.step(b"\x40\x40")
    assert model.content(p.world.record, p.world.ring).hex() == "01020102000302010200"
    assert p.world.cells == [1, 1, 1, 1, 2] * 3
    for stepwise in (True, False):
        p.setup(1, 1, 48, LINES, bytes(5), [9])
        tape = b"\x40\0\0\0" * 31 + b"\x40\xa0\0\0"
        if stepwise:
            evaluations = sum(p.step(tape[i : i + 4]).evaluations for i in range(0, 128, 4))
            assert evaluations == 126 and p.world.record.taken == 32
            assert p.run(b"", 0).ending == "limit"
        else:
            got = p.run(tape, 1000)
            assert (got.steps, got.evaluations, got.verdicts, got.ending) == (32, 126, 128, "limit")
        assert p.world.cells == [GIVEN] and p.counts()[1] == (0, 0, 1, 1, 0, 0) and p.picture(bytes(1))[1] == b"\1"
    p.setup(2, 1, 48, LINES, bytes(1024), [9] * 2)
    got = p.run(b"\x80\0", 5)
    assert (got.steps, got.evaluations, got.ending) == (1, 2, "done")
    assert p.counts()[1] == (1, 1, 0, 0, 0, 1000) and p.picture(bytes(2))[1] == b"\2\0"


# ---- refusals alone and beside later ones


def beside(faults):
    """Each fault alone, each with one later fault, and each with one of every later place; a fault is (number, change, place in the order)."""
    for i, fault in enumerate(faults):
        later = [f for f in faults[i + 1 :] if f[0] != fault[0] or f[2] != fault[2]]
        yield fault[0], [fault]
        for other in later:
            yield fault[0], [fault, other]
        one_of_each = {f[2]: f for f in later}
        if one_of_each:
            yield fault[0], [fault, *one_of_each.values()]


def setup_faults():
    bad = [(NAN, 1.0), (1.0, NAN), (2.0, 1.0), (INF, INF), (-INF, -INF)]
    for name, value in itertools.product(("width", "height"), (0, 32769, TOP - 1)):
        yield 1, {name: value}, 1
    yield 2, {"cells": 5}, 2
    yield 2, {"cells": 0}, 2
    for s in (64, 255):
        yield 3, {"set": s}, 3
    for i in range(4):
        for q in bad + ([(0.5, 1.0), (0.0, 2.5), (-INF, 0.5)] if model.INTEGER[i] else []):
            yield 3, {i: q}, 3
    yield 6, {"ring": -1}, 4
    yield 6, {"ring": 0}, 4


def with_faults(faults, **lent):
    """The sides, set and ranges of a setup, and what else it is given, with some faults in them."""
    given = {"width": 3, "height": 2, "set": 63, **dict(enumerate(RANGES)), **lent}
    for fault in faults:
        given.update(fault[1])
    return (given["width"], given["height"], given["set"], [given[i] for i in range(4)]), given


def setups(p):
    """refusals of setup. 1, 2, 3, 6 in this order; nothing written."""
    need = begun(3, 2, 63).record.used
    for number, faults in beside(list(setup_faults())):
        chosen, given = with_faults(faults, cells=6, ring=need)
        ring = bytes([0xC3]) * (need - 1 if given["ring"] == -1 else given["ring"])
        got = p.setup(*chosen, ring, [11] * given["cells"])
        assert got == number, (faults, got)
    for s, ranges in one_unused():
        assert p.setup(3, 2, s, ranges, bytes(3000), [0] * 8) == 0
    for side in (1, 2, 3, 8, 9, 16):  # the least level, extra cells kept
        assert p.setup(side, 1, 48, LINES, bytes([1] * 7), [5] * 18) == 0
        assert p.setup(1, side, 0, LINES, bytes([1] * 5), [5] * 18) == 0
    assert p.setup(32768, 1, 48, LINES, bytes(5), [0] * 10) == 2
    assert p.setup(32768, 32768, 48, LINES, bytes(5), [0] * 10) == 2


def product(p):
    """first blocks. Every set, first cuts of every kind, 1 to 81 blocks, in rings that they fill."""
    whole = ((0.0, 1.0), (5.0, 5.0), (-0.0, 0.0), LINE, (-INF, 0.0), (0.0, INF), (-3.0, 4.0), (2.0**53, 2.0**53 + 2))
    real = ((5.0, 5.0), (0.0, -0.0), LINE, (5e-324, 1e-300), (-INF, -0.0), (0.1, MAX))
    for s in range(64):
        ranges = (whole[s % 8], whole[s // 3 % 8], whole[s // 5 % 8], real[s % 6])
        full = begun(2, 1, s, ranges)
        assert p.setup(2, 1, s, ranges, b"\xee" * full.record.used, [4] * 3) == 0
        p.children()
        assert p.setup(2, 1, s, ranges, b"\xee" * (full.record.used - 1), [4] * 3) == 6
    p.setup(1, 1, 15, ((0.0, 9.0),) * 4, bytes(3000), [0])
    assert p.world.record.queued == 81


NUMBERS = dict(taken=TOP - 1, queued=TOP)


def step_faults():
    """A fault is a number, a change of the record, ring, cells or verdicts, and its place in the order."""
    yield 8, lambda w, v: (with_record(w, set=64), v), 1
    yield 8, lambda w, v: (with_record(w, used=w.record.len + 1), v), 1
    yield 2, lambda w, v: (w._replace(cells=w.cells[:3]), v), 2
    yield 2, lambda w, v: (w._replace(cells=[]), v), 2
    yield 13, lambda w, v: (with_record(w, taken=w.record.queued, used=0), v), 3
    yield 8, lambda w, v: (w._replace(ring=w.ring[:4] + b"\1" + w.ring[5:]), v), 4
    yield 8, lambda w, v: (with_cell(w, 2, GIVEN + 1) if len(w.cells) > 3 else w, v), 4
    yield 4, lambda w, v: (w, v[:3]), 5
    yield 4, lambda w, v: (w, v + b"\0"), 5
    yield 4, lambda w, v: (w, b""), 5
    yield 5, lambda w, v: (w, v[:1] + b"\xc0" + v[2:]), 6
    yield 5, lambda w, v: (w, v[:2] + b"\x41" + v[3:]), 6
    yield 7, lambda w, v: (with_record(w, **NUMBERS), v), 7
    yield 6, lambda w, v: (with_record(w._replace(ring=w.ring[:19]), len=19), v), 8


def steps(p):
    """refusals of step. 8, 2, 13, 8, 4, 5, 7, 6 in this order; record and memory as they were, signs of zeros too."""
    signs = (0, 0, ((0.0, -0.0), (0.0, 3.0), (-1.0, -0.0), (0.0, 0.0)))
    for front in (START, signs):
        for number, faults in beside(list(step_faults())):
            w, v = world(2, 2, 48, [(0, 0, 1, LINES, 0)], front=front, cells=[0] * 6), b"\x40" * 4
            w = with_record(w, back=front)
            for fault in reversed(faults):
                w, v = fault[1](w, v)
            refused(p, w, v, number)
            assert p.run(v, 1).refusal == (number if faults[0][2] < 3 else 0)
            look(p, w)
    for taken, queued, v, number in ((TOP - 2, TOP - 1, b"\x40\x40\0\0", 7), (TOP - 1, TOP, b"\x40\0\0\0", 7), (TOP - 2, TOP - 1, b"\x40\0\0\0", 0)):
        w = world(2, 2, 48, [(0, 0, 1, LINES, 0)], taken=taken, cells=[taken] * 4)
        assert w.record.queued == queued
        p.world = w
        assert p.step(v).refusal == number
        if number:
            assert p.run(v, 9).ending == 7
        else:
            assert p.world.record.queued == TOP and TOP - 1 in p.world.cells
            look(p, p.world)
    w = world(2, 2, 48, [(0, 0, 1, LINES, 0)], taken=TOP - 1, cells=[TOP - 1] * 4)
    assert finished(p, w, b"\0\x80\0\x80").world.record.taken == TOP
    look(p, p.world)
    assert p.run(b"", 3).ending == "done"


PARTS = (worked, setups, product, steps)

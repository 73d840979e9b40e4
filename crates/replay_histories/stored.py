"""stored.py: charts with n_theta as they wait on disk (bindings/stored), held against the model from their setup on, and played from where they were stored
to their ends."""
import struct

import model
from lists import of_digits
from worlds import look, same


def numbers(text):
    return [int(n) for n in text.split()]


def last(text):
    x, y, *bounds = text.split()
    values = [of_digits(b) for b in bounds]
    return int(x), int(y), tuple(zip(values[::2], values[1::2]))


def world(lines, prefix):
    """The record, ring and cells of some lines."""
    record = model.Record(*numbers(lines[prefix + "record"]), last(lines[prefix + "front"]), last(lines[prefix + "back"]))
    return model.World(record, bytes.fromhex(lines[prefix + "ring"]), numbers(lines[prefix + "cells"]))


def saved(w):
    """The first bytes of layout 1, without its check."""
    r, words = w.record, [v for l in (w.record.front, w.record.back) for v in (*l[:2], *(b for q in l[2] for b in q))]
    head = struct.pack("<8s4I6Q", b"SMYRILOX", 1, r.width, r.height, r.set, r.taken, r.queued, r.len, r.head, r.used, len(w.cells))
    return head + struct.pack("<" + "2Q8d" * 2, *words) + w.ring + struct.pack(f"<{len(w.cells)}Q", *w.cells)


def from_setup(lines, start):
    """What the setup and the verdicts before the storing leave, by the model."""
    width, height, s, *_ = lines["begun"].split()
    ranges = last("0 0 " + " ".join(lines["begun"].split()[3:]))[2]
    w = model.begin(int(width), int(height), int(s), ranges, bytes(len(start.ring)), [0] * len(start.cells))
    before = lines["before"].replace("-", "")
    return model.run(w, bytes.fromhex(before), start.record.taken).world


def chart(p, lines):
    start, end, tape = world(lines, ""), world(lines, "end-"), bytes.fromhex(lines["tape"])
    assert start.record.set & 2 and same(from_setup(lines, start), start), lines["chart"]
    assert saved(start) == bytes.fromhex(lines["saved"])[:-8] and saved(end) == bytes.fromhex(lines["end-saved"])[:-8]
    look(p, start)
    at = 0
    while p.world.record.taken < p.world.record.queued:  # a step at a time
        p.children()
        count = len(model.children(p.world)[1])
        assert p.step(tape[at : at + count]).refusal == 0
        at += count
    assert at == len(tape) and same(p.world, end), lines["chart"]
    p.world = start
    for budget in (end.record.taken // 3, int(lines["budget"])):  # a run that stops on the way, and one that goes on
        got = p.run(tape[len(tape) - at :], budget)
        at -= got.verdicts
    assert at == 0 and same(p.world, end)
    p.world = start
    got = p.run(tape, int(lines["budget"]))
    assert [got.ending, "0", *map(str, (got.steps, got.evaluations, got.verdicts))] == lines["run"].split() and same(p.world, end), lines["chart"]
    seen = p.picture(b"\7" * (end.record.width * end.record.height))
    assert seen == (0, bytes.fromhex(lines["picture"])) and p.counts() == (0, tuple(numbers(lines["counts"])))


def charts(p, path):
    text = open(path).read().split("\nchart ")[1:]
    for part in text:
        chart(p, dict(line.split(" ", 1) for line in ("chart " + part).strip().split("\n")))
    return len(text)

"""moves.py: the queue moved to another ring. Lengths, wraps, damage, what stays as it was; and charts that are moved on the way to their ends."""
import random

import model
from damage import damaged_codes, damaged_fields
from model import GIVEN, INF, LINE
from rings import REAL, WHOLE, drawn, verdict, with_head
from tables import OTHER
from worlds import LINES, RANGES, TOP, begun, look, refused, same, with_record, world

MOST = 1024  # bytes that the table has for the other ring


def other(p, n):
    """Another ring of n bytes, as they lie in the table."""
    return bytes(p.bytes[OTHER : OTHER + n])


def marked(n):
    """Another ring of n bytes, each unlike its neighbours and none 0."""
    return bytes(i * 37 % 251 + 1 for i in range(n))


def moved(p, w, ring, number):
    """A move from a world, with the answer that it must have."""
    p.world = w
    assert p.move(ring) == number, (w.record, len(ring), number)
    if number:
        assert p.world is w
    else:
        assert model.content(p.world.record, p.world.ring) == model.content(w.record, w.ring)
        assert p.world.ring[w.record.used :] == ring[w.record.used :] and p.world.cells == w.cells


def queues():
    """Queues of several lengths, in rings that they fill and in longer ones."""
    params = (RANGES[0], LINE, LINE, RANGES[3])
    pair = [(3, 1, -2, params, 1), (1 << 20, 5, -22, params[:3] + ((0.5, 0.5),), 2)]
    for s, blocks in ((0, [(0, 0, 3, LINES, 0)]), (48, [(0, 0, 1, LINES, 0), (1, 0, 1, LINES, 0), (0, 1, 1, LINES, 0)]), (57, pair), (63, pair)):
        size = world(5, 3, s, blocks).record.used
        for room in (0, 1, 23):
            yield world(5, 3, s, blocks, ring=b"\x5a" * (size + room), taken=4, front=(2, 7, LINES))


def lengths(p):
    """moves. To longer, shorter and equal rings, to exactly the queue's bytes, and by 6 to one byte less or none; from full rings and wrapped ones."""
    for flat in queues():
        used, n = flat.record.used, flat.record.len
        for head in sorted({0, 1, n // 2, n - used // 2, n - 1}):
            w = with_head(flat, head % n)
            for room in sorted({used, used + 1, n - 1, n, n + 1, n + 200}):
                moved(p, w, marked(room), 0 if used <= room else 6)
            for room in (0, 1, used - 1):
                moved(p, w, marked(room), 6)
        look(p, model.move(with_head(flat, n - 1), marked(n + 9)).world)
    w = list(queues())[-1]
    for head in range(w.record.len):  # the ring's end inside every field of a code
        moved(p, with_head(w, head), other(p, w.record.used), 0)
    long = begun(2, 2, 63, ((0.0, 9.0),) * 4, room=3072)  # 81 blocks
    assert long.record.used > MOST
    moved(p, long, other(p, MOST), 6)
    tall = with_record(with_head(world(2, 2, 63, [(0, 0, 1, RANGES, 0)], ring=b"\xc3" * 3072), 3050), back=long.record.back)
    moved(p, tall, other(p, MOST), 0)


def empty(p):
    """moves of an empty queue. One byte is enough, none is refused by 6; then a step is refused by 13 and a run ends."""
    for w in queues():
        for head in (0, w.record.len - 1):
            gone = with_record(w, taken=w.record.queued, used=0, head=head)
            moved(p, gone, b"", 6)
            for n in (1, w.record.len, MOST):
                moved(p, gone, other(p, n), 0)
                refused(p, p.world, b"", 13)
                assert p.run(b"\x40", 3).ending == "done"
    w = with_record(begun(1, 1, 48), taken=1, used=0)._replace(cells=[GIVEN])
    moved(p, w, b"\x99", 0)
    assert p.run(b"", 0).ending == "limit"


def damaged(p):
    """moves of damaged records. Every clause in every field, and a ring of another length: 8, before 6 for a ring that is too short or has no byte."""
    w = with_head(world(2, 1, 48, [(0, 0, 1, LINES, 0)], cells=[0, 0, 5]), 38)
    for fields, _ in damaged_fields(w.record):
        for n in (40, 4, 0):
            moved(p, with_record(w, **fields), other(p, n), 8)
    for ring in (w.ring + b"\0", w.ring[:-1], b""):
        for n in (40, 4, 0):
            moved(p, w._replace(ring=ring), other(p, n), 8)
    for n in (40, 0):
        moved(p, with_record(w._replace(ring=b""), len=0, head=0), other(p, n), 8)
    gone = with_record(w, taken=1, used=0)
    for fields in ({"head": 40}, {"len": 41}, {"set": 64}, {"used": 1}, {"taken": 0}, {"back": (1 << 47, 0, LINES)}):
        for n in (40, 0):
            moved(p, with_record(gone, **fields), other(p, n), 8)


def unseen(p):
    """what a move does not look at. Codes that do not decode and bytes beyond the last block are moved as they are; cells, counts and reserved bytes stay."""
    for n, (s, code) in enumerate(damaged_codes()):
        if not code or n % 9:
            continue
        w = world(3, 2, s, [(0, 0, 2, LINES, 0)], ring=bytes(200), cells=[0] * 6)._replace(ring=code + b"\1" * 4)
        w = with_record(w, len=len(code) + 4, used=len(code))
        moved(p, with_head(w, n % w.record.len), other(p, len(code) + n % 7), 0)
        assert p.children() == 8
        refused(p, p.world, b"\0" * (n % 5), 8)
    w = world(2, 2, 48, [(0, 0, 1, LINES, 0)])
    for cells in ([], [0] * 3, [GIVEN + 1] * 4, [TOP * TOP - 1] * 7):
        moved(p, w._replace(cells=cells), marked(9), 0)
        refused(p, p.world, b"\0" * 4, 2 if len(cells) < 4 else 8)
    signs = (0, 0, ((0.0, -0.0), (0.0, 3.0), (-1.0, -0.0), (0.0, 0.0)))
    far = ((1 << 47) - 1, 0, RANGES)
    for fields in ({"taken": TOP - 1, "queued": TOP}, {"queued": 2}, {"front": signs}, {"back": signs}, {"back": far}, {"reserved": 0x8001FF}):
        bent = with_record(w, **fields)
        for n in (4, 5, 50):
            moved(p, bent, marked(n), 6 if n < 5 else 0)
        assert same(p.world.record, bent.record._replace(len=50, head=0))


# ---- charts that are moved on their way


def alike(a, b):
    """The same but for the place in the ring and its length."""
    queue = model.content(a.record, a.ring) == model.content(b.record, b.ring)
    return queue and same((a.record._replace(len=0, head=0), a.cells), (b.record._replace(len=0, head=0), b.cells))


def life(first, rng, busy):
    """Each step's verdicts and what it leaves, from a world to the end of its queue: so many lively steps, then all is false."""
    w = first
    while w.record.taken < w.record.queued:
        kids = model.children(w)[1]
        mood = (1, 8, w.record.set >> 4) if w.record.taken < busy else (1, 0, 0)  # True ends a chart that cuts neither x nor y
        verdicts = bytes(verdict(rng, c[2], mood) for c in kids)
        got = model.step(w, verdicts)
        assert got.refusal == 0
        w = got.world
        yield verdicts, got


def twice_too_long(long, rng):
    """A life whose codes outgrow the least ring, and then the ring that was enough for that: its steps, and both rings' bytes."""
    for attempt in range(99):
        steps = list(life(long, rng, 9 + attempt % 5))
        used = [got.world.record.used for _, got in steps]
        first = next((n for n in used if n > long.record.used), 0)
        if 0 < first < max(used) <= MOST:
            return steps, [first, max(used)]


def grown(p):
    """charts that are moved twice. Begun on the least ring, refused by 6, moved, refused again, moved again: at every step and at the end as on a long ring."""
    rng = random.Random(20261116)
    ranges = (LINE, (-INF, 3.0), (-2.0, INF), (0.25, 0.75))
    for s, width, height in ((48, 9, 7), (16, 3, 3), (32, 1, 1), (8, 2, 2), (1, 2, 1), (9, 3, 2), (4, 1, 5), (50, 5, 4), (57, 4, 4), (15, 1, 1), (63, 2, 3)):
        cells = [6] * (width * height + 2)
        long = model.setup(width, height, s, ranges, bytes(3000), cells)
        steps, rings = twice_too_long(long, rng)
        peak = rings[-1]
        assert p.setup(width, height, s, ranges, bytes(p.bytes[: long.record.used]), cells) == 0
        for verdicts, want in steps:
            got = p.step(verdicts)
            if got.refusal == 6:
                look(p, p.world)
                assert p.move(other(p, p.world.record.used - 1)) == 6 and p.move(other(p, rings.pop(0))) == 0
                look(p, p.world)
                got = p.step(verdicts)
            assert (got.refusal, got.evaluations) == (0, want.evaluations) and alike(got.world, want.world), s
        assert not rings and p.world.record.len == peak and p.world.record.used == 0
        look(p, p.world)
        end, tape = p.run(b"", 0).ending, b"".join(verdicts for verdicts, _ in steps)
        assert p.setup(width, height, s, ranges, bytes(p.bytes[:peak]), cells) == 0  # on the long ring from the start
        got = p.run(tape, len(steps))
        assert (got.steps, got.ending) == (len(steps), end) and alike(p.world, steps[-1][1].world)


def wanders(p):
    """random histories that move. Every variable set; steps, runs and moves in any order, to rings that hold the queue, and refused by 6 to shorter ones."""
    rng = random.Random(20261117)
    for s in range(64):
        width, height = rng.choice((1, 2, 3, 5, 8)), rng.choice((1, 2, 3, 4, 7))
        ranges = [drawn(rng, WHOLE if integer else REAL, integer) for integer in model.INTEGER]
        if model.least_ring(width, height, s, ranges)[1] > 600:
            ranges = LINES
        first = model.setup(width, height, s, ranges, bytes(3000), [0] * (width * height))
        steps = list(life(first, rng, 6 + s % 7))[: rng.choice((8, 14, 24))]
        assert p.setup(width, height, s, ranges, bytes(p.bytes[: first.record.used + rng.choice((0, 9, 50))]), [5] * (width * height)) == 0
        for nth, (verdicts, want) in enumerate(steps):
            need = max(want.world.record.used, p.world.record.used, 1)
            if need > MOST:
                break
            if rng.randrange(4) == 0:
                assert p.move(other(p, rng.randrange(p.world.record.used))) == 6
            if need > p.world.record.len or rng.randrange(3) == 0:
                assert p.move(other(p, min(need + rng.choice((0, 0, 1, 30, 300)), MOST))) == 0
            got = p.step(verdicts) if nth % 3 else p.run(verdicts, 1)
            assert (got.refusal, got.evaluations) == (0, want.evaluations) and alike(got.world, want.world), (s, nth)
        look(p, p.world)


PARTS = (lengths, empty, damaged, unseen, grown, wanders)

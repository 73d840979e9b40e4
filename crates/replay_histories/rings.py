"""rings.py: rings that are full and that wrap at every offset, runs with every ending, and long random histories."""
import random

import model
from model import GIVEN, INF, LINE, MAX, TRUE
from worlds import LINES, TOP, begun, finished, look, refused, with_record, world

DEEP = (8 << 32) + 5, (3 << 32) + 0x0ABCDEF1


def with_head(w, head):
    """The same queue from another place of the ring on."""
    n = w.record.len
    ring = bytearray(n)
    for i in range(n):
        ring[(head + i) % n] = w.ring[(w.record.head + i) % n]
    return with_record(w._replace(ring=bytes(ring)), head=head)


def full(p):
    """full rings. A step that fills the ring to its last byte, one byte more that is refused, and a full ring that frees its front block's bytes."""
    b = (0, 0, 1, LINES, 0)
    for room, number in ((20, 0), (19, 6), (21, 0)):
        w = world(2, 2, 48, [b], ring=b"\xa5" * room, cells=[0] * 4)
        p.world = w
        got = p.step(b"\x40" * 4)
        assert got.refusal == number and (number or p.world.record.used == 20)
        if number:
            assert p.run(b"\x40" * 4, 1).ending == 6
            finished(p, w, b"\x40\x40\x40\0")
        else:
            refused(p, p.world, b"\x60" * 4, 6)
            finished(p, p.world, b"\x40\0\0\0")  # the front block's bytes are free again
            p.run(b"\0" * 40, 9)
    for s in (48, 63, 9, 0):
        w = begun(3, 3, s)
        assert w.record.used == w.record.len
        p.world = w
        p.children()
        kids = len(model.children(w)[1])
        for head in range(0, w.record.len, max(1, w.record.len // 7)):
            finished(p, with_head(w, head), b"\0" * kids)


def wraps(p):
    """wraps. Codes from every offset of a ring: inside a small number, a level, a parameter, before and behind the direction."""
    x, y = DEEP
    ranges = ((0.0, 9.0), (-INF, 5.0), LINE, (0.25, 0.75))
    for s, level, d, room in ((49, -32, 1, 0), (49, -31, 0, 0), (49, -31, 0, 9), (51, -8, 2, 5), (63, -31, 3, 0)):
        params = tuple(q if s & bit else LINE for q, bit in zip(ranges, model.BITS))
        first = (x >> (level + 32), y >> (level + 32), level, params, d)
        second = (first[0] ^ 1, first[1], level, params, 1)
        size = world(9, 5, s, [first, second]).record.used
        flat = world(9, 5, s, [first, second], ring=b"\x5a" * (size + room), cells=[0] * 45)
        for head in range(size + room):
            w = with_head(flat, head)
            p.world = w
            p.children()
            kids = len(model.children(w)[1])
            p.step(b"\x40" + b"\0" * (kids - 1))
            p.children()
            if s < 63:
                p.world = w
                p.step(b"\x40" * kids)
    for n in range(5, 22):  # short codes in short rings
        for head in range(n):
            p.world = with_head(world(2, 2, 48, [(0, 0, 1, LINES, 0)], ring=b"\x77" * n, cells=[0] * 5), head)
            p.run(b"\x40\x40\0\0" + b"\x40\0\0\0" * 6, 1 + n % 5)


def runs(p):
    """runs. Budgets, empty tapes, each ending, stops by 4, 5, 6, 7 and 8, and runs resumed."""
    first = begun(2, 2, 48, room=40)
    tape = b"\x40\0\0\x40" + b"\0" * 8

    def play(w, tape, budget, ending, steps, resumed=None):
        p.world = w
        got = p.run(tape, budget)
        assert (got.refusal, got.ending, got.steps) == (0, ending, steps), (got.ending, got.steps)
        look(p, p.world)
        if resumed is not None:
            play(p.world, tape[got.verdicts :] if resumed is True else resumed, TOP - 1, "done", 3 - steps)

    for budget in (0, 1, 2):
        play(first, tape, budget, "more", budget, True)
    for budget in (3, 4, TOP - 1):  # the budget spent on the step that empties the queue
        play(first, tape, budget, "done", 3)
        play(first, tape + b"\xff\xff", budget, "done", 3)  # bytes that are left are not looked at
    play(first, b"", 0, "more", 0)
    play(first, b"", 5, 4, 0, tape)
    for n in (1, 3):
        play(first, tape[:n], 5, 4, 0)
        play(first, tape[: 4 + n], 5, 4, 1, b"\0" * 8)
    for bad in (b"\xc0", b"\x41", b"\xff"):
        play(first, bad + tape[1:], 5, 5, 0, tape)
        play(first, tape[:7] + b"\xe0", 5, 5, 1, b"\0" * 8)
        play(first, tape[:6] + bad, 5, 4, 1)  # 4 before 5
    small = begun(2, 2, 48, room=10)
    play(small, b"\x40\x40\x40\0", 5, 6, 0, tape)
    play(small, tape[:4] + b"\x40" * 4, 5, 6, 1, b"\0" * 8)
    last = world(2, 2, 48, [(0, 0, 1, LINES, 0)], taken=TOP - 2, cells=[TOP - 2] * 4)
    play(last, b"\x40\0\0\0" * 3, 9, 7, 1)
    torn = with_record(first, used=first.record.used - 1)
    play(torn, tape, 9, 8, 0)
    play(torn, tape, 0, "more", 0)
    bad = first._replace(cells=[0, GIVEN + 1, 0, 0])
    play(bad, tape, 9, 8, 0)
    empty = with_record(first, taken=1, used=0)
    for cells, ending in (([0] * 4, "done"), ([GIVEN] + [0] * 3, "limit"), ([TRUE] * 4 + [GIVEN], "done"), ([GIVEN + 1] * 4, "done")):
        for budget in (0, 1, TOP - 1):
            play(empty._replace(cells=cells), tape, budget, ending, 0)
    p.world = empty
    refused(p, empty, b"", 13)
    for s, ranges, tape in ((0, LINES, b"\x40"), (8, ((5.0, 5.0),) + LINES[1:], b"\0\x40\0"), (1, LINES[:3] + ((1.0, 1.0),), b"\0\0\0\x40\0\0\0\0\0")):
        p.world = begun(3, 2, s, ranges, room=100)
        assert p.run(tape, 99).ending == "limit"
        look(p, p.world)


# ---- random histories, the same at each making

WHOLE = (0.0, -0.0, 1.0, 2.0, 3.0, -1.0, -2.0, 7.0, 2.0**52, 2.0**53, 2.0**53 + 2, -(2.0**53), 1e300, MAX, -MAX, INF, -INF)
REAL = WHOLE + (0.5, 0.25, 0.1, -0.1, 5e-324, -5e-324, 1e-310, 2.0**-1022)


def drawn(rng, values, integer):
    while True:
        q = (rng.choice(values), rng.choice(values))
        if model.legal(q, integer):
            return q


def verdict(rng, level, mood):
    result = rng.choices((0, 1, 2), mood)[0]
    if level >= 0:
        return result << 6
    area = rng.getrandbits(1)
    points = rng.choice((0, 0, rng.getrandbits(5))) if result == 1 and area else 0
    return result << 6 | area << 5 | points


def histories(p):
    """random histories. Every variable set, sides to 9 and some up to 250, small rings, spoiled verdicts, single steps and runs."""
    rng = random.Random(20261115)
    for s in range(64):
        width, height = rng.choice((1, 1, 2, 3, 5, 8, 9)), rng.choice((1, 1, 2, 3, 4, 7))
        if s % 16 == 0:
            width, height = ((250, 1), (1, 250), (16, 15), (15, 16))[s // 16]
        ranges = [drawn(rng, WHOLE if integer else REAL, integer) for integer in model.INTEGER]
        room = begun(width, height, s, ranges).record.used
        room = min(room + rng.choice((0, 5, 21, 60, 300)), 900)
        pixels = width * height
        if p.setup(width, height, s, ranges, bytes(rng.getrandbits(8) for i in range(room)), [rng.getrandbits(40) for i in range(pixels + 1)]):
            continue
        mood = rng.choice(((1, 4, 1), (0, 1, 0), (3, 3, 2), (0, 8, 1)))
        for _ in range(rng.choice((4, 8, 12))):
            if p.world.record.taken == p.world.record.queued:
                break
            p.children()
            kids = model.children(p.world)[1]
            v = bytes(verdict(rng, c[2], mood) for c in kids)
            spoil = rng.randrange(12)
            if spoil == 0:
                v += b"\0"
            elif spoil == 1:
                v = v[:-1] + bytes([rng.getrandbits(8)])
            if spoil == 2:
                p.run(v * 3, rng.choice((1, 2, 9)))
            elif p.step(v).refusal == 6:
                p.step(b"\0" * len(kids))
        p.picture(bytes(rng.getrandbits(8) for i in range(pixels + 2)))
        p.counts()


PARTS = (full, wraps, runs, histories)

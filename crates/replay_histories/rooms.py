"""rooms.py: how many bytes a ring must have. The least ring of a setup, the one that is enough for so many steps, and steps whose new codes fill what is free
to the last byte or pass it by one."""
import itertools

import model
from cases import beside, setup_faults, with_faults
from model import INF, LINE, MAX
from rings import with_head
from worlds import LINES, RANGES, TOP, one_unused, with_record, world

# ranges by the number of pieces that the first cut gives: a real parameter keeps repeats
WHOLE = ((5.0, 5.0), (0.0, 1.0), (-3.0, 4.0), LINE, (-INF, 0.0), (0.0, INF), (-0.0, 0.0), (2.0**53, 2.0**53 + 2))
REAL = ((5.0, 5.0), (0.0, -0.0), LINE, (-INF, -0.0), (5e-324, 1e-300), (0.1, MAX), (3.0, INF))


def lent(p, n):
    """A ring of n bytes as they lie in the table."""
    return bytes(p.bytes[:n])


def illegal():
    """What a setup chooses when it is refused by 1 or 3, alone and beside later faults."""
    for number, found in beside([f for f in setup_faults() if f[0] in (1, 3)]):
        yield number, with_faults(found)[0]


def least(p):
    """least rings. Every set, ranges of one, two and three pieces and repeats: with so many bytes a setup is taken, with one less refused by 6; 1 before 3."""
    kinds = {len(model.first_cut(q, whole)) for whole, qs in ((True, WHOLE), (False, REAL)) for q in qs}
    assert kinds == {1, 2, 3} and model.first_cut(REAL[0], False) == [REAL[0]] * 3
    for s, pick in [(s, s) for s in range(64)] + [(s, 3 * s + more) for s in range(16) for more in range(1, 8)]:
        ranges = [WHOLE[pick % 8], WHOLE[(pick // 3 + 1) % 8], WHOLE[(pick // 5 + 2) % 8], REAL[pick % 7]]
        width, height = (1, 1) if pick % 2 else (3, 2)
        need = p.least_ring(width, height, s, ranges)[1]
        assert p.least_ring(32768, 1 + pick, s, ranges) == (0, need)  # whatever the sides are
        assert p.setup(width, height, s, ranges, lent(p, need), [4] * 6) == 0 and p.world.record.used == need
        assert p.setup(width, height, s, ranges, lent(p, need - 1), [4] * 6) == 6
    for number, chosen in illegal():
        assert p.least_ring(*chosen)[0] == number
    for s, ranges in one_unused():
        assert p.least_ring(3, 2, s, ranges)[0] == 0


# ---- the ring that is enough for so many steps

PIECES = {n: [[q for q in qs if len(model.first_cut(q, whole)) == n] for whole, qs in ((True, WHOLE),) * 3 + ((False, REAL),)] for n in (1, 2, 3)}


def enough(p):
    """rings that are enough. Every set, ranges of one, two and three pieces, 0 to 2^32 - 1 steps; 1 before 3."""
    assert all(qs for found in PIECES.values() for qs in found)
    growths = set()
    for s, pieces in itertools.product(range(64), (1, 2, 3)):
        ranges = [qs[(s + i) % len(qs)] for i, qs in enumerate(PIECES[pieces])]
        least_bytes = p.least_ring(2, 2, s, ranges)[1]
        for steps in (0, 1, 2, 1000, TOP - 1):
            refusal, need = p.enough_ring(1 + steps % 32768, 32768 - s, s, ranges, steps)  # whatever the sides are
            assert refusal == 0 and (steps or need == least_bytes)
            if steps:
                growths.add((bin(s & 15).count("1"), (need - least_bytes) // steps, (need - least_bytes) % steps))
    assert growths == {(0, 27, 0), (1, 68, 0), (2, 86, 0), (3, 104, 0), (4, 122, 0)}
    for i, (number, chosen) in enumerate(illegal()):
        assert p.enough_ring(*chosen, (0, 7, TOP - 1)[i % 3]) == (number, None)
    for s, ranges in one_unused():
        assert p.enough_ring(3, 2, s, ranges, 5, reserved=0x80FF01)[0] == 0


def worst(w):
    """The verdicts, each child undecided or false, that leave most bytes used: all undecided."""
    moods = [bytes(v) for v in itertools.product(b"\x40\0", repeat=len(model.children(w)[1]))]
    used = [model.step(w, v).world.record.used for v in moods]
    assert max(used) == used[0]
    return moods[0]


CHARTS = (  # set, sides, ranges, steps
    (0, 3, 2, LINES, 40),
    (48, 1, 1, LINES, 40),
    (48, 16, 15, LINES, 40),
    (8, 2, 2, ((1.0, 6.0),) + LINES[1:], 40),
    (8, 1, 1, ((-3.0, INF),) + LINES[1:], 40),
    (9, 2, 1, ((1.0, 6.0), LINE, LINE, (0.0, 1.0)), 30),
    (9, 1, 1, LINES, 30),
    (57, 16, 10, ((1.0, 6.0), LINE, LINE, (0.0, 1.0)), 30),
    (63, 2, 2, LINES, 22),
    (63, 3, 1, ((0.0, 9.0), LINE, (-INF, 4.0), (0.1, 0.7)), 18),
)


def sufficing(p):
    """charts begun on a ring that is enough. So many steps without 6 where all is undecided; 6 on a ring a byte short of those used then, and on the least."""
    refused = 0
    for s, width, height, ranges, steps in CHARTS:
        need, cells = p.enough_ring(width, height, s, ranges, steps)[1], [8] * (width * height)
        assert p.setup(width, height, s, ranges, lent(p, need), cells) == 0
        first, tape, used = p.world.record.used, b"", []
        while len(used) < steps and p.world.record.used:
            tape += worst(p.world)
            assert p.step(worst(p.world)).refusal == 0
            used.append(p.world.record.used)
        for room in sorted({need, max(first, *used), max(first, max(used) - 1), first}):
            assert p.setup(width, height, s, ranges, lent(p, room), cells) == 0
            got = p.run(tape, steps)
            taken = next((i for i, n in enumerate(used) if n > room), len(used))
            assert (got.steps, got.ending == 6) == (taken, taken < len(used)) and (room < need or taken == steps or p.world.record.used == 0)
            refused += got.ending == 6
    assert refused == 2 * (len(CHARTS) - 2)  # with no variable, and with m in 1..6 alone, no step uses more than the setup


# ---- steps: a code has at most 83 bytes, so that with 4 * 83 bytes free none need be measured

FRESH = ((2.0, 8.0), (-INF, -4.0), (9.0, 30.0), (0.5, 0.75))
OTHER = ((1.0, 7.0), (-3.0, INF), (-9.0, 12.0), (0.25, 1.5))
FAR = ((1 << 47) - 1, (1 << 47) - 1, OTHER)


def needed(w, verdicts):
    """The bytes that a step's new codes take."""
    roomy = with_record(w._replace(ring=w.ring + bytes(900)), len=w.record.len + 900, head=0)
    r = model.step(roomy, verdicts).world.record
    return r.used - (w.record.used - model.front_block(w.record, w.ring)[1])


def free(p, w, n, blocks):
    """The same queue in a ring with n bytes free once the front block is taken."""
    length = w.record.used - model.front_block(w.record, w.ring)[1] + n
    if length < w.record.used:
        return None
    return with_record(world(2, 2, 63, blocks, ring=lent(p, length), cells=w.cells), back=w.record.back)


def edges(p):
    """room for four new parameters. 100 to 140 bytes free, and on both sides of 332, along every direction: taken if the codes fit, else refused by 6."""
    seen = set()
    for d in range(5):
        b = (3 << 30, 5 << 29, -31, FRESH, d)
        for blocks in ([b], [b, (1, 1, -30, OTHER, 1)]):  # alone, and with a block that waits behind it
            w = world(2, 2, 63, blocks, cells=[0] * 5)
            w = with_record(w, back=FAR if len(blocks) == 1 else w.record.back)
            kids = len(model.children(w)[1])
            for mood in (b"\x40" * kids, b"\x60" * (kids - 1) + b"\0", b"\0\x80\xa0\x40"[-kids:]):
                need = needed(w, mood)
                sweep = len(blocks) == 1 and mood == b"\x40" * kids and d in (0, 4)
                near = range(100, 141) if sweep else (need - 1, need)
                for n in (*near, 331, 332):
                    tight = free(p, w, n, blocks)
                    if tight is None:
                        continue
                    p.world = tight
                    got = p.step(mood)
                    assert got.refusal == (0 if need <= n else 6), (d, n, need)
                    seen.add((need <= n, 100 <= n <= 140, need))
                    if n in (need - 1, need):
                        p.world = tight
                        assert p.run(mood, 1).ending == (6 if n < need else "more")
    assert {(True, True, 120), (False, True, 120), (True, True, 135), (False, True, 135)} <= seen


def begun(p):
    """rings with little room from the setup on. Four new parameters in the first step, taken or refused by 6, and the run that goes on."""
    need = model.least_ring(2, 2, 63, RANGES)[1]
    for extra in range(31, 72):
        assert p.setup(2, 2, 63, RANGES, lent(p, need + extra), [9] * 4) == 0
        freed = extra + model.front_block(p.world.record, p.world.ring)[1]
        assert 100 <= freed <= 140
        got = p.step(b"\x40" * 4)
        assert got.refusal == (0 if freed >= 108 else 6)
        p.run(b"\x40\0\x40\0" * 2 + b"\0" * 8, 9)


def wrapped(p):
    """four new parameters in a wrapped ring. The codes across the ring's end at every offset that one step has."""
    b = (3 << 30, 5 << 29, -31, FRESH, 4)
    w = with_record(world(2, 2, 63, [b], cells=[0] * 4), back=FAR)
    for n in (134, 135):
        tight = free(p, w, n, [b])
        for head in range(0, n, 9):
            p.world = with_head(tight, head)
            assert p.step(b"\x40" * 3).refusal == (6 if n < 135 else 0)


PARTS = (least, enough, sufficing, edges, begun, wrapped)

"""tilecounts.py: what the calls with a table count. Tables filled from cells of every kind, tables of anything
before a step, damaged cells beside the block, and charts that have a table from their setup on.

What must come out is counted.py's answer. Charts that begin with a table are held against a recount of all
tiles after every call, and the tables' sums against the counts of the picture."""
import random

import counted
import model
from model import GIVEN, LINE, TRUE
from rings import REAL, WHOLE, drawn, verdict
from worlds import LINES, TOP, begun, with_cell, with_record, world

RANGES = ((0.0, 9.0), LINE, LINE, (0.25, 0.75))


def patches(rng, n, taken):
    """Cells of every kind, some of one kind side by side."""
    kinds, cells = (0, taken - 1, taken, taken + 1, TRUE, GIVEN), []
    while len(cells) < n:
        cells += [rng.choice(kinds)] * rng.choice((1, 2, 5, 12))
    return cells[:n]


def garbage(rng, w, spare):
    """A table of any numbers, some beyond the four a tile."""
    return [rng.getrandbits(32) for _ in range(4 * counted.tile_count(w.record) + spare)]


def filled(p):
    """tables filled. Pictures of one tile to 44, cells of every kind, for several numbers of blocks taken."""
    rng = random.Random(20261118)
    for width, height in ((1, 1), (16, 16), (17, 17), (33, 20), (700, 1), (2, 600), (40, 35)):
        cells = patches(rng, width * height + 2, 7)
        for taken, queued in ((0, 1), (7, 8), (8, TOP), (TOP - 1, TOP), (TOP, TOP)):
            w = begun(width, height, 48, room=9)._replace(cells=cells)
            p.world = with_record(w, taken=taken, queued=queued, used=0 if taken == queued else 5)
            assert p.fill_table(garbage(rng, w, 3))[0] == 0
            p.counts()


# ---- one step


def inside(rng, width, height, level):
    """The indices of a block somewhere in a picture."""
    pixel = rng.randrange(width), rng.randrange(height)
    return [i >> level if level >= 0 else i << -level | rng.getrandbits(-level) for i in pixel]


def chosen_verdicts(rng, w, mood):
    return bytes(verdict(rng, c[2], mood) for c in model.children(w)[1])


def anything(p):
    """tables of anything before a step. Blocks at every level over cells of every kind: touched tiles are
    recounted, every other number stays."""
    rng, touched = random.Random(20261119), set()
    for width, height in ((33, 20), (16, 33), (1, 1), (50, 3)):
        cells = patches(rng, width * height + 1, 5)
        for level in range(-32, 16):
            x, y = inside(rng, width, height, level)
            block = (x, y, level, RANGES, rng.randrange(3) if level > -32 else 1)
            queue = [block, (0, 0, 1, RANGES, 0)]
            w = world(width, height, 57, queue, ring=bytes(400), taken=5, cells=cells)
            before = garbage(rng, w, 5)
            p.world, p.table = w, before
            assert p.step_with_table(chosen_verdicts(rng, w, (1, 3, 2))).refusal == 0
            every, tiles = counted.recount(p.world), counted.front_tiles(w)
            assert p.table == [every[i] if i // 4 in tiles else n for i, n in enumerate(before)]
            touched.add(len(tiles))
    assert {1, 2, 3, 4, 6} <= touched


def one_of(places):
    return sorted(places)[len(places) // 2 :][:1]


def damaged(p):
    """damaged cells beside the block. 8 from a step with a table if a tile that it touches has one; a step
    without a table looks at those that it covers."""
    answers, deep = set(), ((130, 70, -3), (4 << 30, 7 << 30, -30))
    for n, place in enumerate(((5, 2, 2), (1, 0, 3), (2, 1, 3), (1, 0, 4), (0, 0, 6), *deep)):
        w = world(35, 20, 48, [(*place, LINES, 0)], cells=[0] * 702)
        covered, tiles = set(model.covered(w.record, place)), counted.front_tiles(w)
        verdicts = b"\x40\0\0\0"[: len(model.children(w)[1])]
        for tile in range(6):
            places = {i for i in range(700) if counted.tile_at(w.record, i) == tile}
            for at in one_of(places & covered) + one_of(places - covered):
                bad = with_cell(w, at, (GIVEN + 1, TOP * TOP - 1)[n % 2])
                p.world, p.table = bad, [4] * 24
                with_table = p.step_with_table(verdicts).refusal
                p.world = bad
                without = p.step(verdicts).refusal
                assert (with_table, without) == (8 if tile in tiles else 0, 8 if at in covered else 0)
                answers.add((with_table, without))
        p.world, p.table = with_cell(w, 701, GIVEN + 1), [4] * 24  # past the pixels
        assert p.step_with_table(verdicts).refusal == 0
    assert answers == {(0, 0), (8, 0), (8, 8)}


def stopped(p):
    """runs with a table that stop at their second step. At a damaged cell in the tile of the second block,
    covered by it or not, and where the queue's bytes do not end with its last block: the table is as the first
    step left it."""
    two = world(35, 20, 48, [(1, 1, 3, LINES, 0), (3, 1, 3, LINES, 0)], cells=[1] * 701)
    tape, before = b"\0\x80\0\x40\0\0\0\0", list(range(24))
    covered = model.covered(two.record, (3, 1, 3))
    assert counted.tile_at(two.record, 16) == counted.tile_at(two.record, covered[0])
    one = world(35, 20, 48, [(1, 1, 3, LINES, 0)], cells=[0] * 701)
    long = [with_record(one, used=one.record.used + extra) for extra in (1, 5)]
    spoiled = [(with_cell(two, at, GIVEN + 1), tape) for at in (16, covered[0], covered[-1])]
    for w, verdicts in spoiled + [(w, bytes(8)) for w in (*long, with_record(one, queued=2))]:
        first = counted.step(w, before, verdicts[:4])[1]
        p.world, p.table = w, before
        got = p.run_with_table(verdicts, 9)
        assert (got.steps, got.ending) == (1, 8) and p.table == first != before
        p.world = w
        assert p.run(verdicts, 2).steps == (2 if w is spoiled[0][0] else 1)


# ---- charts with a table from their setup on


def recounted(p):
    """The table holds what a recount of all tiles gives, and its sums are the counts of the picture."""
    every = counted.recount(p.world)
    assert p.table[: len(every)] == [every[i] for i in range(len(every))]
    assert tuple(sum(p.table[i : len(every) : 4]) for i in range(4)) == model.counts(p.world)[1][:4]


def begin(p, rng, width, height, s, ranges, room):
    """A setup with a table of any numbers."""
    table = [rng.getrandbits(32) for _ in range(4 * -(-width // 16) * -(-height // 16) + rng.randrange(4))]
    memory = bytes(p.bytes[:room]), [8] * (width * height + 1), table
    assert p.setup_with_table(width, height, s, ranges, *memory, reserved=rng.getrandbits(24)) == 0
    recounted(p)


SIZES = ((1, 1), (16, 16), (17, 16), (16, 33), (40, 35), (35, 40), (300, 2), (3, 200))


def one_call(p, rng, mood):
    """A step or a run, now and then with a verdict spoiled; a step that finds no room is told no."""
    verdicts = chosen_verdicts(rng, p.world, mood)
    pick = rng.randrange(10)
    if pick == 0:
        verdicts = verdicts[:-1] + bytes([rng.getrandbits(8)])
    if pick < 4:
        p.run_with_table(verdicts * 3, rng.choice((1, 2, 9)))
    elif p.step_with_table(verdicts).refusal == 6:
        p.step_with_table(b"\0" * len(verdicts))


def charts(p):
    """random charts with a table. Sides to 40 and longer, many sets, steps and runs: after each call the table
    is a recount of all tiles."""
    rng = random.Random(20261120)
    for n in range(45):
        width, height = SIZES[n] if n < len(SIZES) else (rng.randint(1, 40), rng.randint(1, 35))
        s = rng.choice((48, 48, 57, 57, 49, 56, 33, 24, 9, 8, 1, 0, 63))
        ranges = [drawn(rng, WHOLE if integer else REAL, integer) for integer in model.INTEGER]
        least = model.least_ring(width, height, s, ranges)[1]
        begin(p, rng, width, height, s, ranges, least + rng.choice((0, 30, 200, 200)))
        mood = rng.choice(((1, 4, 1), (0, 1, 0), (3, 3, 2), (0, 8, 1)))
        for _ in range(rng.choice((4, 8, 12))):
            if p.world.record.taken == p.world.record.queued:
                break
            one_call(p, rng, mood)
            recounted(p)
            if rng.randrange(4) == 0:
                assert p.fill_table([n] * len(p.table))[0] == 0
        p.counts()


def one_goes_on(rng, kids, lively):
    """Verdicts that leave one child undecided, and while it is lively some others too, or True."""
    one, others = rng.randrange(len(kids)), b"\0\0\x80\x40\x40\0" if lively else b"\0"
    return bytes(0x40 if i == one else rng.choice(others) for i in range(len(kids)))


DEEP = (17, 1, 48), (1, 18, 48), (20, 17, 48), (2, 2, 57), (18, 17, 56), (33, 1, 0), (17, 17, 8), (17, 2, 1)


def dives(p):
    """charts with a table down to the floor. One child of each block goes on, to level -32 and to pixels that
    are given up; then what was waiting."""
    rng, levels, given = random.Random(20261121), set(), 0
    for width, height, s in DEEP:
        begin(p, rng, width, height, s, ((0.0, 3.0), LINE, LINE, (0.25, 0.75)), 400)
        for n in range(60):
            if p.world.record.taken == p.world.record.queued:
                break
            levels.add(model.front_block(p.world.record, p.world.ring)[0][2])
            verdicts = one_goes_on(rng, model.children(p.world)[1], n < 3 and s != 1)
            got = p.step_with_table(verdicts) if n % 4 else p.run_with_table(verdicts, 1)
            assert got.refusal == 0
            recounted(p)
        p.run_with_table(b"\0" * 300, 100)
        recounted(p)
        given += sum(p.table[3 : 4 * counted.tile_count(p.world.record) : 4])
    assert set(range(-31, 5)) <= levels and given > 100, (levels, given)


PARTS = (filled, anything, damaged, stopped, charts, dives)

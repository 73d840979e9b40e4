"""pixels.py: random runs of which pixels are explained, so many that every kind of reason occurs often.

A run is drawn with its tape, a step at a time. Of each run several numbers of steps are explained, each for the
pixels whose kinds were rarest so far. What must come out is logged.py's answer."""
import random
from collections import Counter

import logged
import model
from logged import FALSITY, GIVENUP, TRUTH, WAITING
from model import INF, LINE
from rings import verdict
from tables import PICTURE, TAPE
from tilecounts import one_goes_on

SEED = 20261122
seen = Counter()  # how often each kind was explained

# ---- the kinds of a reason


def kinds_of_true(lines, got):
    at = next(l for l in lines if (l.step, l.child) == (got.step, got.child))
    area = "area verdict below level 0" if at.level < 0 else "area verdict at level 0 and up"
    yield f"true by the {area}" if got.point == 0 else f"true by point {got.point}"
    yield f"true by child {got.child}"
    if any(l.step < got.step and l.taken and l.outcome == "open" and l.direction is None for l in lines):
        yield "true, given up before"
    if len({l.step for l in lines if l.here and l.outcome == "true"}) > 1:
        yield "true, marked by several steps"
    if any(l.step == got.step and l.child < got.child and l.outcome == "skipped" for l in lines):
        yield "true, by a child behind a skipped one"


def kinds_of_false(lines, got, log):
    yield f"false, child {got.child}"
    if len([l for l in lines if l.step == got.step and l.here]) > 1:
        yield "false by several covering children"
    if got.step < log.steps:
        yield "false since an earlier step"
    if any(l.step == got.step and not l.here and l.outcome != "false" for l in lines):
        yield "false beside a child that is not"


def kinds_of_given_up(lines, got, log, pixel):
    none = [l for l in lines if l.taken and l.outcome == "open" and l.direction is None]
    yield f"given up, child {got.child}"
    if len({l.step for l in none}) > 1:
        yield "given up by several steps"
    if got.step < log.steps:
        yield "given up before the last step"
    if any(l.step == got.step and l.child < got.child and l.outcome == "open" for l in lines):
        yield "given up, not by the first open child"
    if any(l.step == got.step and l.here and l.outcome == "true" for l in lines):
        yield "given up and marked in one step"
    if any(pixel in model.covered(log.world.record, b) for b in log.queue):
        yield "given up, though blocks that cover it wait"


def lies_across(log, before):
    """Whether the block behind so many lies across the ring's end."""
    r = log.world.record
    last, at = r.front, r.head
    for b in log.queue[: before + 1]:
        start, at = at, at + len(model.encode(r.set, last, b))
        last = (b[0], b[1], b[3])
    return start // r.len != (at - 1) // r.len


def kinds_of_waiting(got, log):
    r = log.world.record
    yield "waiting, some before it" if got.before else "waiting for the front block"
    if got.number < r.taken + len(log.queue) - 1:
        yield "waiting, some behind it"
    if got.block[4]:
        yield "waiting in a later direction"
    if model.used_of(r.set):
        yield "waiting for a block with parameters"
    if r.head + r.used > r.len:
        yield "waiting in a ring that wraps"
    if lies_across(log, got.before):
        yield "waiting for a block across the ring's end"


def kinds_of_place(r, pixel):
    row, column = divmod(pixel, r.width)
    columns, rows = {0: "first", r.width - 1: "last"}, {0: "top", r.height - 1: "bottom"}
    if column in columns and r.width > 1:
        yield f"pixel in the {columns[column]} column"
    if row in rows and r.height > 1:
        yield f"pixel in the {rows[row]} row"
    if column not in columns and row not in rows:
        yield "pixel at no edge"


def kinds(log, pixel, steps):
    got = logged.explained(log, pixel)
    yield f"with {len(model.used_of(log.world.record.set))} parameters"
    if got.refusal:
        yield f"refused by {got.refusal} " + ("on the way" if got.steps else "at the first step")
        return
    lines = [l for l in log.lines if l.pixel == pixel]
    yield ("", "TRUE", "FALSE", "GIVEN UP", "WAITING")[got.reason]
    beyond = " sooner" if steps > got.steps else ""
    yield f"ends{beyond}: {got.ending}" if steps else "no step"
    yield from kinds_of_place(log.world.record, pixel)
    if got.reason == TRUTH:
        yield from kinds_of_true(lines, got)
    elif got.reason == FALSITY:
        yield from kinds_of_false(lines, got, log)
    elif got.reason == GIVENUP:
        yield from kinds_of_given_up(lines, got, log, pixel)
    elif got.reason == WAITING:
        yield from kinds_of_waiting(got, log)


# ---- runs

SETS = 48, 48, 57, 49, 56, 52, 33, 24, 9, 8, 4, 1, 1, 13, 0
WHOLE = (0.0, 3.0), (0.0, 8.0), (5.0, 5.0), (0.0, 1.0), (-2.0, 2.0), LINE, (-INF, 4.0)
REAL = (0.25, 0.75), (1.0, 1.0), (0.0, 5e-324), (0.0, 2e-323), LINE, (-1.0, INF)
LIVELY = (1, 4, 1), (0, 1, 0), (0, 8, 1), (2, 5, 4), (1, 1, 0)
CALM = (3, 3, 2), (2, 3, 2), (2, 2, 1), (1, 2, 2), (1, 4, 3)
DENYING = (4, 2, 0), (4, 2, 1), (8, 3, 1)
SHAPES = (  # sides, sets, moods, how many steps, the ring's room, and whether one child of each block alone goes on
    ((1, 1, 2, 2, 3, 4, 5, 6), SETS, LIVELY + CALM, (2, 4, 8, 16, 30), (30, 80, 150), False),
    ((1, 1, 2), (48, 48, 48, 56, 57), LIVELY, (40,), (50, 120), True),
    ((4, 5, 6), (49, 49, 33, 56), CALM, (30,), (200, 300), False),
    ((1, 1, 2), (8, 1, 9, 4, 12), CALM + DENYING, (30,), (60, 200), False),
)
OFTEN = 12  # a kind that was explained so many times is no longer looked for


def answer(rng, level, mood):
    """A verdict, below level 0 often one with a point that is true."""
    if level < 0 and rng.randrange(6) == 0:
        return 0x60 | rng.choice((1, 2, 4, 8, 16, 3, 12, 31))
    return verdict(rng, level, mood)


def run_drawn(rng, chosen, room, mood, last, dive):
    """A run's tape, how many steps it finishes, the most bytes that its queue has, and whether it is empty then."""
    w, tape, most = model.setup(*chosen, bytes(room), [0] * (chosen[0] * chosen[1])), b"", 0
    lively = rng.choice((0, 0, 2))  # steps of a dive in which others go on too
    for n in range(last):
        kids = model.children(w)[1]
        if not kids or len(tape) + len(kids) > PICTURE - TAPE:
            break
        verdicts = bytes(answer(rng, c[2], mood) for c in kids)
        if dive and n < 36:
            verdicts = one_goes_on(rng, kids, n < lively)
        got = model.step(w, verdicts)
        if got.refusal:
            break
        w, tape, most = got.world, tape + verdicts, max(most, got.world.record.used)
    return tape, w.record.taken, most, w.record.used == 0


def rarest(log, steps, often):
    """At most two pixels that have a kind which was not yet seen often, the rarest first."""
    r = log.world.record
    of = {i: set(kinds(log, i, steps)) for i in range(r.width * r.height)}
    for _ in range(min(2, len(of))):
        pixel = min(of, key=lambda i: min(seen[k] for k in of[i]))
        if min(seen[k] for k in of[pixel]) < often:
            seen.update(of.pop(pixel))
            yield pixel


def explained(p, rng, chosen, room, tape, steps, often=OFTEN):
    """Some pixels of a run, the first in memory of anything, the others in what the one before it left."""
    width, height = chosen[:2]
    ring = bytes(rng.getrandbits(8) for _ in range(room))
    cells = [rng.getrandbits(40) if rng.randrange(8) == 0 else 9] * (width * height + rng.randrange(2))
    log = logged.logged(model.setup(*chosen, ring, cells), tape, steps)
    for pixel in rarest(log, steps, often):
        row, column = divmod(pixel, width)
        reserved = rng.choice((0, 0, rng.getrandbits(24)))
        got = p.explain(*chosen, ring, cells, tape, steps, column, row, reserved=reserved)
        assert got[2:] == logged.explained(log, pixel)[2:]
        ring, cells = got.world.ring, got.world.cells


def spoiled(rng, tape):
    """The tape with an illegal byte."""
    at = rng.randrange(len(tape))
    return tape[:at] + bytes([rng.choice((0xC0, 0xFF, 0x9F, 0x01, 0x51))]) + tape[at + 1 :]


def one_run(p, rng, n):
    sides, sets, moods, lasts, rooms, dive = SHAPES[n % 4]
    ranges = tuple(rng.choice(WHOLE if integer else REAL) for integer in model.INTEGER)
    chosen = rng.choice(sides), rng.choice(sides), rng.choice(sets), ranges
    least = model.least_ring(*chosen)[1]
    room = least + rng.choice(rooms)
    tape, last, most, ends = run_drawn(rng, chosen, room, rng.choice(moods), rng.choice(lasts), dive)
    if not tape or room > 400:
        return
    explained(p, rng, chosen, room, tape, last, OFTEN if n > 60 else 999)
    for steps in sorted({0, last // 2, last - 1}) + [last + rng.choice((1, 7, 1 << 30))] * ends:
        explained(p, rng, chosen, room, tape, steps)
    explained(p, rng, chosen, room, tape[: rng.randrange(len(tape))], last)
    explained(p, rng, chosen, room, spoiled(rng, tape), last)
    if most > least:
        explained(p, rng, chosen, rng.randrange(least, most), tape, last)


def runs(p):
    """random reasons, seed 20261122. Small pictures, with and without parameters; runs to their ends, beyond them and
    to none, tapes that end early, illegal bytes, and rings that are shorter."""
    rng = random.Random(SEED)
    for n in range(RUNS):
        one_run(p, rng, n)
    assert len(seen) == 62 and min(seen.values()) >= OFTEN, seen
    print(*(f"random reasons, {kind}: {times}" for kind, times in sorted(seen.items())), sep="\n")


RUNS = 500
PARTS = (runs,)

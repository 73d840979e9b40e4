"""logged.py: document 02's (v), why a pixel reads what it reads, by a plain log of all that happened to it; with
nothing taken from the crates.

The steps are the model's own. Beside each finished step the log gets a line for every child and every pixel of the
picture, and the reason is read off the lines at the end. The queue is kept once more, as a list of blocks. Both are
held against the model: the lines of a step, painted, give the cells that its step leaves, and the list is what the
ring holds. Steps and children count from 1, children over all of their step, the skipped ones too.
"""
from collections import namedtuple

import model
from model import GIVEN, TRUE

# What a child did to a pixel: the block taken covers it; the child, its place, covers it; skipped, false, true or
# open; the sample point that was true, 0 for the area; of an open child its direction, or none, and its number in the
# queue; its level.
Line = namedtuple("Line", "step pixel taken child here outcome point direction number level")
Log = namedtuple("Log", "lines queue world steps evaluations verdicts ending")
NONE = dict(reason=0, step=0, child=0, point=0, number=0, before=0, block=model.BLANK)
Explained = namedtuple("Explained", "refusal world steps evaluations verdicts ending " + " ".join(NONE))
TRUTH, FALSITY, GIVENUP, WAITING = 1, 2, 3, 4  # the reasons

# ---- the log


def queue_of(w):
    """The blocks that wait, the front one first."""
    data, last, found = model.content(w.record, w.ring), w.record.front, []
    while data:
        b, _, count = model.decode(w.record.set, last, data)
        data, last = data[count:], (b[0], b[1], b[3])
        found.append(b)
    return found


def outcome(verdict, level, covered_cells):
    """What becomes of a child, and the sample point that marks it."""
    if all(c == TRUE for c in covered_cells):
        return "skipped", 0
    for place in range(1, 6):
        if verdict & 32 >> place:
            return "true", place
    if verdict >= 128 and (level >= 0 or verdict & 32):
        return "true", 0
    return ("false", 0) if verdict < 64 else ("open", 0)


def answered(r, cells, kids, verdicts):
    """The outcomes of all children, each with what those before it marked in mind."""
    cells, found = list(cells), []
    for c, v in zip(kids, verdicts):
        places = model.covered(r, c)
        found.append(outcome(v, c[2], [cells[i] for i in places]))
        if found[-1][0] == "true":
            for i in places:
                cells[i] = TRUE
    return found


def lines_of_step(w, step, b, kids, verdicts):
    """The lines of a step on a block, and the blocks that it queues."""
    r, lines, queued = w.record, [], []
    outcomes = answered(r, w.cells, kids, verdicts)
    count = [what for what, _ in outcomes].count("open")
    under = set(model.covered(r, b))
    for child, (c, (what, point)) in enumerate(zip(kids, outcomes), 1):
        direction = model.next_direction(r, b, c, count) if what == "open" else None
        number = r.queued + len(queued) if direction is not None else None
        if direction is not None:
            queued.append(c[:4] + (direction,))
        here = set(model.covered(r, c))
        for i in range(r.width * r.height):
            lines.append(Line(step, i, i in under, child, i in here, what, point, direction, number, c[2]))
    return lines, queued


def painted(r, cells, lines):
    """The cells after a step's lines: the marks first."""
    cells = list(cells)
    for l in lines:
        if l.here and l.outcome == "true":
            cells[l.pixel] = TRUE
    for l in lines:
        if l.outcome == "open" and l.direction is None and l.taken:
            cells[l.pixel] = GIVEN
        elif l.number is not None and l.here and r.taken <= cells[l.pixel] < TRUE:
            cells[l.pixel] = l.number
    return cells


def logged(start, tape, steps):
    """The log of so many steps, or of those that are finished."""
    w, lines, queue, n, at = start, [], queue_of(start), 0, 0
    whole = model.run(start, tape, steps)
    while n < whole.steps:
        b, kids = queue[0], model.children_of(w.record, queue[0])
        got = model.step(w, tape[at : at + len(kids)])
        assert got.refusal == 0 and repr(model.front_block(w.record, w.ring)[0]) == repr(b)
        of_step, queued = lines_of_step(w, n + 1, b, kids, tape[at : at + len(kids)])
        assert painted(w.record, w.cells, of_step) == got.world.cells
        lines, queue, n, at = lines + of_step, queue[1:] + queued, n + 1, at + len(kids)
        w = got.world
        assert repr(queue) == repr(queue_of(w))
    assert whole.refusal == 0 and repr(w) == repr(whole.world)
    return Log(lines, queue, w, *whole[2:])


# ---- the reason


def reason_of(log, pixel):
    """The reason for a pixel, by its place in the picture, from the last line to the first."""
    r, cell = log.world.record, log.world.cells[pixel]
    back = [l for l in reversed(log.lines) if l.pixel == pixel]
    reading = model.reading(cell, r.taken)
    if reading == 2:
        found = next(l for l in back if l.here and l.outcome == "true")
        return dict(reason=TRUTH, step=found.step, child=found.child, point=found.point)
    if reading == 0:
        step = next(l.step for l in back if l.taken)
        found = [l for l in back if l.step == step and l.here]
        assert all(l.outcome == "false" for l in found)
        return dict(reason=FALSITY, step=step, child=found[-1].child)
    if cell == GIVEN:
        found = [l for l in back if l.taken and l.outcome == "open" and l.direction is None]
        step = found[0].step
        return dict(reason=GIVENUP, step=step, child=[l for l in found if l.step == step][-1].child)
    before = [i for i, b in enumerate(log.queue) if pixel in model.covered(r, b)][-1]
    assert cell == r.taken + before
    return dict(reason=WAITING, number=cell, before=before, block=log.queue[before])


def explain(width, height, s, ranges, ring, cells, tape, steps, column, row):
    start = model.setup(width, height, s, ranges, ring, cells)
    refusal = start if isinstance(start, int) else 18 if column >= width or row >= height else 0
    if refusal:
        return Explained(refusal, model.World(None, bytes(ring), list(cells)), 0, 0, 0, None, **NONE)
    return explained(logged(start, tape, steps), row * width + column)


def explained(log, pixel):
    """The answer for a pixel; where a step was refused, its number and no reason."""
    stop = log.ending if isinstance(log.ending, int) else 0
    found = {} if stop else reason_of(log, pixel)
    return Explained(stop, *log[2:], **{**NONE, **found})

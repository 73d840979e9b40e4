"""tables.py: the two tables that a call is given and leaves, and the list that the program plays.

Words (64 bits each)
  0 width, 1 height, 2 set and above its byte the three reserved ones, 3 blocks taken, 4 queued, 5 ring length, 6 head, 7 bytes used
  8.. what is remembered of the last block taken: x, y, then lower and upper of m, n, n_theta, t as bit patterns; 18.. of the last one queued
  28.. a setup's ranges of m, n, n_theta, t
  36 ring bytes lent, 37 cells lent, 38 verdict or tape bytes, 39 budget or number of steps, 40 picture bytes lent
  41 the answer, 0 or a refusal's number, 42 evaluations, 43 verdict bytes taken, 44 steps, 45 the ending (1 done, 2 limit, 3 more, 100 + n stop n)
  46.. counts: true, false, uncertain, given up, queued, share
  52 the number of children, 53.. four blocks of 13: x, its level + 48, y, its level + 48, m, n, n_theta, t, direction
  105 the bytes that a ring needs, 106 the other ring's bytes lent, 107 the table's numbers lent
  108 a pixel's column, 109 its row from the top, 110 the reason (0 none, 1 true, 2 false, 3 given up, 4 waiting), 111 the step, 112 the child, 113 the
  point, 114 the number of the block that the pixel waits for, 115 the blocks before it; that block from 53 on
  128.. cells, 1536.. the table of tile counts
Bytes
  0.. the ring, 3072.. verdicts or tape, 3584.. the picture; in a move 3072.. the other ring

An entry of the list is the call's number (its place in CALLS, from 1 on), the change to what it is given, and the change to what it must leave. A change is
the number of its stretches; a stretch is what it changes (0 bytes, else words and the bytes of each value), its place in two bytes, the number of its values
in one, and the values. 255 closes a part: the length of its title, and the title. 0 ends the list. Numbers stand with the higher byte first.
"""
import struct

import counted
import logged
import model
from lists import one_nan

CALLS = ("setup", "children", "step", "run", "picture", "counts", "least_ring", "enough_ring", "move_queue")
CALLS += ("setup_with_table", "step_with_table", "run_with_table", "fill_table", "explain")
WORDS, BYTES = 2048, 5120
RING, TAPE, PICTURE, OTHER, CELLS, TABLE = 3072, 3072, 3584, 3072, 128, 1536
ENDINGS = {"done": 1, "limit": 2, "more": 3}
REASON = [*range(3, 28), *range(41, 46), *range(53, 66), *range(110, 116)]  # what an explanation may fill: record, sums, block, reason


def bounds_words(intervals):
    return [one_nan(v) for p in intervals for v in p]


def last_words(last):
    return list(last[:2]) + bounds_words(last[2])


def record_words(r):
    return [r.width, r.height, r.set + 256 * r.reserved, r.taken, r.queued, r.len, r.head, r.used] + last_words(r.front) + last_words(r.back)


def block_words(b):
    return [b[0], b[2] + 48, b[1], b[2] + 48] + bounds_words(b[3]) + [b[4]]


def table_words(table):
    return [(107, len(table)), *enumerate(table, TABLE)]


def ending_word(ending):
    return ENDINGS.get(ending) or 100 + ending


def reason_words(got):
    """The words of an explanation, or of a step that refused on the way; those that do not apply stay."""
    sums = [(42, got.evaluations), (43, got.verdicts), (44, got.steps), (45, ending_word(got.ending)), (110, got.reason)]
    if got.reason == logged.WAITING:
        return sums + [(114, got.number), (115, got.before)] + list(enumerate(block_words(got.block), 53))
    moment = [(111, got.step), (112, got.child)] if got.reason else []
    return sums + moment + ([(113, got.point)] if got.reason == logged.TRUTH else [])


def size_of(v):
    return 1 if v < 256 else 5 if v < 1 << 40 else 8


def stretches(table, old, new):
    """The stretches that make a table's values new; values of one size go together, a small gap is written along."""
    found, gap = [], 1 if table == "words" else 4
    for i in (i for i in range(len(new)) if old[i] != new[i]):
        size = size_of(new[i]) if table == "words" else 0
        near = found and i - found[-1][1] <= 1 + gap and i - found[-1][0] < 255 and size == found[-1][2]
        if near and all(size_of(v) <= max(size, 1) for v in new[found[-1][1] : i]):
            found[-1][1] = i
        else:
            found.append([i, i, size])
    return [struct.pack(">BHB", n, a, e - a + 1) + b"".join(v.to_bytes(n or 1, "big") for v in new[a : e + 1]) for a, e, n in found]


def in_rows(old, new):
    """The stretches that make all words new from the first to the last that changes: few, whatever the values."""
    places = [i for i in range(len(new)) if old[i] != new[i]]
    found = []
    for a in range(places[0], places[-1] + 1, 255):
        row = new[a : min(a + 255, places[-1] + 1)]
        size = max(map(size_of, row))
        found.append(struct.pack(">BHB", size, a, len(row)) + b"".join(v.to_bytes(size, "big") for v in row))
    return found


class Player:
    """Plays calls by the model and writes them down. `world` is the present record, ring and cells, `table` the
    tile counts beside it."""

    def __init__(self):
        self.words, self.bytes = [0] * WORDS, bytearray(BYTES)
        self.out, self.parts, self.calls, self.answers = b"", [], 0, {}

    def change(self, words, data):
        of_words, of_bytes = stretches("words", self.words, words), stretches("bytes", self.bytes, data)
        found = (of_words if len(of_words + of_bytes) < 256 else in_rows(self.words, words)) + of_bytes
        assert len(found) < 256
        self.out += bytes([len(found)]) + b"".join(found)
        self.words, self.bytes = list(words), bytearray(data)

    def tables(self, w, words=(), tape=None, picture=None, other=None):
        """The tables with a world in them, and other words by their places."""
        new, data = list(self.words), bytearray(self.bytes)
        values = dict(words)
        if w.record is not None:
            values.update(enumerate(record_words(w.record)))
        assert len(w.ring) <= RING and len(w.cells) <= TABLE - CELLS
        values.update({36: len(w.ring), 37: len(w.cells)})
        values.update((CELLS + i, c) for i, c in enumerate(w.cells))
        data[: len(w.ring)] = w.ring
        if tape is not None:
            assert len(tape) <= PICTURE - TAPE
            values[38] = len(tape)
            data[TAPE : TAPE + len(tape)] = tape
        if picture is not None:
            values[40] = len(picture)
            data[PICTURE : PICTURE + len(picture)] = picture
        if other is not None:
            values[106] = len(other)
            data[OTHER : OTHER + len(other)] = other
        for at, v in values.items():
            new[at] = v
        assert len(data) == BYTES and len(new) == WORDS
        return new, data

    def entry(self, call, given, left, refusal):
        self.out += bytes([CALLS.index(call) + 1])
        self.change(*given)
        self.change(*left)
        self.calls += 1
        self.answers[call, refusal] = self.answers.get((call, refusal), 0) + 1

    def close(self, title):
        self.out += bytes([255, len(title)]) + title.encode()
        self.parts.append((title, self.calls - sum(part[1] for part in self.parts), len(self.out) - sum(part[2] for part in self.parts)))

    # ---- the calls

    def chosen(self, width, height, s, ranges, reserved):
        """The words of what a setup chooses."""
        return [(0, width), (1, height), (2, s + 256 * reserved)] + list(enumerate(bounds_words(ranges), 28))

    def needed(self, call, words, refusal, need):
        """A call that is lent no memory and answers a ring's bytes."""
        nothing = model.World(None, b"", [])
        self.answer(call, self.tables(nothing, words), nothing, [(41, refusal)] + ([] if refusal else [(105, need)]), refusal)
        return refusal, need

    def least_ring(self, width, height, s, ranges, reserved=0):
        return self.needed("least_ring", self.chosen(width, height, s, ranges, reserved), *model.least_ring(width, height, s, ranges))

    def enough_ring(self, width, height, s, ranges, steps, reserved=0):
        words = self.chosen(width, height, s, ranges, reserved) + [(39, steps)]
        return self.needed("enough_ring", words, *model.enough_ring(width, height, s, ranges, steps))

    def setup(self, width, height, s, ranges, ring, cells, reserved=0):
        got = model.setup(width, height, s, ranges, ring, cells)
        return self.started("setup", got, self.chosen(width, height, s, ranges, reserved), ring, cells)

    def started(self, call, got, words, ring, cells, after=()):
        """A setup that is given some words, and leaves some after it."""
        start = model.World(None, bytes(ring), list(cells))
        given = self.tables(start, words)
        refusal = got if isinstance(got, int) else 0
        self.world = start if refusal else got
        return self.answer(call, given, self.world, [(41, refusal), *after], refusal)

    def setup_with_table(self, width, height, s, ranges, ring, cells, table, reserved=0):
        got, self.table = counted.setup(width, height, s, ranges, ring, cells, list(table))
        words = self.chosen(width, height, s, ranges, reserved) + table_words(table)
        return self.started("setup_with_table", got, words, ring, cells, table_words(self.table))

    def answer(self, call, given, world, words, refusal, place=0, data=b""):
        """Writes a call down that leaves a world, some words and some bytes from a place on, from the tables that it is given."""
        kept, (self.words, self.bytes) = (self.words, self.bytes), given
        left = self.tables(world, words)
        left[1][place : place + len(data)] = data
        self.words, self.bytes = kept
        self.entry(call, given, left, refusal)
        return refusal

    def children(self):
        refusal, kids, parent = model.children(self.world)
        blocks = kids + [parent] * (4 - len(kids))
        words = [(41, refusal), (52, len(kids))] + list(enumerate((w for b in blocks for w in block_words(b)), 53))
        return self.answer("children", self.tables(self.world), self.world, words, refusal)

    def step(self, verdicts):
        return self.stepped("step", model.step(self.world, verdicts), verdicts)

    def stepped(self, call, got, verdicts, before=(), after=()):
        """A step that is given some words besides the verdicts, and leaves some after it."""
        words = [(41, got.refusal), *after] + ([] if got.refusal else [(42, got.evaluations), (43, got.verdicts)])
        self.answer(call, self.tables(self.world, before, tape=verdicts), got.world, words, got.refusal)
        self.world = got.world
        return got

    def step_with_table(self, verdicts):
        before = table_words(self.table)
        got, self.table = counted.step(self.world, self.table, verdicts)
        return self.stepped("step_with_table", got, verdicts, before, table_words(self.table))

    def run(self, tape, budget):
        return self.ran("run", model.run(self.world, tape, budget), tape, [(39, budget)])

    def ran(self, call, got, tape, before, after=()):
        """A run that is given some words besides the tape, and leaves some after it."""
        words = [(41, got.refusal), *after]
        if not got.refusal:
            words += [(42, got.evaluations), (43, got.verdicts), (44, got.steps), (45, ending_word(got.ending))]
        self.answer(call, self.tables(self.world, before, tape=tape), got.world, words, got.refusal)
        self.world = got.world
        return got

    def run_with_table(self, tape, budget):
        before = [(39, budget)] + table_words(self.table)
        got, self.table = counted.run(self.world, self.table, tape, budget)
        return self.ran("run_with_table", got, tape, before, table_words(self.table))

    def fill_table(self, table):
        """A refusal's number or 0, and the table, which is not the present one's."""
        refusal, left = counted.fill(self.world, list(table))
        given = self.tables(self.world, table_words(table))
        self.answer("fill_table", given, self.world, [(41, refusal)] + table_words(left), refusal)
        return refusal, left

    def explain(self, width, height, s, ranges, ring, cells, tape, steps, column, row, reserved=0):
        """The reason for a pixel, told into words that hold 99 before; the world is afterwards what the finished steps left."""
        got = logged.explain(width, height, s, ranges, ring, cells, tape, steps, column, row)
        words = self.chosen(width, height, s, ranges, reserved) + [(39, steps), (108, column), (109, row)]
        words += [(at, 99) for at in REASON]
        given = self.tables(model.World(None, bytes(ring), list(cells)), words, tape=tape)
        self.answer("explain", given, got.world, [(41, got.refusal)] + (reason_words(got) if got.world.record else []), got.refusal)
        self.world = got.world
        return got

    def picture(self, buffer):
        refusal, left = model.picture(self.world, buffer)
        self.answer("picture", self.tables(self.world, picture=buffer), self.world, [(41, refusal)], refusal, PICTURE, left)
        return refusal, left

    def counts(self):
        refusal, got = model.counts(self.world)
        words = [(41, refusal)] + (list(enumerate(got, 46)) if got else [])
        self.answer("counts", self.tables(self.world), self.world, words, refusal)
        return refusal, got

    def move(self, other):
        """A refusal's number; the world goes on in the other ring unless it is refused."""
        got = model.move(self.world, other)
        left = self.world._replace(record=got.world.record)  # the old ring and the cells stay
        self.answer("move_queue", self.tables(self.world, other=other), left, [(41, got.refusal)], got.refusal, OTHER, other if got.refusal else got.world.ring)
        self.world = got.world
        return got.refusal

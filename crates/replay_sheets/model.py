"""model.py: documents 01 and 02 once more, in Python, from a sheet's bytes to the text that is printed.

It serves make.py (which writes what the program `replay_sheets` replays) and is written from the documents, not from the crates.
Floats are Python's; midpoints are exact fractions rounded once. `expected(sheet)` is the whole program.
"""
import struct
from fractions import Fraction

INF = float("inf")
LARGEST = float.fromhex("0x1.fffffffffffffp+1023")
LINE = (-INF, INF)
TRUE, GIVENUP = 1 << 32, (1 << 32) + 1
NAMES = ("m", "n", "theta", "t")
BITS = {"m": 8, "n": 4, "theta": 2, "t": 1}


class Refused(Exception):
    def __init__(self, number):
        self.number = number


# ---- intervals


def finite(x):
    return x not in (INF, -INF)


def legal(iv, integer):
    a, b = iv
    if not a <= b or a == INF or b == -INF:
        return False
    return not integer or all(not finite(v) or v == int(v) for v in iv)


def put(iv):
    a, b = iv
    return (-0.0 if a == 0 else a, 0.0 if b == 0 else b)


def plus_zero(x):
    return 0.0 if x == 0 else x


def whole(x):
    """Half away from zero."""
    if not finite(x) or abs(x) >= 2.0**52:
        return x
    n = int(abs(Fraction(x)) + Fraction(1, 2))
    return plus_zero(float(n if x > 0 else -n))


def midpoint(iv):
    a, b = iv
    if finite(a) and finite(b):
        return plus_zero(float((Fraction(a) + Fraction(b)) / 2))
    if finite(a):
        return LARGEST
    return -LARGEST if finite(b) else 0.0


def middle(iv, integer):
    return whole(midpoint(iv)) if integer else midpoint(iv)


def cut_point(iv, integer):
    a, b = iv
    if finite(a) and finite(b):
        return middle(iv, integer)
    if finite(a):
        return min(2 * a, LARGEST) if a > 0 else 1.0 if a == 0 else 0.0
    if finite(b):
        return max(2 * b, -LARGEST) if b < 0 else -1.0 if b == 0 else 0.0
    return 0.0


def subdivisible(iv, integer):
    c = middle(iv, integer)
    return c != iv[0] and c != iv[1]


def width_is(iv, n):
    return finite(iv[0]) and finite(iv[1]) and Fraction(iv[1]) - Fraction(iv[0]) == n


def first_cut(iv, integer):
    a, b = iv
    out = [p for p in ((a, a), (a, b), (b, b)) if legal(p, integer)]
    if integer:
        out = [p for p in out if not width_is(p, 1)]
        out = [p for i, p in enumerate(out) if i == 0 or p != out[i - 1]]
    return [put(p) for p in out]


def later_cut(iv, integer):
    a, b = iv
    c = cut_point(iv, integer)
    out = []
    for p in ((a, c), (c, c), (c, b)):
        if integer and width_is(p, 1):
            continue
        if integer and width_is(p, 2) and subdivisible(p, True):
            p = (midpoint(p), midpoint(p))
        out.append(put(p))
    return out


# ---- the queue's bytes: only their number counts here


def small_length(x):
    return 1 + next(z for z in range(8) if x < 1 << 7 * (z + 1))


def code_length(block, last, used):
    n = small_length(block["x"] ^ last["x"]) + 1 + small_length(block["y"] ^ last["y"]) + 1
    return n + sum(2 if block[p] == last[p] else 16 for p in used) + 1


# ---- the engine


class Engine:
    def __init__(self, width, height, uses, ranges):
        if not (1 <= width <= 32768 and 1 <= height <= 32768):
            raise Refused(1)
        if not all(legal(ranges[p], p != "t") for p in ranges):
            raise Refused(3)
        self.width, self.height = width, height
        self.used = [p for p in NAMES if uses & BITS[p]]
        self.dirs = (["xy"] if uses & 48 else []) + self.used
        k = next(k for k in range(16) if 1 << k >= max(width, height))
        root = {"x": 0, "y": 0, "k": k, "dir": 0}
        root.update({p: put(ranges[p]) if p in self.used else LINE for p in NAMES})
        blocks = [root]
        for p in self.used:
            blocks = [dict(b, **{p: q}) for b in blocks for q in first_cut(b[p], p != "t")]
        self.last = {"x": 0, "y": 0, "m": LINE, "n": LINE, "theta": LINE, "t": LINE}
        self.queue, self.bytes, self.taken = [], 0, 0
        for b in blocks:
            self.push(b)
        self.queued = len(blocks)
        self.cells = [self.queued - 1] * (width * height)

    def push(self, b):
        n = code_length(b, self.last, self.used)
        self.queue.append((b, n))
        self.bytes += n
        self.last = b

    def covers(self, b):
        """The cells of a block's pixels."""
        k = b["k"]
        if k > 0:
            xs = range(b["x"] << k, min((b["x"] + 1) << k, self.width))
            ys = range(b["y"] << k, min((b["y"] + 1) << k, self.height))
        else:
            xs = [b["x"] >> -k]
            ys = [b["y"] >> -k]
        return [(self.height - 1 - y) * self.width + x for y in ys for x in xs]

    def children(self, b):
        d = self.dirs[b["dir"]] if self.dirs else None
        if d is None:
            return [b]
        if d != "xy":
            return [dict(b, **{d: q}) for q in later_cut(b[d], d != "t")]
        out = [dict(b, x=2 * b["x"] + i, y=2 * b["y"] + j, k=b["k"] - 1) for j in (0, 1) for i in (0, 1)]
        if b["k"] > 0:
            out = [c for c in out if c["x"] << c["k"] < self.width and c["y"] << c["k"] < self.height]
        return out

    def splits(self, b, d):
        return b["k"] > -32 if d == "xy" else subdivisible(b[d], d != "t")

    def next_direction(self, child, d, count):
        """The direction that an incomplete child is queued with, or None."""
        n = len(self.dirs)
        if n == 0:
            return None
        start = d if count <= (1 if self.dirs[d] == "xy" else 2) else d + 1
        return next(((start + i) % n for i in range(n) if self.splits(child, self.dirs[(start + i) % n])), None)

    def step(self, tape, at):
        """One step on the tape from `at`: the verdict bytes and the evaluations that it took."""
        b, length = self.queue[0]
        cs = self.children(b)
        if len(tape) - at < len(cs):
            raise Refused(4)
        vs = tape[at : at + len(cs)]
        if not all(legal_verdict(v, c["k"]) for v, c in zip(vs, cs)):
            raise Refused(5)
        cells, evals, incomplete = list(self.cells), 0, []
        for v, c in zip(vs, cs):
            covered = self.covers(c)
            if all(cells[i] == TRUE for i in covered):
                continue
            done, cost = judge(v, c["k"])
            evals += cost
            if done == "mark":
                for i in covered:
                    cells[i] = TRUE
            elif done == "incomplete":
                incomplete.append(c)
        new, number = [], self.queued
        for c in incomplete:
            d = self.next_direction(c, b["dir"], len(incomplete))
            if d is None:
                for i in self.covers(b):
                    cells[i] = GIVENUP
                continue
            new.append(dict(c, dir=d))
            for i in self.covers(c):
                if self.taken <= cells[i] < TRUE:
                    cells[i] = number
            number += 1
        if number > 1 << 32:
            raise Refused(7)
        last, more = self.last, 0
        for c in new:
            more += code_length(c, last, self.used)
            last = c
        if self.bytes - length + more > 16384:
            raise Refused(6)
        self.queue.pop(0)
        self.bytes -= length
        for c in new:
            self.push(c)
        self.cells, self.queued, self.taken = cells, number, self.taken + 1
        return len(cs), evals

    def reads(self, cell):
        if cell == TRUE:
            return "#"
        return "?" if cell == GIVENUP or cell >= self.taken else "."


def legal_verdict(v, k):
    if v >> 6 == 3:
        return False
    if k >= 0:
        return v & 63 == 0
    return v & 31 == 0 or (v >> 6 == 1 and v & 32 != 0)


def judge(v, k):
    """What a verdict does to a child that is looked at, and what it costs."""
    result, area, points = v >> 6, v >> 5 & 1, v & 31
    if result == 0:
        return "no", 1
    if result == 2:
        return ("mark", 1) if k >= 0 or area else ("incomplete", 1)
    if points:
        return "mark", 1 + next(p for p in range(1, 6) if points >> (5 - p) & 1)
    return "incomplete", 6 if area else 1


def run(e, tape, budget):
    steps = evals = at = 0
    while True:
        if not e.queue:
            return steps, evals, "limit" if GIVENUP in e.cells else "done"
        if steps == budget:
            return steps, evals, "more"
        try:
            n, cost = e.step(tape, at)
        except Refused as r:
            return steps, evals, "stop %d" % r.number
        steps, evals, at = steps + 1, evals + cost, at + n


# ---- the program


def chart(sheet):
    if len(sheet) > 16384 or len(sheet) < 9 or sheet[4] & 3:
        raise Refused(14)
    width, height = struct.unpack(">HH", sheet[:4])
    uses, budget, at, ranges = sheet[4] >> 2, int.from_bytes(sheet[5:9], "big"), 9, {}
    for p in NAMES:
        if uses & BITS[p]:
            if len(sheet) < at + 16:
                raise Refused(14)
            ranges[p] = struct.unpack(">dd", sheet[at : at + 16])
            at += 16
    if 1 <= width <= 32768 and 1 <= height <= 32768 and width * height > 4096:
        raise Refused(14)
    e = Engine(width, height, uses, ranges)
    steps, evals, ending = run(e, sheet[at:], budget)
    rows = ["".join(e.reads(c) for c in e.cells[y * width : (y + 1) * width]) for y in range(height)]
    text = "".join(rows)
    t, f, u, n = text.count("#"), text.count("."), text.count("?"), width * height
    share = 1000 * (t + f) // n
    lines = ["size %d %d steps %d evals %d %s" % (width, height, steps, evals, ending)]
    lines.append("true %d false %d uncertain %d givenup %d queued %d share %d" % (t, f, u, e.cells.count(GIVENUP), len(e.queue), share))
    return "".join(line + "\n" for line in lines + rows)


def expected(sheet):
    try:
        return chart(sheet)
    except Refused as r:
        return "refused %d\n" % r.number

"""model.py: the engine of documents 01 and 02 on Python's own numbers and exact fractions, with nothing taken from the crates.

Every call answers a new world and changes none. A block is (x, y, level, (m, n, n_theta, t), direction); what is remembered is (x, y, (m, n, n_theta, t)).
"""
import struct
from collections import namedtuple
from fractions import Fraction
from math import floor

INF, NAN = float("inf"), float("nan")
MAX = struct.unpack(">d", bytes.fromhex("7fefffffffffffff"))[0]
LINE = (-INF, INF)
BITS, INTEGER = (8, 4, 2, 1), (True, True, True, False)  # m, n, n_theta, t in a set; whole bounds
TRUE, GIVEN = 1 << 32, (1 << 32) + 1
START = (0, 0, (LINE,) * 4)
BLANK = (0, 0, -48, (LINE,) * 4, 0)

Record = namedtuple("Record", "width height set taken queued len head used front back reserved", defaults=(0,))  # reserved: three bytes behind the set
World = namedtuple("World", "record ring cells")
Stepped = namedtuple("Stepped", "refusal world evaluations verdicts")
Moved = namedtuple("Moved", "refusal world")
Ran = namedtuple("Ran", "refusal world steps evaluations verdicts ending")


# ---- intervals


def legal(p, integer):
    a, b = p
    if not a <= b or a == INF or b == -INF:
        return False
    return not integer or all(abs(v) == INF or v == floor(v) for v in p)


def put(p):
    return (-0.0 if p[0] == 0 else p[0], 0.0 if p[1] == 0 else p[1])


def midpoint(p):
    a, b = p
    if p == LINE:
        return 0.0
    if abs(a) == INF or abs(b) == INF:
        return MAX if b == INF else -MAX
    half = (Fraction(a) + Fraction(b)) / 2
    return half.numerator / half.denominator + 0.0


def whole(x):
    away = floor(abs(Fraction(x)) + Fraction(1, 2))
    return float(away if x >= 0 else -away) + 0.0


def middle(p, integer):
    return whole(midpoint(p)) if integer else midpoint(p)


def cut_point(p, integer):
    a, b = p
    if p == LINE:
        return 0.0
    if a == -INF:
        return max(2 * b, -MAX) if b < 0 else -1.0 if b == 0 else 0.0
    if b == INF:
        return min(2 * a, MAX) if a > 0 else 1.0 if a == 0 else 0.0
    return middle(p, integer)


def subdivisible(p, integer):
    return middle(p, integer) not in p


def width(p):
    return None if INF in (abs(p[0]), abs(p[1])) else Fraction(p[1]) - Fraction(p[0])


def first_cut(p, integer):
    a, b = put(p)
    pieces = [put(q) for q in ((a, a), (a, b), (b, b)) if legal(q, integer)]
    if integer:
        pieces = [q for q in pieces if width(q) != 1]
        pieces = [q for i, q in enumerate(pieces) if i == 0 or q != pieces[i - 1]]
    return pieces


def later_cut(p, integer):
    c = cut_point(p, integer)
    pieces = []
    for q in ((p[0], c), (c, c), (c, p[1])):
        if integer and width(q) == 1:
            continue
        if integer and width(q) == 2 and subdivisible(q, True):
            q = (midpoint(q),) * 2
        pieces.append(put(q))
    return pieces


# ---- the queue's bytes


def small(x, z=None):
    if z is None:
        z = next(z for z in range(8) if x < 1 << 7 * (z + 1))
    return bytes([((2 * x + 1) << z) & 255]) + (x >> (7 - z)).to_bytes(z, "little")


def used_of(s):
    return [i for i in range(4) if s & BITS[i]]


def encode(s, last, b):
    x, y, level, params, direction = b
    k = struct.pack(">b", level)
    out = small(x ^ last[0]) + k + small(y ^ last[1]) + k
    for i in used_of(s):
        out += b"\xff\xff" if params[i] == last[2][i] else struct.pack(">dd", *params[i])
    return out + bytes([direction])


class Short(Exception):
    pass


def decode(s, last, data):
    """The block at the front of some bytes, its two levels, and how many bytes it takes; None where they do not decode."""
    at = 0

    def next_bytes(n):
        nonlocal at
        if len(data) < at + n:
            raise Short
        at += n
        return data[at - n : at]

    def coordinate(before):
        head = next_bytes(1)[0]
        if head == 0:
            raise Short
        z = (head & -head).bit_length() - 1
        x = head >> (z + 1) | int.from_bytes(next_bytes(z), "little") << (7 - z)
        return x ^ before, struct.unpack(">b", next_bytes(1))[0]

    try:
        (x, kx), (y, ky) = coordinate(last[0]), coordinate(last[1])
        params = [LINE] * 4
        for i in used_of(s):
            mark = next_bytes(2)
            params[i] = put(last[2][i]) if mark == b"\xff\xff" else put(struct.unpack(">dd", mark + next_bytes(14)))
        return (x, y, kx, tuple(params), next_bytes(1)[0]), ky, at
    except Short:
        return None


def content(r, ring):
    return bytes(ring[(r.head + i) % r.len] for i in range(r.used))


def stored(r, ring, code):
    ring = bytearray(ring)
    for i, byte in enumerate(code):
        ring[(r.head + r.used + i) % r.len] = byte
    return bytes(ring)


# ---- picture


def directions(s):
    return (["xy"] if s & 48 else []) + used_of(s)


def pixel(i, level):
    return i << level if level >= 0 else i >> -level


def covered(r, b):
    """The places of the cells that a block covers, rows from the top."""
    x, y, level = b[:3]
    side = 1 << max(level, 0)
    px, py = pixel(x, level), pixel(y, level)
    columns = range(px, min(px + side, r.width))
    return [(r.height - 1 - j) * r.width + i for j in range(py, min(py + side, r.height)) for i in columns]


def inside(r, b):
    return pixel(b[0], b[2]) < r.width and pixel(b[1], b[2]) < r.height


def children_of(r, b):
    x, y, level, params, direction = b
    along = directions(r.set)
    if not along:
        return [b]
    d = along[direction]
    if d == "xy":
        halves = [(2 * x + i, 2 * y + j, level - 1, params, direction) for j in (0, 1) for i in (0, 1)]
        return [c for c in halves if level - 1 < 0 or inside(r, c)]
    pieces = later_cut(params[d], INTEGER[d])
    return [(x, y, level, params[:d] + (q,) + params[d + 1 :], direction) for q in pieces]


def can_divide(b, d):
    return b[2] > -32 if d == "xy" else subdivisible(b[3][d], INTEGER[d])


def legal_verdict(v, level):
    if v >> 6 == 3 or (level >= 0 and v & 63):
        return False
    return not v & 31 or (v >> 6 == 1 and bool(v & 32))


# ---- damage


def record_damaged(r, length):
    lasts = (r.front, r.back)
    return (
        not legal_sides(r.width, r.height)
        or r.set > 63
        or r.taken > r.queued
        or r.queued > 1 << 32
        or r.len != length
        or r.head >= length
        or r.used > length
        or (r.used == 0) != (r.taken == r.queued)
        or any(i >= 1 << 47 for l in lasts for i in l[:2])
        or not all(legal(p, whole) for l in lasts for p, whole in zip(l[2], INTEGER))
    )


def front_block(r, ring):
    """The front block and its bytes, or None where it is damaged, cells aside."""
    got = decode(r.set, r.front, content(r, ring))
    if not got:
        return None
    b, ky, count = got
    along = directions(r.set)
    fine = b[2] == ky and -32 <= b[2] <= 15 and inside(r, b) and b[4] < max(len(along), 1)
    fine = fine and not (along and along[b[4]] == "xy" and b[2] == -32)
    return (b, count) if fine and all(legal(b[3][i], INTEGER[i]) for i in used_of(r.set)) else None


# ---- the calls


def first_code(width, height, s, ranges):
    """The codes of the first blocks, their number, and what is remembered of the last."""
    level = next(k for k in range(16) if 1 << k >= max(width, height))
    pieces = [first_cut(ranges[i], INTEGER[i]) if s & BITS[i] else [LINE] for i in range(4)]
    blocks = [(0, 0, level, (m, n, q, t), 0) for m in pieces[0] for n in pieces[1] for q in pieces[2] for t in pieces[3]]
    code, back = b"", START
    for b in blocks:
        code += encode(s, back, b)
        back = (b[0], b[1], b[3])
    return code, len(blocks), back


def legal_sides(width, height):
    return 1 <= width <= 32768 and 1 <= height <= 32768


def legal_ranges(s, ranges):
    return s <= 63 and all(legal(ranges[i], INTEGER[i]) for i in used_of(s))


def least_ring(width, height, s, ranges):
    """A refusal's number or 0, and the bytes that a setup's codes take."""
    if not legal_sides(width, height):
        return 1, None
    if not legal_ranges(s, ranges):
        return 3, None
    return 0, len(first_code(width, height, s, ranges)[0])


def enough_ring(width, height, s, ranges, steps):
    """A refusal's number or 0, and the bytes of a ring with which so many steps find room."""
    refusal, first = least_ring(width, height, s, ranges)
    if refusal:
        return refusal, None
    count = len(used_of(s))
    return 0, first + steps * (50 + 18 * count if count else 27)


def begin(width, height, s, ranges, ring, cells):
    """The world that a setup leaves which is not refused."""
    code, count, back = first_code(width, height, s, ranges)
    record = Record(width, height, s, 0, count, len(ring), 0, len(code), START, back)
    pixels = width * height
    return World(record, code + bytes(ring[len(code) :]), [count - 1] * pixels + list(cells[pixels:]))


def setup(width, height, s, ranges, ring, cells):
    """A refusal's number, or the world that it leaves."""
    if not legal_sides(width, height):
        return 1
    if len(cells) < width * height:
        return 2
    if not legal_ranges(s, ranges):
        return 3
    if len(first_code(width, height, s, ranges)[0]) > len(ring):
        return 6
    return begin(width, height, s, ranges, ring, cells)


def children(w):
    """A refusal's number or 0, the children, and the block that they are of."""
    r = w.record
    if record_damaged(r, len(w.ring)):
        return 8, [], BLANK
    if r.taken == r.queued:
        return 13, [], BLANK
    front = front_block(r, w.ring)
    return (0, children_of(r, front[0]), front[0]) if front else (8, [], BLANK)


def outcomes(r, cells, kids, verdicts):
    """The cells with the children's marks, the evaluations, and the children that are left incomplete."""
    cells, evaluations, incomplete = list(cells), 0, []
    for c, v in zip(kids, verdicts):
        places = covered(r, c)
        if all(cells[i] == TRUE for i in places):
            continue
        points = [p for p in range(5) if v & 16 >> p]
        evaluations += 1
        if v >> 6 == 1 and v & 32:
            evaluations += points[0] + 1 if points else 5
        if points or (v >> 6 == 2 and (c[2] >= 0 or v & 32)):
            for i in places:
                cells[i] = TRUE
        elif v >> 6:
            incomplete.append(c)
    return cells, evaluations, incomplete


def next_direction(r, b, c, count):
    along = directions(r.set)
    if not along:
        return None
    keep = count <= (1 if along[b[4]] == "xy" else 2)
    tried = ((b[4] + (0 if keep else 1) + i) % len(along) for i in range(len(along)))
    return next((d for d in tried if can_divide(c, along[d])), None)


def step(w, verdicts, tape=False):
    r = w.record
    if record_damaged(r, len(w.ring)):
        return Stepped(8, w, 0, 0)
    if len(w.cells) < r.width * r.height:
        return Stepped(2, w, 0, 0)
    if r.taken == r.queued:
        return Stepped(13, w, 0, 0)
    front = front_block(r, w.ring)
    if not front or any(w.cells[i] > GIVEN for i in covered(r, front[0])):
        return Stepped(8, w, 0, 0)
    b, count = front
    kids = children_of(r, b)
    if len(verdicts) < len(kids) or (len(verdicts) > len(kids) and not tape):
        return Stepped(4, w, 0, 0)
    if not all(legal_verdict(v, c[2]) for c, v in zip(kids, verdicts)):
        return Stepped(5, w, 0, 0)
    cells, evaluations, incomplete = outcomes(r, w.cells, kids, verdicts)
    found = [(c, next_direction(r, b, c, len(incomplete))) for c in incomplete]
    fresh = [c[:4] + (d,) for c, d in found if d is not None]
    if r.queued + len(fresh) > 1 << 32:
        return Stepped(7, w, 0, 0)
    back, code = (r.back[0], r.back[1], tuple(put(p) for p in r.back[2])), b""
    for c in fresh:
        code += encode(r.set, back, c)
        back = (c[0], c[1], c[3])
    if r.used - count + len(code) > r.len:
        return Stepped(6, w, 0, 0)
    number = r.queued
    for c, d in found:
        if d is None:
            for i in covered(r, b):
                cells[i] = GIVEN
            continue
        for i in covered(r, c):
            if r.taken <= cells[i] < TRUE:
                cells[i] = number
        number += 1
    left = r._replace(taken=r.taken + 1, queued=number, head=(r.head + count) % r.len, used=r.used - count, front=(b[0], b[1], b[3]), back=back)
    ring = stored(left, w.ring, code)
    return Stepped(0, World(left._replace(used=left.used + len(code)), ring, cells), evaluations, len(kids))


def run(w, tape, budget):
    r = w.record
    if record_damaged(r, len(w.ring)):
        return Ran(8, w, 0, 0, 0, None)
    if len(w.cells) < r.width * r.height:
        return Ran(2, w, 0, 0, 0, None)
    steps = evaluations = at = 0
    while True:
        if w.record.taken == w.record.queued and w.record.used == 0:
            limit = GIVEN in w.cells[: r.width * r.height]
            return Ran(0, w, steps, evaluations, at, "limit" if limit else "done")
        if steps == budget:
            return Ran(0, w, steps, evaluations, at, "more")
        s = step(w, tape[at:], tape=True)
        if s.refusal:
            return Ran(0, w, steps, evaluations, at, s.refusal)
        w, steps, evaluations, at = s.world, steps + 1, evaluations + s.evaluations, at + s.verdicts


def reading(cell, taken):
    return 2 if cell == TRUE else 1 if cell >= taken else 0


def picture(w, buffer):
    """A refusal's number or 0, and the buffer."""
    r, pixels = w.record, w.record.width * w.record.height
    if record_damaged(r, r.len):
        return 8, buffer
    if len(w.cells) < pixels:
        return 2, buffer
    if len(buffer) < pixels:
        return 12, buffer
    if any(c > GIVEN for c in w.cells[:pixels]):
        return 8, buffer
    return 0, bytes(reading(c, r.taken) for c in w.cells[:pixels]) + bytes(buffer[pixels:])


def counts(w):
    """A refusal's number or 0, and trues, falses, uncertain, given up, queued, share."""
    r, pixels = w.record, w.record.width * w.record.height
    if record_damaged(r, r.len):
        return 8, None
    if len(w.cells) < pixels:
        return 2, None
    if any(c > GIVEN for c in w.cells[:pixels]):
        return 8, None
    seen = [reading(c, r.taken) for c in w.cells[:pixels]]
    settled = pixels - seen.count(1)
    share = floor(Fraction(1000 * settled, pixels))
    return 0, (seen.count(2), seen.count(0), seen.count(1), w.cells[:pixels].count(GIVEN), r.queued - r.taken, share)


def move(w, other):
    """The queue's bytes from byte 0 of another ring on."""
    r = w.record
    if record_damaged(r, len(w.ring)):
        return Moved(8, w)
    if not other or len(other) < r.used:
        return Moved(6, w)
    return Moved(0, World(r._replace(len=len(other), head=0), content(r, w.ring) + bytes(other[r.used :]), w.cells))

#!/usr/bin/env python3
"""make.py: writes data/cases and stdout, what the program `replay_blocks` replays and must print.

The queue's bytes are computed here once more, from document 01 and on Python's own numbers, with nothing taken from the
crates. runs.txt has whole runs of the engine with the queue's bytes at each step.

A record of data/cases is a length byte and so many bytes, the rest up to 256 counting as 0:

  byte 0   0 start   1 set, 2..3 ring length, 4..5 head, 6..7 use, 16.. the ring's bytes; both sides remember the starting values
           1 append  1 answer (0 done, 1 no room, 2 not codable, 3 outside), 2..3 use after, 4..5 measured (65535: not codable), 8.. block, 91.. memory
           2 take    1 answer (0 front, 1 damaged, 2 outside), 2..3 head after, 4..5 use after, 8.. block, 91.. memory
           3 compare 16.. the ring's bytes
           4 recall  8.. block that both sides remember
  block    x index 8, x rank 1, y index 8, y rank 1, m n n_theta t 16 each (two f64, lower first), direction 1; all big-endian
  memory   what is remembered once the block is queued, or taken: x index 8, y index 8, m n n_theta t 16 each

Starts and recalls only set up; every other record is compared, and agrees or differs.
"""
import os
import struct
import sys

sys.path.append(os.path.join(os.path.dirname(os.path.abspath(__file__)), ".."))
from lists import bounds, lines_of, next_to, write

INF, NAN = float("inf"), float("nan")
LINE = (-INF, INF)
PARAMETERS = ((2, 8, True), (3, 4, True), (4, 2, True), (5, 1, False))  # place in a block, number in the set, integer
START = (0, 0, LINE, LINE, LINE, LINE)


def block(x=0, y=0, rank=48, yrank=None, m=LINE, n=LINE, theta=LINE, t=LINE, dir=0):
    return ((x, rank), (y, rank if yrank is None else yrank), m, n, theta, t, dir)


# ---- document 01


def small(x):
    """A small number's code: z zeros below a 1 below the low 7 - z bits, then z bytes."""
    z = next(z for z in range(8) if x < 1 << (7 * (z + 1)))
    return longer(x, z)


def longer(x, z):
    return bytes([((2 * x + 1) << z) & 255]) + (x >> (7 - z)).to_bytes(z, "little")


def put(p):
    """A zero below is -0, a zero above +0."""
    return (-0.0 if p[0] == 0 else p[0], 0.0 if p[1] == 0 else p[1])


def legal(p, integer):
    a, b = p
    if not a <= b or a == INF or b == -INF:
        return False
    return not integer or all(v in (INF, -INF) or v == int(v) for v in p)


def as_queued(s, b):
    """The block as the queue keeps it."""
    out = list(b)
    for at, bit, integer in PARAMETERS:
        out[at] = put(b[at]) if s & bit else LINE
    return tuple(out)


def remembered(b):
    return (b[0][0], b[1][0]) + b[2:6]


def encode(s, last, b):
    out = b""
    for axis in (0, 1):
        index, rank = b[axis]
        out += small(index ^ last[axis]) + struct.pack(">b", rank - 48)
    for at, bit, integer in PARAMETERS:
        if s & bit:
            out += b"\xff\xff" if b[at] == last[at] else bounds(b[at])
    return out + bytes([b[6]])


def codable(s, last, b):
    fine = all(i < 1 << 47 and 16 <= r < 64 for i, r in b[:2]) and last[0] < 1 << 47 and last[1] < 1 << 47
    return fine and all(legal(b[at], integer) for at, bit, integer in PARAMETERS if s & bit)


def decode(s, last, data):
    """The block at the front of some bytes and how many it takes, or None."""
    at, place = 0, []
    for axis in (0, 1):
        if at >= len(data) or data[at] == 0:
            return None
        z = (data[at] & -data[at]).bit_length() - 1
        if at + z >= len(data):
            return None
        x = (data[at] >> (z + 1)) | int.from_bytes(data[at + 1 : at + 1 + z], "little") << (7 - z)
        at += z + 1
        if at >= len(data):
            return None
        level = struct.unpack(">b", data[at : at + 1])[0]
        if not -32 <= level <= 15:
            return None
        place.append((last[axis] ^ x, level + 48))
        at += 1
    values = [LINE] * 4
    for k, (where, bit, integer) in enumerate(PARAMETERS):
        if not s & bit:
            continue
        if len(data) < at + 2:
            return None
        if data[at : at + 2] == b"\xff\xff":
            values[k] = put(last[where])
            at += 2
            continue
        if len(data) < at + 16:
            return None
        p = struct.unpack(">dd", data[at : at + 16])
        if not legal(p, integer):
            return None
        values[k] = put(p)
        at += 16
    if at >= len(data):
        return None
    return (place[0], place[1], *values, data[at]), at + 1


# ---- records


def block_bytes(b):
    out = b"".join(struct.pack(">QB", *b[axis]) for axis in (0, 1))
    return out + bounds(*b[2:6]) + bytes([b[6]])


def memory_bytes(last):
    return struct.pack(">QQ", *last[:2]) + bounds(*last[2:])


class Replay:
    """The queue as it should be, writing a record for each thing done to it."""

    def __init__(self):
        self.out, self.records, self.setup = b"", 0, 0

    def write(self, body):
        body = body.rstrip(b"\0") or b"\0"
        assert len(body) < 256
        self.out += bytes([len(body)]) + body
        self.records += 1

    def start(self, s, ring, head=0, used=0):
        self.s, self.ring, self.head, self.used = s, bytearray(ring), head, used
        self.front = self.back = START
        self.setup += 1
        self.write(struct.pack(">BBHHH8x", 0, s, len(ring), head, used) + bytes(ring))

    def recall(self, b):
        self.front = self.back = remembered(b)
        self.setup += 1
        self.write(struct.pack(">B7x", 4) + block_bytes(b))

    def fits(self):
        return self.head < len(self.ring) and self.used <= len(self.ring)

    def append(self, b):
        kept = as_queued(self.s, b)
        can = codable(self.s, self.back, b)
        code = encode(self.s, self.back, kept) if can else b""
        answer = 3 if not self.fits() else 2 if not can else 1 if self.used + len(code) > len(self.ring) else 0
        if answer == 0:
            for byte in code:
                self.ring[(self.head + self.used) % len(self.ring)] = byte
                self.used += 1
            self.back = remembered(kept)
        head = struct.pack(">BBHH2x", 1, answer, self.used if answer == 0 else 0, len(code) if can else 65535)
        self.write(head + block_bytes(b) + memory_bytes(remembered(kept)))
        self.compare()
        return answer

    def content(self):
        return bytes(self.ring[(self.head + i) % len(self.ring)] for i in range(self.used))

    def take(self):
        got = decode(self.s, self.front, self.content()) if self.fits() else None
        answer = 0 if got else 1 if self.fits() else 2
        b, count = got or (block(rank=0), 0)
        if got:
            self.head, self.used = (self.head + count) % len(self.ring), self.used - count
            self.front = remembered(b)
        head = struct.pack(">BBHH2x", 2, answer, self.head if got else 0, self.used if got else 0)
        self.write(head + (block_bytes(b) + memory_bytes(remembered(b)) if got else b""))
        return got and b

    def compare(self):
        self.write(struct.pack(">B15x", 3) + bytes(self.ring))


# ---- cases

WHOLE = ((0.0, 3.0), (-7.0, -0.0), (-INF, 4.0), (2.0, 2.0), (-1e300, INF), (0.0, 9007199254740992.0))
REAL = ((0.3, 0.4), (-0.0, 0.0), (5e-324, 1e-300), (-INF, 0.5), (1.5, 1.5), (-2.5, INF))


def blocks_of(s):
    """Blocks of a set: indices near and far, both ends of the levels, parameters that repeat and change."""
    yield block(dir=0)
    yield block(x=1, y=2, rank=47, m=WHOLE[0], n=WHOLE[1], theta=WHOLE[2], t=REAL[0], dir=1)
    yield block(x=1, y=2, rank=47, m=WHOLE[0], n=WHOLE[1], theta=WHOLE[2], t=REAL[0], dir=1)
    yield block(x=300, y=77777, rank=16, yrank=63, m=WHOLE[0], n=WHOLE[3], theta=WHOLE[2], t=REAL[1], dir=255)
    yield block(x=2**47 - 1, y=2**40, rank=63, yrank=16, m=WHOLE[4], n=WHOLE[3], theta=WHOLE[5], t=REAL[2], dir=7)


def every_set(r):
    for s in range(64):
        r.start(s, bytes(173), head=s, used=0)
        for b in blocks_of(s):
            r.append(b)
            if r.used > 90:
                r.take()
        while r.used:
            assert r.take()
        r.take()


def wraps(r):
    """A long code and a short one from every offset of a ring that they fill, then one byte too few."""
    first = block(x=2**46 + 5, y=2**45 + 3, rank=20, m=WHOLE[0], n=WHOLE[1], theta=WHOLE[2], t=REAL[0], dir=3)
    second = block(x=2**46 + 4, y=2**45 + 3, rank=20, m=WHOLE[0], n=WHOLE[1], theta=WHOLE[2], t=REAL[3], dir=4)
    n = len(encode(15, START, first)) + len(encode(15, remembered(first), second))
    for head in range(n):
        r.start(63, bytes(range(n)), head=head)
        assert r.append(first) == 0 and r.append(second) == 0 and r.used == n
        assert r.append(second) == 1
        assert r.take() == first
        assert r.append(second) == 0
        assert r.take() == second
    for head in range(n - 1):
        r.start(63, bytes(range(n - 1)), head=head)
        assert r.append(first) == 0 and r.append(second) == 1


def tight(r):
    """Five to twelve bytes, filled to the last, taken and filled again."""
    for n in range(5, 13):
        for head in range(n):
            r.start(48, bytes([170] * n), head=head)
            for i in (1, 200, 3, 2**20, 5, 70):
                r.append(block(x=i, y=i ^ 1, rank=40 + i % 9, dir=i % 3))
                if i % 2:
                    r.take()
            while r.used:
                assert r.take()


def long_codes(r):
    """Small numbers in more bytes than they need."""
    for s in (48, 63):
        for z in range(8):
            for y in range(8):
                for x in (0, 1, 127):
                    tail = b"\xff\xff" * (4 if s == 63 else 0) + b"\x02"
                    code = longer(x, z) + b"\xe0" + longer(x ^ 1, y) + b"\x0f" + tail
                    n = len(code) + 3
                    head = (z * 5 + y) % n
                    ring = bytearray(n)
                    for i, byte in enumerate(code):
                        ring[(head + i) % n] = byte
                    r.start(s, ring, head=head, used=len(code))
                    assert r.take()


def damaged(r):
    good = block(x=99, y=2**30, rank=50, m=WHOLE[0], n=WHOLE[1], theta=WHOLE[2], t=REAL[0], dir=3)
    code = encode(63, START, good)
    for used in range(len(code)):  # ends early, though the ring goes on with the right bytes
        r.start(63, code, used=used)
        assert not r.take()
    for value in range(256):  # every level byte, of x and of y
        r.start(48, bytes([3, value, 5, 16 * (value % 2), 9]), used=5)
        r.take()
        r.start(48, bytes([3, 0, 5, value, 9]), used=5)
        r.take()
    for head in (0, 0x80, 0x40):  # head byte 0, tails that end early
        r.start(48, bytes([head, 1, 1, 1, 1]), used=5)
        assert not r.take()
        r.start(48, bytes([1, 1, head, 1, 1]), used=5)
        assert not r.take()
    bad = [(NAN, 1.0), (1.0, NAN), (2.0, 1.0), (INF, INF), (-INF, -INF), (0.5, 1.0), (0.0, 1.5), (1.0, -INF), (INF, 1.0)]
    nans = [bytes.fromhex(digits) for digits in ("fff8000000000000", "fffeffffffffffff", "fff0000000000001")]
    words = [bounds(p) for p in bad + [(nans[0], 1.0), (nans[1], 1.0), (1.0, nans[2])]]
    for bit in (8, 4, 2, 1):
        for word in words:
            r.start(bit, bytes([1, 0, 1, 0]) + word + b"\0", used=21)
            r.take()
        r.start(bit, bytes([1, 0, 1, 0, 255, 254]) + bytes(14) + b"\0", used=21)
        assert not r.take()
        r.start(bit, bytes([1, 0, 1, 0, 255]), used=5)
        assert not r.take()
    for head, used in ((5, 5), (6, 0), (0, 6), (4, 6), (5, 0), (65535, 65535)):
        r.start(48, bytes(5), head=head, used=used)
        r.take()
        r.append(block())
    r.start(48, b"", head=0, used=0)
    r.take()
    r.append(block())


def zeros(r):
    """Zeros of either sign, going in and coming out, and remembered."""
    signs = [(0.0, 0.0), (-0.0, -0.0), (0.0, -0.0), (-0.0, 0.0), (0.0, 1.0), (-1.0, -0.0)]
    for s in (8, 1, 15):
        r.start(s, bytes([99] * 150), head=100)
        for p in signs:
            while r.used > 70:
                assert r.take()
            assert r.append(block(m=p, n=p, theta=p, t=p)) == 0
        while r.used:
            assert r.take()
        for p in signs:  # remembered with a zero that is not put, and then read by FF FF
            code = bytes([1, 0, 1, 0]) + b"\xff\xff" * bin(s).count("1") + b"\0"
            r.start(s, code, used=len(code))
            r.recall(block(x=5, y=6, m=p, n=p, theta=p, t=p))
            assert r.take()
            r.start(s, bytes(100))
            r.recall(block(m=p, n=p, theta=p, t=p))
            assert r.append(block(m=(0.0, p[1]), n=(p[0], 0.0), theta=p, t=(-0.0, 0.0))) == 0
            assert r.take()


def spelled_out(r):
    """Sixteen bytes that repeat the remembered parameter are read all the same."""
    for p in (WHOLE[0], WHOLE[2], LINE):
        r.start(9, bytes([1, 0, 1, 0]) + bounds(p, p) + b"\1", used=37)
        r.recall(block(m=p, t=p))
        assert r.take()


def illegal_memory(r):
    """FF FF over a remembered interval that no block has is read as a block all the same."""
    for p in ((2.0, 1.0), (0.5, 0.25), (INF, INF)):
        r.start(9, bytes([1, 0, 1, 0, 255, 255, 255, 255, 1]), used=9)
        r.recall(block(m=p, t=p))
        assert r.take()


def refused(r):
    r.start(63, bytes(90))
    for b in (
        block(x=2**47), block(y=2**47), block(x=2**63), block(rank=15), block(rank=64), block(yrank=0), block(yrank=255),
        block(m=(0.5, 1.0)), block(n=(0.0, 0.25)), block(theta=(NAN, 1.0)), block(t=(1.0, 0.0)),
        block(t=(INF, INF)), block(m=(-INF, -INF)), block(t=(NAN, NAN)),
    ):
        assert r.append(b) == 2
    for s in (48, 0):  # an unused parameter may be anything, and comes out as the whole line
        r.start(s, bytes(90))
        assert r.append(block(m=(0.5, 1.0), n=(NAN, 0.0), theta=(3.0, 1.0), t=(INF, INF), dir=9)) == 0
        assert r.take()
    for x in (2**47, 2**56, 2**64 - 1):  # remembered indices that no block has
        r.start(48, bytes(90))
        r.recall(block(x=x))
        assert r.append(block()) == 2
        r.start(48, bytes(90))
        r.recall(block(y=x))
        assert r.append(block()) == 2
        r.start(48, bytes([3, 0, 1, 0, 0]), used=5)
        r.recall(block(x=x, y=x))
        assert r.take()


def runs_of(lines):
    """The set of each run, and (taken, queued, bytes) at each step."""
    found = []
    for line in lines:
        words = line.split("#")[0].split()
        if len(words) == 2:
            found.append((int(words[1]), []))
        elif words:
            found[-1][1].append((int(words[0]), int(words[1]), bytes.fromhex(words[2].strip("-"))))
    return found


def runs(r):
    for s, states in runs_of(lines_of(next_to(__file__, "runs.txt"))):
        r.start(s, bytes([85] * 190), head=150)
        done = taken = 0
        for was_taken, queued, data in states:
            while taken < was_taken:
                assert r.take()
                taken += 1
            pending, memory = data, r.front
            fresh = []
            for number in range(taken, queued):
                b, count = decode(s, memory, pending)
                memory, pending = remembered(b), pending[count:]
                if number >= done:
                    fresh.append(b)
            assert pending == b""
            for b in fresh:
                assert r.append(b) == 0
            done = queued
            assert r.content() == data, (s, r.content().hex(), data.hex())
        while r.used:
            assert r.take()


def main():
    r = Replay()
    for part in (every_set, wraps, tight, long_codes, damaged, zeros, spelled_out, illegal_memory, refused, runs):
        before = r.records
        part(r)
        print(part.__name__, r.records - before)
    print(r.records, "records,", len(r.out), "bytes")
    write(__file__, "data/cases", r.out, f"records that agree: {r.records - r.setup}\nrecords that differ: 0\nrecords that set up: {r.setup}\n")


main()

"""worlds.py: worlds (record, ring, cells) from a setup, put together by hand or read from a recorded line, and ways to look at them."""
import model
from lists import of_digits
from model import INF, LINE, NAN, START, Record, World

TOP = 1 << 32
LINES = (LINE,) * 4
RANGES = ((0.0, 6.0), (-INF, 3.0), (-2.0, INF), (0.25, 0.75))


def world(width, height, s, blocks, ring=None, head=0, taken=0, front=START, cells=None):
    """A world whose queue holds some blocks, from a place of its ring on."""
    code, back = b"", front
    for b in blocks:
        code += model.encode(s, back, b)
        back = (b[0], b[1], b[3])
    ring = bytearray(ring if ring is not None else b"\xa5" * max(len(code), 40))
    for i, byte in enumerate(code):
        ring[(head + i) % len(ring)] = byte
    record = Record(width, height, s, taken, taken + len(blocks), len(ring), head, len(code), front, back)
    return World(record, bytes(ring), list(cells) if cells is not None else [taken] * (width * height))


def begun(width, height, s, ranges=RANGES, room=None, spare=1):
    """The world that a setup leaves, in a ring that it fills or of some length."""
    big = model.setup(width, height, s, ranges, bytes(3000), [0] * (width * height))
    ring = bytes([0xA5] * (big.record.used if room is None else room))
    return model.setup(width, height, s, ranges, ring, [3] * (width * height + spare))


def numbers(text):
    """The numbers of a text, in which v*n stands for n times v."""
    parts = [(part + "*1").split("*") for part in text.split()]
    return [int(part[0]) for part in parts for _ in range(int(part[1]))]


def intervals(text):
    return tuple(tuple(map(of_digits, p.split(":"))) for p in text.split(","))


def recorded(record, ring, cells):
    """The world of a recorded line."""
    n = record.split()
    width, height, s, taken, queued, length, head, used, bx, by, fx, fy = map(int, n[:12])
    front, back = (fx, fy, intervals(n[13])), (bx, by, intervals(n[12]))
    return World(Record(width, height, s, taken, queued, length, head, used, front, back), bytes.fromhex(ring), numbers(cells))


def with_record(w, **fields):
    return w._replace(record=w.record._replace(**fields))


def with_cell(w, at, value):
    return w._replace(cells=w.cells[:at] + [value] + w.cells[at + 1 :])


def same(a, b):
    return repr(a) == repr(b)  # zeros of either sign differ


def one_unused():
    """For each parameter a set without it, and ranges in which its own may be anything."""
    for i, bit in enumerate(model.BITS):
        yield 63 - bit, [(NAN, -1.0) if j == i else RANGES[j] for j in range(4)]


def look(p, w):
    """Every call that leaves a world as it is."""
    p.world = w
    p.children()
    p.picture(bytes([8] * (w.record.width * w.record.height % 256 + 1)))
    p.counts()


def refused(p, w, verdicts, number):
    p.world = w
    assert p.step(verdicts).refusal == number, (w, verdicts, number)


def finished(p, w, verdicts):
    p.world = w
    got = p.step(verdicts)
    assert got.refusal == 0, (w, verdicts, got.refusal)
    return got

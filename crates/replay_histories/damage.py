"""damage.py: damaged records field by field, damaged blocks byte by byte, refusals of the calls that only look, and what is not damage."""
import struct

import model
from lists import bounds
from model import GIVEN, INF, LINE, MAX, NAN, START, TRUE
from worlds import LINES, RANGES, TOP, begun, finished, look, refused, with_cell, with_record, world

ILLEGAL = ((NAN, 1.0), (1.0, NAN), (NAN, NAN), (2.0, 1.0), (INF, INF), (-INF, -INF), (INF, -INF))
BROKEN = ((0.5, 1.0), (-1.0, 0.25), (-INF, 0.5))


def with_interval(last, i, q):
    return last[:2] + (last[2][:i] + (q,) + last[2][i + 1 :],)


def damaged_fields(r):
    """Changes of a sound record, each by one clause of its damage; the ring's length is seen where a ring is lent."""
    for side in (0, 32769, TOP - 1):
        yield {"width": side}, True
        yield {"height": side}, True
    for s in (64, 128, 255):
        yield {"set": s}, True
    yield {"taken": r.queued + 1}, True
    yield {"taken": TOP * TOP - 1}, True
    yield {"queued": TOP + 1}, True
    yield {"queued": TOP * TOP - 1}, True
    yield {"len": r.len - 1}, False
    yield {"len": r.len + 1}, False
    yield {"len": 0}, True
    yield {"head": r.len}, True
    yield {"head": TOP * TOP - 1}, True
    yield {"used": r.len + 1}, True
    yield {"used": TOP * TOP - 1}, True
    yield {"used": 0}, True
    yield {"taken": r.queued}, True
    for name in ("front", "back"):
        last = getattr(r, name)
        for i in (1 << 47, TOP * TOP - 1):
            yield {name: (i,) + last[1:]}, True
            yield {name: (last[0], i, last[2])}, True
        for i in range(4):
            for q in ILLEGAL + (BROKEN if model.INTEGER[i] else ()):
                yield {name: with_interval(last, i, q)}, True


def records(p):
    """damaged records. Every clause, in every field: 8 from each call, and all as it was."""
    w = world(2, 1, 48, [(0, 0, 1, LINES, 0)], cells=[0, 0, 5])
    for fields, everywhere in damaged_fields(w.record):
        bad = with_record(w, **fields)
        refused(p, bad, b"\0\0", 8)
        assert p.run(b"\0\0", 1).refusal == 8
        look(p, bad)
        assert (model.counts(bad)[0] == 8) == everywhere
    refused(p, with_record(w._replace(ring=b""), len=0), b"\0\0", 8)
    refused(p, w._replace(ring=w.ring + b"\0"), b"\0\0", 8)
    refused(p, w._replace(ring=w.ring[:-1]), b"\0\0", 8)


def sound(p):
    """no damage. What document 01 does not list is accepted."""
    edge = (1 << 47) - 1
    w = world(2, 1, 48, [(0, 0, 1, LINES, 0)], cells=[0, 0, 5])
    for name in ("front", "back"):  # remembered values at the ends of what is legal
        for q in ((-MAX, MAX), (-INF, -MAX), (MAX, INF), (-0.0, 0.0), (0.0, -0.0), (7.0, 7.0), LINE):
            last = (edge, edge, (q,) * 4) if name == "back" else (0, 0, (q,) * 4)
            finished(p, with_record(w, **{name: last}), b"\x40\x40")
            finished(p, with_record(w, **{name: last}), b"\0\x80")
    for cells in ([3, 4], [TOP - 1, 0], [GIVEN, 1], [TRUE, TRUE], [TRUE, GIVEN]):  # numbers past the count, given up, True
        for v in (b"\x40\x40", b"\x80\0", b"\0\0"):
            finished(p, w._replace(cells=cells), v)
            look(p, p.world)
    old = world(2, 2, 48, [(0, 0, 1, LINES, 0)], taken=5, cells=[4, 5, 0, 6])  # numbers of blocks that are gone keep them
    assert finished(p, old, b"\x40" * 4).world.cells == [4, 9, 0, 7]
    look(p, p.world)
    deep = world(1, 1, 48, [(0, 0, 15, LINES, 0)], cells=[0])  # a level above the first
    finished(p, deep, b"\x40")
    for k in (-31, -1, 0, 3):
        place = world(3, 3, 48, [(2 << -k if k < 0 else 0, 0, k, LINES, 0)], cells=[0] * 9)
        p.world = place
        p.children()
        finished(p, place, b"\x40" * len(model.children(place)[1]))
    for z in range(8):  # longer codes than needed, taken as long as they are
        code = model.small(0, z) + b"\1" + model.small(0, 7 - z) + b"\1\0"
        for extra in (0, 3):  # and used bytes beyond the last block
            long = with_record(w._replace(ring=code + b"\xa5" * 20), len=len(code) + 20, used=len(code) + extra)
            p.world = long
            p.children()
            finished(p, long, b"\x40\0")
            p.children()
            p.world = long
            got = p.run(b"\0" * 8, 3)
            assert (got.steps, got.ending) == ((1, 8) if extra else (1, "done"))
    same = model.encode(9, START, (0, 0, 0, LINES, 1))
    spelled = same[:4] + bounds(LINE, LINE) + b"\1"  # a repeat written out
    finished(p, with_record(world(1, 1, 9, [(0, 0, 0, LINES, 1)])._replace(ring=spelled), len=37, used=37), b"\x40\0\0")
    two = with_record(world(2, 1, 48, [(0, 0, 1, LINES, 0)]), queued=2)  # two blocks in the bytes of one, then damaged
    finished(p, two, b"\0\0")
    refused(p, p.world, b"\0\0", 8)
    p.world = two
    assert p.run(b"\0\0\0\0", 5).refusal == 0
    assert p.run(b"", 5).refusal == 8
    far = with_cell(world(4, 1, 48, [(0, 0, 0, LINES, 0)], cells=[0] * 5), 3, GIVEN + 1)  # a damaged cell elsewhere
    finished(p, far, b"\x40\0\0\0")
    finished(p, with_cell(w, 2, TOP * TOP - 1), b"\x40\0")  # and past the pixels
    look(p, p.world)
    for s, dirs in ((0, 1), (8, 1), (9, 2), (48, 1), (63, 5), (16, 1), (33, 2)):  # every direction in use
        for d in range(dirs):
            b = (0, 0, 0, tuple(RANGES[i] if s & model.BITS[i] else LINE for i in range(4)), d)
            p.world = world(2, 2, s, [b], ring=bytes(300), cells=[0] * 4)
            p.children()
            finished(p, p.world, b"\x40" * len(model.children(p.world)[1]))


def damaged_codes():
    """Rings' bytes that are no block of a 3 by 2 picture, with their set."""
    good = model.encode(63, START, (300, 5, -8, RANGES, 2))
    for n in range(len(good)):  # ends early
        yield 63, good[:n]
    for value in list(range(16, 224)) + [255, 0]:  # levels outside -32..15, and levels that differ
        if value >= 16 and value < 224:
            yield 48, bytes([1, value, 1, value, 0])
        yield 48, bytes([1, value, 1, 1, 0])
        yield 48, bytes([1, 1, 1, value, 0])
    for head in (0, 0x80, 0x40):
        yield 48, bytes([head, 1, 1, 1, 1])
        yield 48, bytes([1, 1, head, 1, 1])
    for level in (-32, -31, -1, 0, 1, 2, 15):  # outside the picture, up to the largest index that decodes
        places = (3 << -level, 2 << -level) if level < 0 else (-(-3 >> level) if level else 3, -(-2 >> level) if level else 2)
        k = struct.pack(">b", level)
        direction = b"\1" if level == -32 else b"\0"
        tail = b"\xff\xff" + direction
        for x, y in ((places[0], 0), (0, places[1]), (places[0], places[1]), (1 << 47, 0), (0, 1 << 47), ((1 << 56) - 1, 0), (0, (1 << 56) - 1)):
            if x or y:
                yield 49, model.small(x) + k + model.small(y) + k + tail
    for s in (0, 8, 48, 49, 63):  # directions that are not in use
        n = max(len(model.directions(s)), 1)
        for d in (n, n + 1, 128, 255):
            yield s, model.encode(s, START, (0, 0, 0, LINES, d))
    yield 48, bytes([1, 0xE0, 1, 0xE0, 0])  # xy at level -32
    for i in range(4):  # parameters
        for q in ILLEGAL + (BROKEN if model.INTEGER[i] else ()):
            yield model.BITS[i], bytes([1, 0, 1, 0]) + bounds(q) + b"\0"
        for word in ("fff8000000000000", "fffeffffffffffff", "7ff0000000000001", "fff0000000000001"):
            nan = bytes.fromhex(word)
            yield model.BITS[i], bytes([1, 0, 1, 0]) + bounds((nan, 1.0)) + b"\0"
            yield model.BITS[i], bytes([1, 0, 1, 0]) + bounds((1.0, nan)) + b"\0"


def blocks(p):
    """damaged blocks. Every clause, by the ring's bytes: 8 from children, step and run."""
    for n, (s, code) in enumerate(damaged_codes()):
        if not code:
            continue
        ring = code + b"\1" * 4  # what follows is not read
        w = with_record(world(3, 2, s, [(0, 0, 2, LINES, 0)], ring=bytes(200), cells=[0] * 6)._replace(ring=ring), len=len(ring), used=len(code))
        p.world = w
        assert p.children() == 8, (s, code.hex())
        refused(p, w, b"\0" * (n % 5), 8)
        if n % 8 == 0:
            assert p.run(b"\0\0\0\0", 2).ending == 8
    w = world(5, 5, 48, [(1, 0, 1, LINES, 0)], cells=[0] * 26)  # a covered cell, and one that is not
    seen = model.covered(w.record, (1, 0, 1, LINES, 0))
    for at in range(26):
        bad = with_cell(w, at, GIVEN + 1 if at % 2 else TOP * TOP - 1)
        if at in seen:
            refused(p, bad, b"\x40\0\0\0", 8)
            assert p.run(b"\x40\0\0\0", 1).ending == 8
        else:
            finished(p, bad, b"\x40\0\0\0")
        look(p, bad)


def views(p):
    """picture and counts. 8, 2, 12, 8 in this order; nothing written when refused, and what lies beyond the pixels stays."""
    full = begun(3, 2, 48, spare=4)
    for cells in ([0] * 10, [TRUE, GIVEN, 0, 1, TOP - 1, 2] + [7] * 4, [TRUE] * 6 + [GIVEN] * 4, [GIVEN] * 6 + [TRUE] * 4):
        for taken, queued in ((0, 1), (1, 2), (2, 9), (TOP - 1, TOP)):
            p.world = with_record(full, taken=taken, queued=queued)._replace(cells=cells)
            for n in (6, 7, 20):
                assert p.picture(bytes(range(100, 100 + n)))[0] == 0
            assert p.counts()[0] == 0
    faults = [
        (8, lambda w, n: (with_record(w, height=0), n)),
        (2, lambda w, n: (w._replace(cells=w.cells[:5]), n)),
        (12, lambda w, n: (w, 5)),
        (8, lambda w, n: (with_cell(w, 4, GIVEN + 1), n)),
    ]
    for i, fault in enumerate(faults):
        for later in [[]] + [[f] for f in faults[i + 1 :]] + [faults[i + 1 :]]:
            w, n = full, 6
            for number, change in [*reversed(later), fault]:
                w, n = change(w, n)
            p.world = w
            assert p.picture(b"\xaa" * n)[0] == fault[0]
            assert p.counts()[0] == (fault[0] if i != 2 else later[-1][0] if later else 0)
    p.world = full
    assert p.picture(b"")[0] == 12
    for settled in range(17):  # shares, rounded down
        w = with_record(begun(16, 1, 48), taken=1, queued=1, used=0)._replace(cells=[0] * settled + [1] * (16 - settled))
        p.world = w
        assert p.counts()[1][5] == 1000 * settled // 16
    for width, height in ((3, 1), (7, 1), (7, 3), (13, 11)):
        n = width * height
        for settled in (1, n // 2, n - 1):
            p.world = with_record(begun(width, height, 48), taken=1, queued=2)._replace(cells=[TRUE] * settled + [1] * (n - settled))
            assert p.counts()[0] == 0


def unused(p):
    """an unused n_theta. A setup does not look at its range; children have the whole line; a remembered one that is illegal is damage of the record."""
    for s in (61, 60, 57, 53, 49, 48, 13, 9, 4, 1, 0):
        ranges = [q if s & bit else (NAN, -1.0) for q, bit in zip(RANGES, model.BITS)]
        assert p.setup(2, 1, s, ranges, bytes(p.bytes[:600]), [0] * 2) == 0
        assert p.children() == 0 and all(b[3][2] == LINE for b in model.children(p.world)[1])
        w, kids = p.world, len(model.children(p.world)[1])
        for name in ("front", "back"):
            for q in ILLEGAL + BROKEN:
                bad = with_record(w, **{name: with_interval(getattr(w.record, name), 2, q)})
                p.world = bad
                assert p.children() == 8
                p.world = with_record(bad, taken=w.record.queued, used=0)  # before the empty queue's 13
                assert p.children() == 8
                if q == ILLEGAL[3]:
                    refused(p, bad, b"\0" * kids, 8)
                    assert p.run(b"", 0).refusal == 8
                    look(p, bad)
            p.world = with_record(w, **{name: with_interval(getattr(w.record, name), 2, (-5.0, 6.0))})
            assert p.children() == 0 and all(b[3][2] == LINE for b in model.children(p.world)[1])
            finished(p, p.world, b"\x40" * kids)
            assert p.world.record.front[2][2] == LINE


def reserved(p):
    """reserved bytes. A setup's record has 0 there; no call looks at them, and a step hands on what it was given."""
    for bytes_ in (1, 255, 1 << 8, 1 << 16, 0x800000, 0x010203, 0xFFFFFF):
        for s in (48, 51, 63):
            need = p.least_ring(2, 2, s, RANGES, bytes_)[1]
            assert p.setup(2, 2, s, RANGES, bytes(p.bytes[: need + 60]), [7] * 5, bytes_) == 0 and p.world.record.reserved == 0
            w = with_record(p.world, reserved=bytes_)
            look(p, w)
            kids = len(model.children(w)[1])
            assert finished(p, w, b"\x40\0\x40\0"[:kids]).world.record.reserved == bytes_
            look(p, p.world)
            p.run(b"\x40\0\0\0" * 2, 2)
            assert p.world.record.reserved == bytes_
            refused(p, w, b"\0" * (kids + 1), 4)
            refused(p, with_record(w, set=64), b"\0" * kids, 8)
            refused(p, with_record(w, taken=w.record.queued, used=0), b"", 13)
            assert p.run(b"", 3).ending == "done"
        assert p.setup(0, 2, 48, RANGES, bytes(9), [0] * 4, bytes_) == 1
        assert p.setup(2, 2, 48, RANGES, bytes(9), [0] * 3, bytes_) == 2
        assert p.setup(2, 2, 64, RANGES, bytes(9), [0] * 4, bytes_) == 3
        assert p.setup(2, 2, 48, RANGES, bytes(4), [0] * 4, bytes_) == 6
        assert p.least_ring(2, 32769, 48, RANGES, bytes_)[0] == 1 and p.least_ring(2, 2, 255, RANGES, bytes_)[0] == 3


PARTS = (records, blocks, sound, views, unused, reserved)

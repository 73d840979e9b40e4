"""explained.py: reasons of pixels: rows that were recorded, worked cases, and every refusal in its order.

explain.tsv is vectors-02/explain.tsv of the files that came with the requests of document 02, as it was given; the
README there says how it is read. The rows of a plane with the floor -32 and the old mode are played; sparing modes,
the floor -48 and strips are not there yet. What must come out is logged.py's answer, which reads the reason off a log
of events, and it is held against every row that is played.
"""
from collections import Counter

from cases import setup_faults, with_faults
from lists import bits
from logged import FALSITY, GIVENUP, TRUTH, WAITING
from model import LINE
from tiles import rows_of
from worlds import LINES, TOP, begun, intervals, numbers

# ---- rows that were recorded

REASONS = {"": 0, "true": TRUTH, "false": FALSITY, "givenup": GIVENUP, "waiting": WAITING}


def block_text(b):
    """A block as the rows have it."""
    bounds = ",".join(":".join(f"{bits(v):016x}" for v in q) for q in b[3])
    return f"{b[0]} {b[1]} {b[2]} {bounds} {b[4]}"


def row_answer(got):
    """The columns of an answer, empty where nothing is said."""
    kind = got.reason
    moment = (got.step, got.child) if kind in (TRUTH, FALSITY, GIVENUP) else ("", "")
    point = got.point if kind == TRUTH else ""
    waits = (got.number, got.before, block_text(got.block)) if kind == WAITING else ("", "", "")
    return [str(v) for v in (got.refusal, kind, *moment, point, *waits, got.steps if kind else "")]


def recorded(p):
    """The rows of explain.tsv whose choices are there: ring, cells and every column of the answer."""
    rows = rows_of("explain.tsv")
    chosen = [row for row in rows if row[2] == "old -32 plane"]
    for row in chosen:
        assert row[20] == "64"
        width, height, s, ranges = row[1].split()
        memory = b"\xa5" * int(row[7]), [9] * int(row[8]), bytes.fromhex(row[3])
        got = p.explain(int(width), int(height), int(s), intervals(ranges), *memory, *map(int, row[4:7]))
        assert row_answer(got) == [row[9], str(REASONS[row[10]]), *row[11:18]], row
        assert got.world.ring.hex() == row[18] and got.world.cells == numbers(row[19]), row
    return len(chosen), len(rows), len(rows) - len(chosen)


TITLE = "explain, {} of {} rows (the other {} choose sparing, another floor or a strip)"
RECORDED = ((TITLE, recorded),)

# ---- worked cases


def said(got):
    """An answer's refusal, or its reason with what is named."""
    named = {TRUTH: ("step", "child", "point"), WAITING: ("number", "before")}.get(got.reason, ("step", "child"))
    return (got.refusal,) if got.refusal else (got.reason, *(getattr(got, name) for name in named))


def worked(p):
    """worked reasons. 1 by 1, 5 by 3, and 1 by 1 with m from 0 to 8, after every number of steps."""
    deep = b"\x40\0\0\0" * 31 + b"\x40\xa0\0\0"
    with_m = ((0.0, 8.0), LINE, LINE, LINE)
    cases = [((1, 1, 48, LINES, deep), n, 0, 0, (WAITING, n, 0)) for n in (0, 1, 31)]
    cases += [((1, 1, 48, LINES, deep), n, 0, 0, (GIVENUP, 32, 1)) for n in (32, 33, 99, TOP - 1)]
    both, first = (5, 3, 48, LINES, b"\x40\x40"), (5, 3, 48, LINES, b"\x40\0")
    cases += [(both, 1, c, r, (WAITING, 1 + c // 4, c // 4)) for c in (0, 3, 4) for r in (0, 2)]
    cases += [(first, 1, 4, r, (FALSITY, 1, 2)) for r in (0, 2)]
    cases += [(both, 2, 0, 0, (4,)), (first, 1, 5, 0, (18,)), (first, 1, 0, 3, (18,))]
    m = (1, 1, 8, with_m, bytes.fromhex("000000404040800000"))
    reasons = (WAITING, 2, 2), (WAITING, 2, 1), (GIVENUP, 2, 2), (TRUTH, 3, 1, 0), (4,)
    cases += [(m, n, 0, 0, reason) for n, reason in enumerate(reasons)]
    for (width, height, s, ranges, tape), steps, column, row, want in cases:
        memory = b"\xa5" * 90, [9] * (width * height + 1)
        got = p.explain(width, height, s, ranges, *memory, tape, steps, column, row)
        assert said(got) == want, (want, got)


# ---- refusals

OUTSIDE = (3, 0), (0, 2), (3, 2), (TOP - 1, 0), (0, TOP - 1), (TOP - 1, TOP - 1), (2, 2), (4, 1)


def refusals(p):
    """refusals of explain. 1, 2, 3, 6, each for a pixel inside and for one outside, then 18; nothing written."""
    need, answers = begun(3, 2, 63).record.used, Counter()
    for n, fault in enumerate([*setup_faults()] + [(18, {}, 5)] * 4):
        chosen, given = with_faults([fault], cells=6, ring=need)
        ring = bytes([0xC3]) * (need - 1 if given["ring"] == -1 else given["ring"])
        inside = [(1, 1)] if fault[0] != 18 else []
        for column, row in inside + [OUTSIDE[n % 8], OUTSIDE[(n + 4) % 8]]:
            given_pixel = b"\0\x40\x40", n % 3, column, row
            got = p.explain(*chosen, ring, [11] * given["cells"], *given_pixel, reserved=n)
            assert got.refusal == fault[0] and got.world.record is None, (fault, got)
            answers[fault[0], (column, row) == (1, 1)] += 1
    assert all(answers[number, inside] >= 2 for number in (1, 2, 3, 6) for inside in (True, False))
    assert answers[18, False] == 8


PARTS = (worked, refusals)

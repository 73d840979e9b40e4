"""tiles.py: setups, steps and runs that take a table of tile counts beside the picture, and tables that are
filled: rows that were recorded, and every refusal in its order.

tiles.tsv and orders.tsv are vectors-02/tiles.tsv and vectors-02/orders.tsv of the files that came with the
requests of document 02, as they were given; the README there says how they are read. The models are held
against every row that is played. What is made up here is counted.py's answer, which recounts pixel by pixel.
"""
import counted
from cases import beside, setup_faults, step_faults, with_faults
from damage import damaged_fields
from lists import lines_of, next_to
from model import GIVEN, TRUE, World
from worlds import LINES, TOP, begun, intervals, numbers, recorded, same, with_cell, with_record, world

# ---- rows that were recorded


def rows_of(name):
    return [line.split("\t") for line in lines_of(next_to(__file__, name))][1:]


def played(p, call, with_table, *given):
    """A call by its name, with a table or without."""
    return getattr(p, call + "_with_table" if with_table else call)(*given)


def row_played(p, row, table, want):
    """The call of a row, which must answer what the row says, and leave a world and the table that is lent."""
    call, *given = row[1].split()
    lent = table is not None
    if call == "given":
        p.world, p.table = want, table
    elif call == "setup":
        memory = [b"\xa5" * len(want.ring), [9] * len(want.cells)] + ([[7] * len(table)] if lent else [])
        got = played(p, call, lent, *map(int, given[:3]), intervals(given[3]), *memory)
        assert got == int(row[4]), row
    else:
        got = played(p, call, lent, bytes.fromhex(row[3]), *map(int, given))
        assert (got.refusal, got.evaluations) == (int(row[4]), int(row[5])), row
        if row[10]:
            ending = got.ending if isinstance(got.ending, str) else f"stop {got.ending}"
            assert f"{got.steps} {got.evaluations} {got.verdicts} {ending}" == row[10], row
    assert same(p.world, want) and (not lent or p.table == table), row


def row_world(row, codes):
    """What a row shows, its cells by the codes that they have here."""
    w = recorded(*row[6:9]) if row[6] else World(None, bytes.fromhex(row[7]), numbers(row[8]))
    return w._replace(cells=[codes.get(c, c) for c in w.cells])


def tiles(p):
    """Every row of tiles.tsv; before a step the same without a table, after each row a table filled anew."""
    rows = rows_of("tiles.tsv")
    for row in rows:
        if row[1] == "step":
            kept = p.world
            p.step(bytes.fromhex(row[3]))
            p.world = kept
        row_played(p, row, numbers(row[9]), row_world(row, {}))
        if row[6]:
            p.fill_table([n + 5 for n in p.table])
    return (len(rows),)


def has_choices(row):
    """A row of orders.tsv whose choices are there: a plane with the floor -32 and the old mode, and another
    mode or the floor -48 where a setup or a refused step does not show it. 19, 20 and 23 are not there yet;
    while cells have 64 bits, 7 comes at another number of blocks, and so does 8 for that number."""
    mode, floor, shape = row[2].split()
    shown = row[1] == "step" and row[4] == "0"
    here = shape == "plane" and ((mode, floor) == ("old", "-32") or floor in ("-32", "-48") and not shown)
    other_limit = row[4] == "7" or row[6] and TOP - 2 < int(row[6].split()[4]) <= TOP
    return here and row[4] not in ("19", "20", "23") and not other_limit


def orders(p):
    """The cases of orders.tsv that can be played, with a table or without."""
    rows = rows_of("orders.tsv")
    left = {row[0] for row in rows if not has_choices(row)}
    chosen = [row for row in rows if row[0] not in left]
    for row in chosen:
        table = numbers(row[9].replace("-", "")) if row[9] else None
        row_played(p, row, table, row_world(row, {TOP - 2: TRUE, TOP - 1: GIVEN}))
    return len(chosen), len(rows)


RECORDED = (("tiles, {} rows", tiles), ("orders, {} of {} rows", orders))

# ---- made up: refusals


def worked(p):
    """worked tile counts. 20 by 18 pixels in four tiles and two numbers beyond them, by steps and by a run; 17
    with 15 numbers, after 2 and before 13."""
    after = (
        [0, 0, 256, 0, 0, 0, 64, 0, 0, 0, 32, 0, 0, 0, 8, 0, 9, 9],
        [0, 32, 224, 0, 56, 0, 8, 0, 0, 0, 32, 0, 8, 0, 0, 0, 9, 9],
        [0, 256, 0, 0, 56, 0, 8, 0, 0, 32, 0, 0, 8, 0, 0, 0, 9, 9],
    )
    tape = b"\x40\x80\0\x40\0\0\0\0"
    begin, few = (20, 18, 48, LINES, bytes(200)), [7] * 359
    assert p.setup_with_table(*begin, [7] * 362, [9] * 18) == 0 and p.table == after[0]
    first = p.world
    for n in (0, 1):
        assert p.step_with_table(tape[4 * n : 4 * n + 4]).refusal == 0 and p.table == after[n + 1]
        assert p.fill_table([8] * 16 + [9, 9]) == (0, after[n + 1])
    p.world, p.table = first, after[0]
    assert p.run_with_table(tape, 2).ending == "more" and p.table == after[2]
    empty, short_cells = with_record(first, taken=1, used=0), first._replace(cells=few)
    starts = (first, 0, 0), (empty, 0, 13), (short_cells, 2, 0), (with_record(first, head=200), 8, 0)
    for n in (0, 3, 4, 15, 16, 512):
        short = 17 if n < 16 else 0
        assert p.setup_with_table(*begin, [7] * 362, [9] * n) == short
        assert p.setup_with_table(*begin, few, [9] * n) == 2
        for w, before, behind in starts:  # refused before 17, and behind it
            p.world, p.table = w, [9] * n
            assert p.fill_table(p.table)[0] == (before or short)
            assert p.run_with_table(tape, 0).refusal == (before or short)
            assert p.step_with_table(tape[:4]).refusal == (before or short or behind)


def setups(p):
    """refusals of setup with a table. 1, 2, 17, 3, 6 in this order; nothing written."""
    need, faults = begun(3, 2, 63).record.used, list(setup_faults())
    short = [(17, {"table": n}, 2.5) for n in (3, 0)]
    for number, found in beside([f for f in faults if f[2] <= 2] + short + [f for f in faults if f[2] > 2]):
        chosen, given = with_faults(found, cells=6, ring=need, table=5)
        ring = bytes([0xC3]) * (need - 1 if given["ring"] == -1 else given["ring"])
        got = p.setup_with_table(*chosen, ring, [11] * given["cells"], [13] * given["table"])
        assert got == number, found
    for side in (1, 15, 16, 17, 32, 33, 700):  # the least table, and one number less
        least = 4 * -(-side // 16)
        for width, height in ((side, 1), (1, side), (side, 2)):
            for n in (least - 1, least, least + 3):
                chosen = (width, height, 48, LINES, bytes(p.bytes[:9]), [7] * (width * height))
                assert p.setup_with_table(*chosen, list(range(n)), reserved=n) == (17 if n < least else 0)
    for width, height in ((32768, 32768), (32768, 1), (1, 32768)):
        assert p.setup_with_table(width, height, 48, LINES, bytes(p.bytes[:9]), [7] * 1408, [7] * 512) == 2


def table_faults():
    """The faults of a step, with a table beside its world and its verdicts: 17 before 13, and a cell under
    the block. The cell among a step's own faults lies beside the block, in a tile that it touches."""
    for number, change, place in step_faults():
        yield number, lambda w, v, t, change=change: (*change(w, v), t), place
    yield 17, lambda w, v, t: (w, v, t[:7]), 2.5
    yield 17, lambda w, v, t: (w, v, []), 2.5
    yield 8, lambda w, v, t: (with_cell(w, 0, TOP * TOP - 1) if len(w.cells) > 3 else w, v, t), 4


def steps(p):
    """refusals of step and run with a table. 8, 2, 17, 13, 8, 4, 5, 7, 6 in this order; record, memory and
    table as they were."""
    for number, faults in beside(sorted(table_faults(), key=lambda fault: fault[2])):
        w, v, t = world(18, 2, 48, [(0, 0, 1, LINES, 0)], cells=[0] * 38), b"\x40" * 4, [3] * 9
        for fault in reversed(faults):
            w, v, t = fault[1](w, v, t)
        p.world, p.table = w, t
        assert p.step_with_table(v).refusal == number and p.world is w and p.table is t, number
        assert p.run_with_table(v, 1).refusal == (number if faults[0][2] < 3 else 0)
        p.world = w
        p.fill_table(t)
        if len(faults) == 1:
            p.step(v)


def filled(p):
    """refusals of filling a table. 8, 2, 17, 8 for a cell in this order; every clause of a damaged record."""
    full = begun(18, 2, 48, room=40, spare=4)
    faults = [
        (8, lambda w, n: (with_record(w, height=0), n)),
        (2, lambda w, n: (w._replace(cells=w.cells[:35]), n)),
        (17, lambda w, n: (w, 7)),
        (8, lambda w, n: (with_cell(w, 34, GIVEN + 1), n)),
    ]
    for i, fault in enumerate(faults):
        for later in [[]] + [[f] for f in faults[i + 1 :]] + [faults[i + 1 :]]:
            p.world, n = full, 8
            for number, change in [*reversed(later), fault]:
                p.world, n = change(p.world, n)
            assert p.fill_table([6] * n)[0] == fault[0]
    for fields, everywhere in damaged_fields(full.record):
        p.world = with_record(full, **fields)
        assert p.fill_table([6] * 9)[0] == (8 if everywhere else 0)
    for at in range(40):  # a damaged cell, and one past the pixels
        p.world = with_cell(full, at, (GIVEN + 1, TOP * TOP - 1)[at % 2])
        assert p.fill_table([6] * 9)[0] == (8 if at < 36 else 0)


PARTS = (worked, setups, steps, filled)

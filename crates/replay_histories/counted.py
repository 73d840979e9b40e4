"""counted.py: document 02's (iv), tile counts beside the picture, recounted pixel by pixel; with nothing taken
from the crates.

A table has four numbers a tile: True, False, Uncertain, given up (also counted as Uncertain). Tiles have 16 by
16 pixels, fewer at the right and the bottom, and count row by row from the top left. A call answers what the
model's call without a table answers, but for the two refusals that a table brings; and the table afterwards.
"""
import model
from model import GIVEN, TRUE


def tile_count(r):
    return -(-r.width // 16) * -(-r.height // 16)


def tile_at(r, place):
    """The tile of a cell, by its place in the picture."""
    row, column = divmod(place, r.width)
    return row // 16 * -(-r.width // 16) + column // 16


def kinds(cell, taken):
    """The numbers of a tile in which a pixel counts."""
    assert cell <= GIVEN
    if cell == TRUE:
        return [0]
    if cell == GIVEN:
        return [2, 3]
    return [2] if cell >= taken else [1]


def recount(w, tiles=None):
    """The numbers of some tiles, or of all, by their places in a table."""
    r = w.record
    wanted = set(range(tile_count(r))) if tiles is None else tiles
    numbers = {4 * tile + kind: 0 for tile in wanted for kind in range(4)}
    for place in range(r.width * r.height):
        tile = tile_at(r, place)
        if tile in wanted:
            for kind in kinds(w.cells[place], r.taken):
                numbers[4 * tile + kind] += 1
    return numbers


def with_numbers(table, numbers):
    return [numbers.get(i, n) for i, n in enumerate(table)]


def front_tiles(w):
    """The tiles that the front block touches: a pixel that it covers lies in them."""
    block = model.front_block(w.record, w.ring)[0]
    return {tile_at(w.record, place) for place in model.covered(w.record, block)}


def some_damaged(w, tiles):
    r = w.record
    return any(w.cells[place] > GIVEN for place in range(r.width * r.height) if tile_at(r, place) in tiles)


def lent_short(w, table, length):
    """8 for the record, whose ring has a length, 2 or 17; 0 if it is none of them."""
    if model.record_damaged(w.record, length):
        return 8
    if len(w.cells) < w.record.width * w.record.height:
        return 2
    return 17 if len(table) < 4 * tile_count(w.record) else 0


def setup(width, height, s, ranges, ring, cells, table):
    """A refusal's number or the world that it leaves; and the table."""
    got = model.setup(width, height, s, ranges, ring, cells)
    if got not in (1, 2) and len(table) < 4 * tile_count(model.Record(width, height, *[0] * 8)):
        return 17, table
    return (got, table) if isinstance(got, int) else (got, with_numbers(table, recount(got)))


def front_refusal(w, table):
    """What a step is refused by before its verdicts are looked at, or 0."""
    refusal = lent_short(w, table, len(w.ring))
    if refusal:
        return refusal
    if w.record.taken == w.record.queued:
        return 13
    return 8 if not model.front_block(w.record, w.ring) or some_damaged(w, front_tiles(w)) else 0


def step(w, table, verdicts, tape=False):
    refusal = front_refusal(w, table)
    if refusal:
        return model.Stepped(refusal, w, 0, 0), table
    got = model.step(w, verdicts, tape)
    return got, table if got.refusal else with_numbers(table, recount(got.world, front_tiles(w)))


def run(w, table, tape, budget):
    refusal = lent_short(w, table, len(w.ring))
    if refusal:
        return model.Ran(refusal, w, 0, 0, 0, None), table
    steps = evaluations = at = 0
    while True:
        if w.record.taken == w.record.queued and w.record.used == 0:
            limit = GIVEN in w.cells[: w.record.width * w.record.height]
            return model.Ran(0, w, steps, evaluations, at, "limit" if limit else "done"), table
        if steps == budget:
            return model.Ran(0, w, steps, evaluations, at, "more"), table
        got, after = step(w, table, tape[at:], tape=True)
        if got.refusal:
            return model.Ran(0, w, steps, evaluations, at, got.refusal), table
        w, table, steps = got.world, after, steps + 1
        evaluations, at = evaluations + got.evaluations, at + got.verdicts


def fill(w, table):
    """A refusal's number or 0, and the table."""
    refusal = lent_short(w, table, w.record.len)
    if not refusal and some_damaged(w, set(range(tile_count(w.record)))):
        refusal = 8
    return refusal, table if refusal else with_numbers(table, recount(w))

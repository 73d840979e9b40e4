#!/usr/bin/env python3
"""make.py: writes stdin and stdout, the cases that the program `replay_rectangles` paints and what it must print.

The answers are worked out pixel by pixel from document 01's words, with exact fractions; only the place of a pixel in the
buffer, (height - 1 - y) * width + x, is the same formula as the crate's: a block covers a pixel where the stretch from
i*2^k to (i+1)*2^k overlaps the pixel's on both axes, y counts from the bottom, rows are stored from the top. An empty
stretch is put at the side's end.

A case is 56 words of 64 bits, the least significant byte first: width, height, lent cells, 0 for a block or 1 for bounds,
then x index, x rank, y index, y rank (or left, right, top, bottom), what is done (0 mark, 1 name, 2 give up, 3 fill), from, to,
blocks taken, four zeros, and 40 cells."""
import os
import random
import struct
import sys
from fractions import Fraction

sys.path.append(os.path.join(os.path.dirname(os.path.abspath(__file__)), ".."))
from lists import write

TRUE, GIVEN_UP, TOP = 2**32, 2**32 + 1, 2**32 - 1
MARK, NAME, GIVE_UP, FILL = range(4)

def stretch(index, rank, side):
    """The pixels of 0..side-1 that the coordinate overlaps, as a range."""
    width = Fraction(2) ** (rank - 48)
    lo, hi = index * width, (index + 1) * width
    hit = [p for p in range(side) if p < hi and lo < p + 1]
    return (hit[0], hit[-1] + 1) if hit else (side, side)

def meaning(code):
    return "true" if code == TRUE else "given up" if code == GIVEN_UP else "number" if code < TRUE else "damaged"

def reading(code, taken):
    kind = meaning(code)
    if kind == "number":
        return 1 if code >= taken else 0
    return 2 if kind == "true" else 1

def answer(case):
    (w, h, n, mode, a, b, c, d, op, frm, to, taken), cells = case[0], list(case[1])
    if mode == 0:
        left, right = stretch(a, b, w)
        low, high = stretch(c, d, h)
        top, bottom = h - high, h - low
    else:
        left, right, top, bottom = a, b, c, d
    fits = left <= right <= w and top <= bottom <= h and w * h <= n
    held = [row * w + column for row in range(top, bottom) for column in range(left, right)] if fits else []
    before = [cells[i] for i in held]
    yes = lambda t: ("yes" if t else "no") if fits else "outside"
    tally = [sum(reading(x, taken) == k for x in before) for k in (2, 0, 1)] + [sum(x == GIVEN_UP for x in before)]
    painted = fits and not (op in (NAME, FILL) and to > TOP)
    for i in held if painted else []:
        if op == MARK:
            cells[i] = TRUE
        elif op == GIVE_UP:
            cells[i] = GIVEN_UP
        elif op == FILL or meaning(cells[i]) == "number" and cells[i] >= frm:
            cells[i] = to
    lent = cells[:n]
    drawn = "".join(str(reading(x, taken)) for x in lent)
    return "\n".join([
        f"{w}x{h} of {n}: columns {left} {right} rows {top} {bottom}",
        f"all true {yes(all(x == TRUE for x in before))}, given up {yes(GIVEN_UP in before)}, damaged {yes(any(meaning(x) == 'damaged' for x in before))}, "
        + ("counts " + " ".join(map(str, tally)) if fits else "counts outside") + (", painted" if painted else ", kept"),
        "".join(f" {x}" for x in lent),
        "".join(".?#"[reading(x, taken)] for x in lent) + " drawn " + drawn + (" drawn " + drawn if n == 1 else " kept 9")]) + "\n"

def cases():
    rnd = random.Random(1788)
    pool = [0, 1, 4, 5, 6, 7, 9, TOP, TRUE, TRUE, GIVEN_UP]
    def cells(damage=False):
        return [rnd.choice(pool + ([GIVEN_UP + 1, 2**64 - 1] if damage else [])) for _ in range(40)]
    def block(w, h, x, y, op, n=None, frm=5, to=8, taken=5, damage=False, fill=None):
        return ((w, h, w * h if n is None else n, 0, *x, *y, op, frm, to, taken), fill or cells(damage))
    def bounds(w, h, n, l, r, t, b, op, to=8):
        return ((w, h, n, 1, l, r, t, b, op, 5, to, 5), cells())
    # one pixel; one row; one column; a whole picture; clipped right and top; cells beyond the pixels
    for op in range(4):
        yield block(1, 1, (0, 48), (0, 48), op)
        yield block(1, 1, (3, 46), (2, 46), op, n=3)
        yield block(7, 1, (1, 49), (0, 49), op)
        yield block(1, 7, (0, 50), (1, 50), op)
        yield block(7, 5, (0, 51), (0, 51), op, n=40)
        yield block(7, 5, (1, 50), (1, 50), op, n=38)
        yield block(7, 5, (3, 49), (0, 49), op, n=38, damage=True)
        yield block(7, 5, (6, 48), (4, 48), op)
        yield block(7, 5, (6, 48), (0, 48), op)
        yield block(7, 5, (27, 46), (2, 46), op)
    # all True, and all but one
    yield block(4, 2, (0, 50), (0, 50), MARK, fill=[TRUE] * 40)
    yield block(4, 2, (1, 49), (0, 49), MARK, fill=[TRUE] * 3 + [7] + [TRUE] * 36)
    yield block(4, 2, (0, 49), (0, 49), MARK, fill=[TRUE] * 3 + [7] + [TRUE] * 36)
    # the test of naming at its edges
    for frm in (0, 5, 6, TOP, TRUE, 2**64 - 1):
        yield block(7, 5, (0, 51), (0, 51), NAME, n=40, frm=frm, damage=True)
    for to in (0, TOP, TRUE, GIVEN_UP, 2**64 - 1):
        yield block(3, 3, (0, 50), (0, 50), NAME, to=to)
        yield block(3, 3, (0, 50), (0, 50), FILL, to=to)
    # the number taken at its edges
    for taken in (0, 5, 6, TOP, TRUE, GIVEN_UP, 2**64 - 1):
        yield block(7, 5, (0, 51), (0, 51), GIVE_UP, n=40, taken=taken, damage=True)
    # outside, and far outside
    far = [(7, 48), (1, 51), (2, 50), (224, 43), (2**47 - 1, 63), (2**64 - 1, 48), (2**64 - 1, 0), (0, 255), (1, 255), (1, 80), (1, 79)]
    for x in far + [(2**32, 48), (2**32 - 1, 48), (2**63, 49), (0, 64), (0, 80)]:
        yield block(7, 5, x, (0, 51), MARK)
        yield block(5, 7, (0, 51), x, GIVE_UP)
    # bounds that fit, and bounds or cells that do not
    fit, over = [(0, 0, 0, 0), (3, 3, 1, 4), (2, 5, 2, 2), (0, 7, 0, 5), (6, 7, 4, 5)], [(0, 8, 0, 5), (0, 7, 0, 6), (4, 3, 0, 5), (0, 7, 3, 2)]
    for l, r, t, b in fit + over + [(2**63, 2**63, 0, 1)]:
        yield bounds(7, 5, 35, l, r, t, b, MARK)
        yield bounds(7, 5, 34, l, r, t, b, FILL)
    yield bounds(0, 5, 0, 0, 0, 0, 5, MARK)
    yield bounds(7, 0, 0, 0, 7, 0, 0, MARK)
    yield bounds(2**32 - 1, 2**32 - 1, 40, 0, 1, 0, 1, MARK)
    # and many more
    for _ in range(120):
        w, h = rnd.randint(1, 6), rnd.randint(1, 6)
        rank = rnd.choice([16, 32, 45, 46, 47, 48, 48, 49, 49, 50, 51, 63])
        top = Fraction(2) ** (48 - rank)
        x, y = (rnd.randint(0, int(s * top) + 1) for s in (w, h))
        op, n = rnd.randrange(4), min(40, w * h + rnd.choice([0, 0, 0, 1, 4, -1]))
        yield block(w, h, (x, rank), (y, rank), op, n=n, taken=rnd.choice([4, 5, 6, 9]), damage=rnd.random() < 0.2)

def main():
    every = list(cases())
    words = b"".join(struct.pack("<56Q", *head, 0, 0, 0, 0, *cells) for head, cells in every)
    write(__file__, "stdin", words, "".join(map(answer, every)))
    print(len(every), "cases")

if __name__ == "__main__":
    main()

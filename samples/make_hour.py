#!/usr/bin/env python3
"""make_hour.py: writes hour.sheet, the verdicts of one hour at a depot, for the program `chart`.

Left to right are the arrivals, 0 to 480 an hour; bottom to top the crew, 0 to 16. A point is True if the crew clears the
arrivals within the hour:

    c * (42 - c) * wear  >=  a + a * a / 1600        c crew, a arrivals

A worker's output falls as others get in the way; late arrivals cost more. `wear` is 1, but between 240 and 300 arrivals
with a crew of 9 to 11 nobody measured it: there it is anything from 0.7 to 1.3, no block can be decided, and the budget
ends while that patch is still grey.

The evaluator below works on intervals rounded outwards. Which blocks it is asked about is decided by the engine, played
by crates/replay_sheets/model.py.
"""
import math
import os
import sys

HERE = os.path.dirname(os.path.abspath(__file__))
sys.dont_write_bytecode = True
sys.path += [os.path.join(HERE, "..", "crates"), os.path.join(HERE, "..", "crates", "replay_sheets")]
import model  # noqa: E402
from lists import bits, of_bits, sheet  # noqa: E402

WIDTH, HEIGHT, BUDGET = 48, 32, 700
ARRIVALS, CREW = 480.0 / WIDTH, 16.0 / HEIGHT  # of a pixel


# ---- intervals, each operation rounded outwards


def out(lo, hi):
    return math.nextafter(lo, -math.inf), math.nextafter(hi, math.inf)


def add(x, y):
    return out(x[0] + y[0], x[1] + y[1])


def sub(x, y):
    return out(x[0] - y[1], x[1] - y[0])


def mul(x, y):
    products = [a * b for a in x for b in y]
    return out(min(products), max(products))


def surplus(a, c):
    """What the crew clears, less what arrives."""
    meets = a[1] > 240 and a[0] < 300 and c[1] > 9 and c[0] < 11
    wear = (0.7, 1.3) if meets else (1.0, 1.0)
    cleared = mul(mul(c, sub((42.0, 42.0), c)), wear)
    return sub(cleared, mul(a, add((1.0, 1.0), mul(a, out(1 / 1600, 1 / 1600)))))


# ---- verdicts


def simple_fraction(a, b):
    """A number between two positive ones with few bits: those that both share, and one more."""
    x, y = bits(a), bits(b)
    if x == y:
        return a
    keep = 64 - (x ^ y).bit_length() + 1
    return of_bits(y >> (64 - keep) << (64 - keep))


def verdict(child):
    side = 2.0 ** child["k"]
    x, y = child["x"] * side, child["y"] * side
    right, top = min(x + side, WIDTH), min(y + side, HEIGHT)
    a, c = (x * ARRIVALS, right * ARRIVALS), (y * CREW, top * CREW)
    lo, hi = surplus(a, c)
    below = child["k"] < 0
    if hi < 0:
        return 0x00
    if lo >= 0:
        return 0xA0 if below else 0x80
    if not below:
        return 0x40
    middle = (simple_fraction(*a), simple_fraction(*c))
    points = [middle] + [(p, q) for q in c for p in a]
    return 0x60 | sum(16 >> i for i, (p, q) in enumerate(points) if surplus((p, p), (q, q))[0] >= 0)


def main():
    e = model.Engine(WIDTH, HEIGHT, 48, {})
    tape = b""
    for _ in range(BUDGET):
        if not e.queue:
            break
        vs = bytes(verdict(c) for c in e.children(e.queue[0][0]))
        e.step(vs, 0)
        tape += vs
    hour = sheet(WIDTH, HEIGHT, 48, BUDGET, tape=tape)
    open(os.path.join(HERE, "hour.sheet"), "wb").write(hour)
    print(model.expected(hour), end="")
    print(len(hour), "bytes", file=sys.stderr)


if __name__ == "__main__":
    main()

"""An evaluator in full: with 1 to 9 doors open, can a crew serve the arrivals of an hour?

    python3 examples/evaluator/evaluator.py | examples/picture > doors.svg

A door takes 12 trailers an hour and 3 people; two people unload 7 trailers. src/main.rs is the same in Rust. docs/EVALUATOR.md explains both.
"""
import math
import os
import sys

sys.path.insert(0, os.path.join(os.path.dirname(os.path.abspath(__file__)), "..", "..", "bindings", "python"))
from smyrilox import AREA, M, NO, UNDECIDED, X, Y, Chart, Plot, Refused, Setup, found_at, simple_fraction, yes_for  # noqa: E402

WIDTH, HEIGHT = 60, 40  # pixels
ARRIVALS, CREW = 110, 29  # what the right and the upper edge stand for; the left and the lower stand for 0
PLOT = Plot(WIDTH, HEIGHT, left=0, right=ARRIVALS, bottom=0, top=CREW)
DOORS = (1.0, 9.0)
STEPS = 5000  # at most


def down(x):
    return math.nextafter(x, -math.inf)


def up(x):
    return math.nextafter(x, math.inf)


def spare(a, c, m):
    """What is to spare of doors, of people at them and of hands, the least of the three: bounds, rounded outward.
    The mix works if it is not negative. Multiples of m are small whole numbers, and exact."""
    low = min(12 * m[0] - a[1], c[0] - 3 * m[1], down(7 * c[0]) - up(2 * a[1]))
    high = min(12 * m[1] - a[0], c[1] - 3 * m[0], up(7 * c[1]) - down(2 * a[0]))
    return down(low), up(high)


def doors(m):
    """The whole numbers that a block speaks of: those strictly between its ends, which have blocks of their own."""
    return m if m[0] == m[1] else (m[0] + 1, m[1] - 1)


def verdict(block):
    """Judges the outer box, in which every point of the block lies. Without a box nothing is known."""
    try:
        m, box = doors(block.m), PLOT.block_box(block)
    except Refused:
        return UNDECIDED
    low, high = spare(*box.outer, m)
    if high < 0:
        return NO
    if low >= 0:
        return yes_for(block)
    return sampled(box.edges, m) if block.level < 0 else UNDECIDED


def sampled(edges, m):
    """Tries five points of a part of a pixel with one number of doors: a simple one, then the corners from the bottom left.
    A corner lies somewhere in two of the edges' intervals; it counts only if the mix works wherever that is."""
    left, right, bottom, top = edges
    points = [(simple(left, right), simple(bottom, top))] + [(x, y) for y in (bottom, top) for x in (left, right)]
    for place, (a, c) in enumerate(points):
        if spare(a, c, (m[0], m[0]))[0] >= 0:
            return found_at(place)
    return UNDECIDED | AREA


def simple(low, high):
    """A number with few bits that surely lies between two edges; where there is none, all that may lie between them."""
    if low[1] > high[0]:
        return low[0], high[1]
    p = simple_fraction(low[1], high[0])
    return p, p


def main():
    chart = Chart(Setup(WIDTH, HEIGHT, X | Y | M, m=DOORS), steps=STEPS)
    run = chart.refine(verdict, STEPS)
    if run.stop:
        sys.exit(f"evaluator.py: {run.why}")
    n = chart.counts()
    print("title some number of doors, 1 to 9, serves the hour")
    print(f"x 0 {ARRIVALS} arrivals (trailers an hour)\ny 0 {CREW} crew (people)")
    print(f"size {WIDTH} {HEIGHT} steps {run.steps} evals {run.evaluations} {run.ending}")
    print(f"true {n.yes} false {n.no} uncertain {n.uncertain} givenup {n.given_up} queued {n.queued} share {n.share}")
    for row in chart.rows():
        print("".join(".?#"[byte] for byte in row))


if __name__ == "__main__":
    main()

"""A threshold on a pixel's edge: ten pixels from 0 to 1, and the relation a >= 3/10. Judged by boxes, which are rounded outward, then exactly."""
import os
import sys
from fractions import Fraction

sys.path.insert(0, os.path.join(os.path.dirname(os.path.abspath(__file__)), "..", "..", "bindings", "python"))
from smyrilox import AREA, NO, UNDECIDED, X, Chart, Plot, Setup, found_at, yes_for  # noqa: E402

PIXELS, THRESHOLD = 10, Fraction(3, 10)
PLOT = Plot(PIXELS, 1, left=0, right=1, bottom=0, top=1)


def boxed(block):
    """Where the block's left and right edge may stand."""
    edges = PLOT.block_box(block).edges
    return edges.left, edges.right


def exact(block):
    """Where they stand."""
    return [(Fraction(p) / PIXELS,) * 2 for p in block.x.span]


def evaluator(ends):
    def verdict(block):
        left, right = ends(block)
        if right[1] < THRESHOLD:
            return NO
        if left[0] >= THRESHOLD:
            return yes_for(block)
        if block.level >= 0:
            return UNDECIDED
        # the right end is a point of the pixel; its least possible place counts
        return found_at(2) if right[0] >= THRESHOLD else UNDECIDED | AREA

    return verdict


def drawn(ends, steps):
    chart = Chart(Setup(PIXELS, 1, X), steps=steps)
    chart.refine(evaluator(ends), steps)
    return "".join(".?#"[byte] for byte in chart.picture()), chart.queued


if __name__ == "__main__":
    for ends in boxed, exact:
        print(ends.__name__, *drawn(ends, 1000))

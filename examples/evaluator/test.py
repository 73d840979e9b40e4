"""The evaluator's answers and its chart against exact ones; the page's code blocks against the files; the threshold on an edge."""
import contextlib
import io
import os
import random
import sys
from fractions import Fraction

HERE = os.path.dirname(os.path.abspath(__file__))
sys.dont_write_bytecode = True
sys.path.insert(0, HERE)
import edge  # noqa: E402
import evaluator as ev  # noqa: E402
from smyrilox import NO, UNDECIDED, WHOLE, Block, Coordinate  # noqa: E402

LOW, HIGH = (int(end) for end in ev.DOORS)
# the parts of the range of doors: none has width 1
PARTS = [(a, b) for a in range(LOW, HIGH + 1) for b in range(a, HIGH + 1) if b - a != 1]


def works(left, top, doors):
    """Whether a part of the picture with this left and this upper edge, in pixels, holds a mix that works with one of these numbers of doors:
    the fewest arrivals with the largest crew do best, and both edges are the part's own."""
    a, c = Fraction(left) * ev.ARRIVALS / ev.WIDTH, Fraction(top) * ev.CREW / ev.HEIGHT
    return any(a <= 12 * m and c >= 3 * m and 2 * a <= 7 * c for m in doors)


# whether each pixel holds one, by its column and its row from the bottom
PIXEL = {(x, y): works(x, y + 1, range(LOW, HIGH + 1)) for x in range(ev.WIDTH) for y in range(ev.HEIGHT)}


def a_block(chance):
    """A block of any level that begins in the picture, with any part of the range of doors."""
    level = chance.randint(-5, 6)
    x, y = (Coordinate(int(chance.randrange(side) / 2.0**level), level) for side in (ev.WIDTH, ev.HEIGHT))
    a, b = chance.choice(PARTS)
    return Block(x, y, (float(a), float(b)), WHOLE, WHOLE, WHOLE)


def is_right(block, verdict):
    """No: none in the part of the picture, for the doors that the block speaks of. Yes, or a point: one in each pixel that it covers."""
    (x0, x1), (y0, y1), (a, b) = block.x.span, block.y.span, map(int, block.m)
    if verdict == NO:
        return not works(x0, min(y1, ev.HEIGHT), [a] if a == b else range(a + 1, b))
    if verdict == UNDECIDED or verdict & 0xDF == UNDECIDED:
        return True
    columns, rows = range(int(x0), min(max(int(x1), int(x0) + 1), ev.WIDTH)), range(int(y0), min(max(int(y1), int(y0) + 1), ev.HEIGHT))
    return all(PIXEL[x, y] for x in columns for y in rows)


def blocks(page, language):
    """The page's code blocks in a language."""
    parts = page.split("```" + language + "\n")[1:]
    return [part.split("```")[0] for part in parts]


def check(fact, what):
    if not fact:
        sys.exit(f"examples/evaluator: {what}")


def main(other):
    """`other` is what the same evaluator in Rust printed, or nothing."""
    chance, seen = random.Random(19), set()
    for _ in range(4000):
        block = a_block(chance)
        verdict = ev.verdict(block)
        check(verdict.is_legal_for(block), f"{verdict} is not legal for {block}")
        check(is_right(block, verdict), f"{verdict} is wrong for {block}")
        seen.add(int(verdict))
    check({0x00, 0x40, 0x60, 0x80, 0xA0} <= seen and seen & {0x70, 0x68, 0x64, 0x62, 0x61}, f"only the verdicts {seen} were seen")

    with contextlib.redirect_stdout(io.StringIO()) as said:
        ev.main()
    printed = said.getvalue()
    rows = printed.split("\n")[5:-1]
    wanted = ["".join(".#"[PIXEL[x, y]] for x in range(ev.WIDTH)) for y in reversed(range(ev.HEIGHT))]
    check(rows == wanted, "the chart differs from the exact one")
    check(" done" in printed.split("\n")[3], "the chart is not finished")
    check(not other or other == printed, "Rust and Python differ")

    page = open(os.path.join(HERE, "..", "..", "docs", "EVALUATOR.md")).read()
    for language, names in (("python", ("evaluator.py", "edge.py")), ("rust", ("src/main.rs",))):
        files = "".join(open(os.path.join(HERE, name)).read() for name in names)
        check(blocks(page, language), f"the page has no {language}")
        for block in blocks(page, language):
            check(block in files, f"the page quotes what no file has:\n{block}")

    check(edge.drawn(edge.exact, 1000) == ("..########", 0), "exactly judged, the edge is a mix of the pixel before it")
    early, late = edge.drawn(edge.boxed, 100), edge.drawn(edge.boxed, 1000)
    check(early[0] == "..?#######" and late == (early[0], 996) and early[1] < 996, "judged by boxes, that pixel stays grey, and the queue grows")
    print("examples/evaluator: every answer right, every pixel as worked out exactly, every quotation as in its file" + (", Rust as Python" if other else ""))


if __name__ == "__main__":
    main(open(sys.argv[1]).read() if len(sys.argv) > 1 else "")

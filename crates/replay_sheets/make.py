#!/usr/bin/env python3
"""make.py: writes data/sheets and stdout, the sheets that the program `replay_sheets` plays and what it must print.

What a sheet prints is computed by model.py, from documents 01 and 02 alone. The sheets of runs.txt, whole runs with the
lines that they print, and those of share.tsv, whose share would be another to the nearest thousandth, are held against the
model first. src/main.rt says how the file is laid out.
"""
import os
import random
import sys

import model

sys.path.append(os.path.join(os.path.dirname(os.path.abspath(__file__)), ".."))
from lists import lines_of, next_to, sheet, write

NAN = bytes.fromhex("7ff8000000000000")
NAN2 = bytes.fromhex("fff0000000000001")
INF = model.INF


# ---- tapes


def tape_for(width, height, uses, ranges, budget, choose):
    """The tape of a run in which choose(child) gives each verdict, as far as the budget and 8000 bytes go."""
    names = [p for p in model.NAMES if uses & model.BITS[p]]
    try:
        e = model.Engine(width, height, uses, dict(zip(names, ranges)))
    except model.Refused:
        return b""
    tape, steps = b"", 0
    while e.queue and steps < budget and len(tape) < 8000:
        vs = bytes(choose(c) for c in e.children(e.queue[0][0]))
        try:
            e.step(vs, 0)
        except model.Refused:
            return tape + vs
        tape, steps = tape + vs, steps + 1
    return tape


def chance(rng, undecided):
    """Any legal verdict, undecided with the given chance."""

    def choose(c):
        below = c["k"] < 0
        if rng.random() < undecided:
            return rng.choice((0x40, 0x60)) if below else 0x40
        return rng.choice((0x00, 0x20, 0x80, 0xA0, 0x40 | 0x20 | rng.randrange(1, 32)) if below else (0x00, 0x80))

    return choose


def disc(width, height):
    """True inside a disc, false outside, undecided where a square meets its edge; decided by corners below a pixel."""
    r2 = (min(width, height) * 0.4) ** 2

    def choose(c):
        side = 2.0 ** c["k"]
        x0, y0 = c["x"] * side - width / 2, c["y"] * side - height / 2
        x1, y1 = x0 + side, y0 + side
        far = max(x0 * x0, x1 * x1) + max(y0 * y0, y1 * y1)
        near = (0 if x0 <= 0 <= x1 else min(x0 * x0, x1 * x1)) + (0 if y0 <= 0 <= y1 else min(y0 * y0, y1 * y1))
        if near > r2:
            return 0x00
        if far <= r2:
            return 0x80 if c["k"] >= 0 else 0xA0
        return 0x40 if c["k"] >= 0 else 0x60 | (8 if x0 * x0 + y0 * y0 <= r2 else 0)

    return choose


# ---- the sheets


def recorded():
    """The sheets of whole recorded runs, with the lines that they print."""
    lines = lines_of(next_to(__file__, "runs.txt"))
    out = []
    for i, line in enumerate(lines):
        word = line.split()
        if word[:1] == ["sheet"]:
            text = ""
            for l in lines[i + 1 :]:
                if not l.strip().startswith("| "):
                    break
                text += l.split("| ", 1)[1] + "\n"
            out.append((bytes.fromhex(word[1]), text))
    return out


def lengths():
    base = sheet(3, 2, 48, 7, tape=b"\x40\x00\x80")
    out = [base[:n] for n in range(len(base) + 1)]
    full = sheet(2, 2, 63, 0, [(0.0, 4.0), (1.0, 9.0), (-2.0, 2.0), (0.0, 1.0)])
    out += [full[:n] for n in (9, 24, 25, 40, 41, 56, 57, 72, 73)]
    return out + [base + bytes(n - len(base)) for n in (16383, 16384, 16385, 16386)]


def edges():
    """Shares half way between two thousandths; budgets of one bit; one byte too many behind several heads."""
    out = [sheet(4, 4, 48, 2, tape=b"\x40\x40\x40\x40\x00\x40\x40\x40"), sheet(4, 4, 48, 2, tape=b"\x40\x40\x40\x40\x00\x00\x00\x40")]
    out += [sheet(2, 2, 48, 1 << bit, tape=b"\x80\x00\x80\x00") for bit in range(32)]
    return out + [s + bytes(n - len(s)) for s in (sheet(2, 1, 48, 5, tape=b"\x80\x00"), sheet(1, 1, 0, 1, tape=b"\x80")) for n in (16384, 16385)]


def cut_parameters():
    """Every set of parameters, whole, and short by a byte and by a parameter; a bound's bits may be anything then."""
    out = []
    for uses in range(16):
        n = bin(uses).count("1")
        whole = sheet(1, 1, uses, 0, [(0.0, 8.0)] * n)
        out += [whole] + ([whole[:-1], whole[:-16], sheet(1, 1, uses, 0, [(NAN, NAN)] * n)[:-1]] if n else [])
    return out


def sides():
    out = []
    legal, bad = [(0.0, 8.0)], [(8.0, 0.0)]
    for w, h in ((0, 0), (0, 5), (5, 0), (1, 0), (0, 32768), (32769, 1), (1, 32769), (65535, 65535), (32768, 0), (0, 40000)):
        out += [sheet(w, h, 8, 3, legal), sheet(w, h, 8, 3, bad), sheet(w, h, 8, 3, legal, zero=1), sheet(w, h, 8, 3, legal)[:-1]]
    for w, h in ((64, 64), (65, 63), (4096, 1), (1, 4096), (32, 128), (2048, 2)):
        out += [sheet(w, h, 48, 1, tape=b"\x40\x00\x80\x40"), sheet(w, h, 8, 3, bad), sheet(w, h, 0, 1, tape=b"\x80")]
    for w, h in ((65, 64), (4097, 1), (1, 4097), (32768, 1), (1, 32768), (32768, 32768), (64, 65), (241, 17)):
        out += [sheet(w, h, 48, 1, tape=b"\x40"), sheet(w, h, 8, 3, bad), sheet(w, h, 48, 1, zero=2)]
    return out + [sheet(2, 2, 48, 4, tape=b"\x80\x80\x80\x80", zero=z) for z in range(4)]


def intervals():
    """Legal and illegal ranges, zeros of both signs, for each parameter alone."""
    ends = [0.0, -0.0, 1.0, -1.0, 0.5, -2.5, 3.0, 5.0, INF, -INF, NAN, NAN2, 5e-324, -5e-324, model.LARGEST, -model.LARGEST, 2.0**53, 2.0**53 + 2]
    out = []
    for uses in (8, 4, 2, 1):
        for a in ends:
            for b in ends:
                if uses in (8, 1) or (a in ends[:8] and b in ends[6:12]):
                    out.append(sheet(1, 1, uses, 3, [(a, b)], b"\x40\x00\x80\x40\x40\x40\x20"))
    return out


def sets(rng):
    out = []
    for uses in range(64):
        n = bin(uses & 15).count("1")
        for w, h in ((1, 1), (3, 2), (2, 5)):
            ranges = [rng.choice(((0.0, 3.0), (-4.0, 9.0), (2.0, 2.0), (-INF, INF), (0.0, INF), (-INF, -3.0))) for _ in range(n)]
            budget = rng.choice((0, 3, 20, 60))
            tape = tape_for(w, h, uses, ranges, budget + 2, chance(rng, rng.choice((0.3, 0.6, 0.9))))
            out.append(sheet(w, h, uses, budget, ranges, tape))
    return out


def chances(rng, count):
    out = []
    for i in range(count):
        w, h, uses = rng.randrange(1, 13), rng.randrange(1, 13), rng.choice((48, 48, 32, 16, 49, 56, 33, 8, 1, 0, 60))
        n = bin(uses & 15).count("1")
        ranges = [rng.choice(((0.0, 3.0), (-4.0, 9.0), (-0.0, 1.0), (-1.0, INF))) for _ in range(n)]
        tape = bytearray(tape_for(w, h, uses, ranges, 80, chance(rng, rng.choice((0.2, 0.5, 0.8)))))
        how = i % 5
        if how == 1 and tape:
            tape = tape[: rng.randrange(len(tape))]  # ends early: stop 4, unless nothing was left
        if how == 2 and tape:
            tape[rng.randrange(len(tape))] ^= rng.choice((0xC0, 0x01, 0x20, 0x3F))  # often not legal: stop 5
        if how == 3:
            tape += b"\xff\x00\x40"  # more than is taken
        out.append(sheet(w, h, uses, rng.choice((0, 1, 2, 5, 30, 2**32 - 1)), ranges, tape))
    return out


def large(rng):
    out = [sheet(w, h, 48, 2**32 - 1, tape=b"\x40" * n) for w, h, n in ((64, 64, 16000), (1, 1, 16000), (4096, 1, 9000), (1, 4096, 16375), (5, 3, 4000))]
    out.append(sheet(1, 1, 63, 4000, [(-INF, INF)] * 4, b"\x40" * 16300))  # 81 first blocks
    out.append(sheet(2, 2, 15, 4000, [(0.0, 1e6), (0.0, 1e6), (0.0, 1e6), (0.0, 1.0)], b"\x40" * 16300))
    for w, h in ((64, 64), (48, 32), (128, 32), (17, 240)):
        out.append(sheet(w, h, 48, 2**32 - 1, tape=tape_for(w, h, 48, [], 4000, disc(w, h))))
    deep = b"\x40\x00\x00\x00" * 31
    for last in (b"\x40\xa0\x00\x00", b"\xa0\x40\x00\x00", b"\x00\x00\x00\x00", b"\x60\x00\x00\x00", b"\x80\x00\x00\x00", b"\x7f\x00\x00\x00"):
        out.append(sheet(1, 1, 48, 100, tape=deep + last))
    return out


def rounded_down():
    """Sheets of which document 02 changed the printed share, with what they print."""
    rows = [line.split("\t") for line in lines_of(next_to(__file__, "share.tsv"))[1:]]
    return [(bytes.fromhex(digits), text.replace("\\n", "\n")) for digits, text in rows]


def all_but_the_corner(width, height):
    """True where a square does not hold the last pixel of the top row, undecided where it does."""

    def choose(c):
        return 0x40 if (c["x"], c["y"]) == ((width - 1) >> c["k"], (height - 1) >> c["k"]) else 0x80

    return choose


def one_left():
    """All pixels settled but one: it waits, or is given up at the end of a finished chart, and the share is 999; or it is settled too, and it is 1000.
    And two of three."""
    down = b"\x00\x00\x00\x40" * 31
    last = {b"": "stop 4 999", down + b"\x00\x00\x00\x40": "limit 999", down + b"\x00\x00\x00\xa0": "done 1000", bytes(4): "done 1000"}
    out = []
    for width, height in ((64, 64), (50, 40)):
        to_pixel = tape_for(width, height, 48, [], 6, all_but_the_corner(width, height))
        for tape, said in last.items():
            s = sheet(width, height, 48, 2**32 - 1, tape=to_pixel + tape)
            first, counts = model.expected(s).split("\n")[:2]
            assert " ".join(first.split()[7:] + counts.split()[-1:]) == said, (first, counts, said)
            out.append(s)
    return out + [sheet(3, 1, 48, 1, tape=b"\x80\x40")]


def main():
    rng = random.Random(8)
    known, down = recorded(), rounded_down()
    for s, text in known + down:
        assert model.expected(s) == text, s.hex()
    assert len(known) > 10 and len(down) == 17
    cases = [s for s, _ in known] + lengths() + edges() + cut_parameters() + sides() + intervals() + sets(rng) + chances(rng, 240) + large(rng)
    cases += [s for s, _ in down] + one_left()
    texts = [model.expected(s) for s in cases]
    ends = {}
    for t in texts:
        w = t.split("\n")[0].split()
        k = " ".join(w[:2]) if w[0] == "refused" else " ".join(w[7:])
        ends[k] = ends.get(k, 0) + 1
    for k in sorted(ends):
        print("%5d %s" % (ends[k], k))
    data = len(cases).to_bytes(2, "big") + b"".join(len(s).to_bytes(2, "big") + s for s in cases)
    write(__file__, "data/sheets", data, "".join("sheet %d, bytes %d\n%s" % (i + 1, len(t), t) for i, t in enumerate(texts)))
    print(len(cases), "sheets,", len(data), "bytes")


if __name__ == "__main__":
    main()

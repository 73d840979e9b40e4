#!/usr/bin/env python3
"""make.py STORED VECTORS TRACES..: writes stdin and stdout, the list that the program `replay_histories` plays and what it must print.

The answers are those of model.py, documents 01 and 02 once more on Python's own numbers, of counted.py, which recounts tiles pixel by pixel, and of
logged.py, which reads a pixel's reason off a log of events; tables.py has the list's format; cases.py, damage.py, rings.py, rooms.py, moves.py, tiles.py,
tilecounts.py, explained.py and pixels.py make cases up. The files named on the command line were recorded elsewhere: vectors.txt and traces.tsv;
original.tsv, which compare/'s driver wrote (`driver record 20261115 40 8`) while it played the original (document 02 rounds shares down: they were worked
out again, each from its row's own counts); and the stored charts with n_theta, which the library once began. tiles.py reads tiles.tsv and orders.tsv,
explained.py explain.tsv, which were recorded elsewhere too. The models are held against every line of them that is played, so that what is played is what
they have.

    python3 make.py ../../bindings/stored/charts.txt vectors.txt traces.tsv original.tsv
"""
import os
import struct
import sys

sys.path.append(os.path.join(os.path.dirname(os.path.abspath(__file__)), ".."))
import cases
import damage
import explained
import model
import moves
import pixels
import rings
import rooms
import stored
import tilecounts
import tiles
from lists import lines_of, write
from tables import Player
from worlds import intervals, recorded, same

# ---- vectors: a head line, a pair of lines for each step, the ending, a sheet, and what the sheet prints


def ranges_of(sheet, s):
    at, found = 9, [model.LINE] * 4
    for i in model.used_of(s):
        found[i] = struct.unpack(">dd", sheet[at : at + 16])
        at += 16
    return found


def vector(p, lines):
    size, _, s, _, *tape = lines[0].split("|")[-1].split()
    width, height = map(int, size.split("x"))
    s, tape = int(s), bytes.fromhex("".join(tape))
    states = [(l.split(), bytes.fromhex(n.split("#")[1])) for l, n in zip(lines, lines[1:]) if l.startswith("   taken")]
    ending = next(l.split() for l in lines if l.startswith("   end"))
    sheet = bytes.fromhex(next(l.split()[1] for l in lines if l.startswith("   sheet")))
    said = [l[5:] for l in lines if l.startswith("   |")]
    budget = int.from_bytes(sheet[5:9], "big")
    evaluations = at = 0
    for n, (words, queue) in enumerate(states):
        if n == 0:
            assert p.setup(width, height, s, ranges_of(sheet, s), b"\xa5" * 190, [7] * (width * height + 2)) == 0
            first = p.world
        else:
            p.children()
            count = len(model.children(p.world)[1])
            got = p.step(tape[at : at + count])
            assert got.refusal == 0
            evaluations, at = evaluations + got.evaluations, at + got.verdicts
        r = p.world.record
        assert [r.taken, r.queued, evaluations, at, r.used] == [int(v) for v in words[1::2]], words
        assert model.content(r, p.world.ring) == queue
    p.world = first
    got = p.run(tape, budget)
    assert [got.ending, got.steps, got.evaluations, got.verdicts] == [ending[1]] + [int(v) for v in ending[3:8:2]]
    assert (got.world.record.taken, p.world.ring) == (r.taken, got.world.ring)
    seen, numbers = p.picture(bytes([9] * (width * height + 3)))[1], p.counts()[1]
    words = dict(zip(said[1].split()[::2], said[1].split()[1::2]))
    assert list(numbers) == [int(words[k]) for k in ("true", "false", "uncertain", "givenup", "queued", "share")]
    assert [int(v) for v in ending[9:11]] == [numbers[0] + numbers[1], width * height]
    assert ["".join(".?#"[c] for c in seen[j * width : j * width + width]) for j in range(height)] == said[2:]


def vectors(p, path):
    text = lines_of(path)
    heads = [i for i, l in enumerate(text) if l.startswith("##")] + [len(text)]
    for a, e in zip(heads, heads[1:]):
        vector(p, text[a:e])
    return len(heads) - 1


# ---- traces: a line for each call


def trace(p, row):
    want = recorded(*row[5:8])
    if row[1].startswith("setup"):
        _, width, height, s, ranges = row[1].split()
        assert row[3] == "0" and p.setup(int(width), int(height), int(s), intervals(ranges), b"\xa5" * len(want.ring), [5] * (len(want.cells) - 1) + [9]) == 0
    else:
        p.children()
        got = p.step(bytes.fromhex(row[2]))
        assert (got.refusal, got.evaluations) == (int(row[3]), int(row[4])), row
    assert same(p.world, want), (row, p.world)
    pixels = want.record.width * want.record.height
    seen, numbers = p.picture(bytes([row[0] != "0"] * (pixels + 1)))[1], p.counts()[1]
    if len(row) > 8:
        assert (seen[:pixels].hex(), list(numbers)) == (row[8], [int(n) for n in row[9].split()]), row
        assert p.run(b"", 0).ending == row[10], row


def traces(p, path):
    rows = [l.split("\t") for l in lines_of(path)][1:]
    for row in rows:
        trace(p, row)
    return len(rows)


def main():
    p = Player()
    n = vectors(p, sys.argv[2])
    p.close(f"vectors, {n} cases")
    for path in sys.argv[3:]:
        n = traces(p, path)
        p.close(f"{os.path.basename(path).split('.')[0]}, {n} lines")
    n = stored.charts(p, sys.argv[1])
    p.close(f"stored charts with n_theta, {n} charts")
    for part in cases.PARTS + damage.PARTS + rings.PARTS + rooms.PARTS + moves.PARTS:
        part(p)
        p.close(part.__doc__.split(".")[0])
    for title, play in tiles.RECORDED:
        p.close(title.format(*play(p)))
    for part in tiles.PARTS + tilecounts.PARTS:
        part(p)
        p.close(part.__doc__.split(".")[0])
    for title, play in explained.RECORDED:
        p.close(title.format(*play(p)))
    for part in explained.PARTS + pixels.PARTS:
        part(p)
        p.close(part.__doc__.split(".")[0])
    p.out += b"\0"
    text = "".join(f"{title}: {n} agree, 0 differ\n" for title, n, size in p.parts)
    write(__file__, "stdin", p.out, text + f"all: {p.calls} agree, 0 differ\n")
    for title, n, size in p.parts + [("all", p.calls, len(p.out))]:
        print(f"{title}: {n} calls, {size} bytes")
    for (call, refusal), n in sorted(p.answers.items()):
        print(call, "answers", refusal, n, "times")


main()

"""The pictures hold exactly the pixels of the chart: read back from SVG and PNG.   python3 examples/test_picture.py"""
import importlib.machinery
import importlib.util
import os
import random
import re
import struct
import subprocess
import sys
import unittest
import xml.dom.minidom
import zlib

HERE = os.path.dirname(os.path.abspath(__file__))
TOOL = os.path.join(HERE, "picture")
sys.dont_write_bytecode = True
loader = importlib.machinery.SourceFileLoader("picture", TOOL)
picture = importlib.util.module_from_spec(importlib.util.spec_from_loader("picture", loader))
loader.exec_module(picture)


def text_of(rows, ending="more", head=""):
    pixels = "".join(rows)
    grey = pixels.count("?")
    share = 1000 * (len(pixels) - grey) // len(pixels)
    counts = f"true {pixels.count('#')} false {pixels.count('.')} uncertain {grey} givenup 0 queued 3 share {share}"
    return f"{head}size {len(rows[0])} {len(rows)} steps 7 evals 20 {ending}\n{counts}\n" + "\n".join(rows) + "\n"


def charts():
    """Rows of many shapes: single pixels, long runs, columns, random ones."""
    chance = random.Random(19)
    yield from (["#"], ["."], ["?"], ["#.?"], ["#", ".", "?"], ["##", "##"], [".#", "#."])
    for _ in range(60):
        width, height, common = chance.randint(1, 30), chance.randint(1, 20), chance.choice(".#?")
        yield ["".join(chance.choice(".#?" + common * 12) for _ in range(width)) for _ in range(height)]


def from_svg(svg, width, height):
    """The pixels again: the grey ground, then each path in its colour."""
    grid = [["?"] * width for _ in range(height)]
    for path in xml.dom.minidom.parseString(svg).getElementsByTagName("path"):
        if path.getAttribute("transform"):
            c = {colour: c for c, colour in picture.COLOURS.items()}[path.getAttribute("fill")]
            for x, y, w, h, back in re.findall(r"M(\d+) (\d+)h(\d+)v(\d+)h-(\d+)z", path.getAttribute("d")):
                assert w == back
                for row in grid[int(y) : int(y) + int(h)]:
                    assert all(p == "?" for p in row[int(x) : int(x) + int(w)]), "painted twice"
                    row[int(x) : int(x) + int(w)] = c * int(w)
    return ["".join(row) for row in grid]


def from_png(data, zoom):
    """The pixels again, inside margin and frame; every chunk's check sum is tested."""
    chunks, at = {}, 8
    while at < len(data):
        (length,) = struct.unpack_from(">I", data, at)
        name, body = data[at + 4 : at + 8], data[at + 8 : at + 8 + length]
        assert struct.unpack_from(">I", data, at + 8 + length)[0] == zlib.crc32(name + body)
        chunks[name], at = body, at + 12 + length
    width, height = struct.unpack_from(">II", chunks[b"IHDR"])
    raw = zlib.decompress(chunks[b"IDAT"])
    assert len(raw) == height * (width + 1) and len(chunks[b"PLTE"]) == 15
    rows = [raw[i + 1 : i + 1 + width] for i in range(0, len(raw), width + 1)]
    return ["".join(".#?"[b] for b in row[14:-14:zoom]) for row in rows[14:-14:zoom]]


class Pictures(unittest.TestCase):
    def test_pixels_read_back(self):
        for rows in charts():
            chart = picture.parse(text_of(rows))
            width, height = len(rows[0]), len(rows)
            self.assertEqual(from_svg(picture.svg(chart), width, height), rows)
            self.assertEqual(from_png(picture.png(chart), max(1, round(512 / max(width, height)))), rows)

    def test_words(self):
        head = "title a < b & c\nx 0 64 arrivals (trailers an hour)\ny -1.5 40 crew\n"
        svg = picture.svg(picture.parse(text_of(["#.?"], "stop 6", head)))
        words = [t.firstChild.data for t in xml.dom.minidom.parseString(svg).getElementsByTagName("text")]
        for wanted in ("A < b & c", "arrivals (trailers an hour)", "crew", "no mix works", "some mix works", "not known", "60", "0"):
            self.assertIn(wanted, words)
        self.assertIn("7 steps, 66.6 % settled (1 of 3 pixels not known); stopped by refusal 6", words)
        self.assertIn(picture.PAPER, svg)

    def test_ticks(self):
        self.assertEqual(picture.ticks(picture.Axis(0, 64, ""), 512), [0, 10, 20, 30, 40, 50, 60])
        self.assertEqual(picture.ticks(picture.Axis(0, 1, ""), 512)[-1], 1)
        self.assertEqual(picture.ticks(picture.Axis(0, 1, ""), 20), [0, 1])
        for low, high in ((0, 40), (-3, 5), (0.1, 0.2), (1e6, 1e6 + 3), (0, 1e-9)):
            found = picture.ticks(picture.Axis(low, high, ""), 300)
            self.assertTrue(3 <= len(found) <= 9 and all(low <= t <= high * (1 + 1e-9) for t in found), (low, high, found))

    def test_options_win(self):
        chart = picture.parse(text_of(["#."], head="title one\nx 0 1 a\n"), "two", ["0", "9", "b c"])
        self.assertEqual((chart.title, chart.x, chart.y), ("Two", picture.Axis(0, 9, "b c"), picture.Axis(0, 1, "pixels")))

    def test_what_is_no_chart(self):
        good = text_of(["#.", "?."])
        for bad in ("", "refused 14\n", good.replace("share", "shore"), "\udcff", good.replace("size 2", "size 3"), good.replace("?", "x"), good[:-4], good.replace("2 2", "2 two"), "x 1 0 a\n" + good):
            done = subprocess.run([sys.executable, TOOL], input=bad.encode(errors="surrogateescape"), capture_output=True)
            self.assertEqual((done.returncode, done.stdout), (1, b""), bad)
            self.assertTrue(done.stderr.startswith(b"picture: "), done.stderr)


if __name__ == "__main__":
    unittest.main()

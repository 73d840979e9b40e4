"""Charts as arrays and figures: tried where numpy and matplotlib are installed, skipped by name elsewhere."""

import importlib.util
import io
import sys
import unittest
from unittest import mock

from smyrilox import Chart, Setup, X, Y

HAS_NUMPY, HAS_MATPLOTLIB = (importlib.util.find_spec(name) is not None for name in ("numpy", "matplotlib"))


def chart():
    """The chart of the fields' test after 100 steps."""
    chart = Chart(Setup(5, 4, X | Y), 64)
    chart.run(bytes.fromhex("4040 80400000 4080 40000000 4040 60000000" + "40000000" * 94), 100)
    return chart


ROWS = [[0, 0, 0, 0, 2], [0, 0, 0, 0, 2], [2, 2, 0, 0, 1], [2, 2, 1, 0, 1]]


class Pictures(unittest.TestCase):
    def test_what_is_missing_is_named(self):
        with mock.patch.dict(sys.modules, {"numpy": None}):
            with self.assertRaisesRegex(ImportError, "array\\(\\) needs numpy; Debian's package python3-numpy has it"):
                chart().array()
        with mock.patch.dict(sys.modules, {"matplotlib": None, "matplotlib.pyplot": None}):
            with self.assertRaisesRegex(ImportError, "plot\\(\\) needs matplotlib; Debian's package python3-matplotlib has it"):
                chart().plot()

    @unittest.skipUnless(HAS_NUMPY, "there is no numpy here (Debian: python3-numpy)")
    def test_an_array(self):
        array = chart().array()
        self.assertEqual((array.shape, str(array.dtype), array.tolist()), ((4, 5), "uint8", ROWS))
        array[0, 0] = 1  # it is the caller's own

    @unittest.skipUnless(HAS_MATPLOTLIB, "there is no matplotlib here (Debian: python3-matplotlib)")
    def test_a_figure(self):
        import matplotlib

        matplotlib.use("Agg")
        from matplotlib import colors, pyplot

        axes = chart().plot(x=(0.0, 10.0), y=(-1.0, 1.0))
        image = axes.get_images()[0]
        self.assertEqual((image.get_array().tolist(), tuple(image.get_extent())), (ROWS, (0.0, 10.0, -1.0, 1.0)))
        shown = [colors.to_hex(image.cmap(image.norm(reading))) for reading in (0, 1, 2)]
        self.assertEqual(shown, ["#ffffff", "#8c8c8c", "#000000"])
        self.assertEqual([text.get_text() for text in axes.get_legend().get_texts()], ["no mix works", "not known", "some mix works"])
        self.assertNotEqual(colors.to_hex(axes.figure.get_facecolor()), "#ffffff")
        axes.figure.savefig(io.BytesIO(), format="svg")
        _, own = pyplot.subplots()
        self.assertIs(chart().plot(own), own)
        pyplot.close("all")


if __name__ == "__main__":
    unittest.main()

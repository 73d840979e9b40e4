"""What belongs to a module that is installed: its names, its version, where it finds its library."""

import os
import re
import shutil
import tempfile
import unittest
from unittest import mock

import smyrilox
from smyrilox import Chart, Setup, X, Y, _library

HERE = os.path.dirname(os.path.abspath(__file__))


class Package(unittest.TestCase):
    def test_names(self):
        self.assertEqual(len(smyrilox.__all__), len(set(smyrilox.__all__)))
        for name in smyrilox.__all__:
            self.assertTrue(hasattr(smyrilox, name), name)
        self.assertTrue(os.path.exists(os.path.join(HERE, "smyrilox", "py.typed")))

    def test_one_version(self):
        with open(os.path.join(HERE, "..", "rust", "Cargo.toml")) as file:
            self.assertEqual(re.search('^version = "(.*)"$', file.read(), re.M).group(1), smyrilox.__version__)

    def test_repr(self):
        chart = Chart(Setup(5, 3, X | Y), ring=64)
        chart.step(b"\x40\x40")
        self.assertEqual(repr(chart), "<Chart 5 by 3: 1 steps, 2 queued in 10 of 64 bytes>")
        chart.tag = b"doors"
        self.assertEqual(repr(chart), "<Chart 5 by 3: 1 steps, 2 queued in 10 of 64 bytes, tag b'doors'>")


class Library(unittest.TestCase):
    def setUp(self):
        self.folder = tempfile.mkdtemp()
        self.addCleanup(shutil.rmtree, self.folder)
        self.beside = os.path.join(self.folder, _library.NAME)
        self.named = os.path.join(self.folder, "named.so")

    def find(self, **environment):
        """What a module in the folder finds."""
        with mock.patch.object(_library, "__file__", os.path.join(self.folder, "_library.py")):
            with mock.patch.dict(os.environ, environment):
                return _library.find()

    def test_beside_the_module_first(self):
        with mock.patch.dict(os.environ):
            os.environ.pop("SMYRILOX_SO", None)
            self.assertEqual(self.find(), _library.NAME + ".0")
        self.assertEqual(self.find(SMYRILOX_SO=self.named), self.named)
        open(self.beside, "w").close()
        self.assertEqual(self.find(SMYRILOX_SO=self.named), self.beside)

    def test_no_library(self):
        with self.assertRaisesRegex(ImportError, "bindings/build"):
            _library.load("there-is-no-such-library.so")

    def test_a_library_with_other_records(self):
        with mock.patch.object(_library, "layout", lambda: 1):
            with self.assertRaisesRegex(ImportError, "this module is made for 0000000000000001"):
                _library.load(_library.find())

    def test_an_older_library(self):
        """One that does not say its layout, or lacks a function, is not used."""
        with self.assertRaisesRegex(ImportError, "older"):
            _library.load("libc.so.6")
        older = mock.Mock(spec=["smyrilox_cells", "smyrilox_least_ring", "smyrilox_enough_ring"])
        with self.assertRaisesRegex(ImportError, "older than this module: it has no smyrilox_setup$"):
            _library.declared(older)


if __name__ == "__main__":
    unittest.main()

"""How many pixels of each tile read what: a table beside the picture, and a thumbnail of it."""

from ctypes import c_uint32
from typing import Any, List, NamedTuple

from . import _library as lib
from ._memory import zeros
from ._refusal import check

# The side of a tile in pixels, and how many numbers it has: True, False, Uncertain, given up.
SIDE, NUMBERS = 16, 4


class Tile(NamedTuple):
    """The pixels of a tile by reading, and the given-up ones, which are uncertain too."""

    yes: int
    no: int
    uncertain: int
    given_up: int

    @property
    def pixels(self) -> int:
        """All of its pixels."""
        return self.yes + self.no + self.uncertain

    @property
    def shade(self) -> int:
        """Its grey in a thumbnail, 0 black to 255 white. White means no: a tile is white only if every pixel of it reads False, and black
        only if every pixel reads True. Any other is a grey from 220 to 60, the darker the more of it is True; an uncertain pixel counts
        half, so that a tile of which nothing is known has the picture's own grey, 140."""
        if 0 < self.no == self.pixels:
            return 255
        if 0 < self.yes == self.pixels:
            return 0
        return 220 - 80 * (2 * self.yes + self.uncertain) // max(1, self.pixels)


class Table:
    """The counts of a chart's tiles, which every step of the chart brings up to date. A tile has 16 by 16 pixels; those at the right and
    the lower edge may be smaller. `columns` and `rows` say how many tiles lie side by side and above each other."""

    def __init__(self, chosen: lib.Chosen, lock: Any, numbers: Any):
        self.columns, self.rows = ((side + SIDE - 1) // SIDE for side in (chosen.width, chosen.height))
        self._lock, self._numbers = lock, numbers

    def __repr__(self) -> str:
        return f"<Table of {self.columns} by {self.rows} tiles>"

    def tile(self, column: int, row: int) -> Tile:
        """The tile in a column and a row from the top."""
        if not (0 <= column < self.columns and 0 <= row < self.rows):
            raise IndexError(f"there is no tile in column {column} and row {row} of {self.columns} by {self.rows}")
        at = NUMBERS * (row * self.columns + column)
        with self._lock:
            return Tile(*self._numbers[at : at + NUMBERS])

    def numbers(self) -> List[int]:
        """All numbers, four a tile: True, False, Uncertain, given up; row by row from the top left."""
        with self._lock:
            return self._numbers[:]

    def tiles(self) -> List[Tile]:
        """The tiles, row by row from the top left."""
        numbers = self.numbers()
        return [Tile(*numbers[at : at + NUMBERS]) for at in range(0, len(numbers), NUMBERS)]

    def thumbnail(self) -> bytes:
        """The picture made small: the shade of each tile, row by row from the top left."""
        return bytes(tile.shade for tile in self.tiles())


def room(chosen: lib.Chosen) -> Any:
    """Zeros for the table of a picture, or an error that names the bytes."""
    tiles = lib.library.smyrilox_tile_count(chosen.width, chosen.height)
    check(tiles.refusal)
    return zeros(c_uint32, NUMBERS * tiles.value)


def filled(state: lib.State, cells: Any) -> Any:
    """The table of a picture as it stands."""
    numbers = room(state.chosen)
    check(lib.library.smyrilox_fill_table(state, cells, len(cells), numbers, len(numbers)))
    return numbers

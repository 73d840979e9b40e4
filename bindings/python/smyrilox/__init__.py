"""Proved refinement of implicit graphs, for Python.

A Chart holds what belongs together: the record, the ring with the queued blocks, and a cell for each pixel. Nothing else writes them, and
calls from several threads wait for each other, so what is promised of the engine (docs/WHITE.md) holds of every chart that was begun here.
A chart that was loaded is as good as the bytes it came from (bindings/SAVED.md).

    def above_one(block):   # the relation x > 1: no solution up to 1, some in every pixel from 1 on, not known in between
        low, high = block.x.span
        return NO if high <= 1 else yes_for(block) if low >= 1 else UNDECIDED

    chart = Chart(Setup(2, 1, X | Y), steps=100)
    run = chart.refine(above_one, 100)
    run.ending          # 'done'
    chart.rows()        # [b'\\x00\\x02']

A Plot says where a picture lies in the caller's units, and gives a block's box there, rounded outward:

    plot = Plot(60, 40, left=0, right=110, bottom=0, top=29)
    arrivals, crew = plot.block_box(block).outer

A chart can also keep how many pixels of each tile of 16 by 16 read what, and make a thumbnail of it:

    chart = Chart(Setup(256, 160, X | Y), steps=700, with_table=True)
    chart.table.tile(3, 0)          # Tile(yes=0, no=0, uncertain=256, given_up=0)
    chart.table.thumbnail()         # a byte for each tile: 255 white, 0 black, greys between

A chart that keeps its verdicts says why a pixel reads what it reads:

    chart = Chart(Setup(5, 3, X | Y), steps=10, keep_verdicts=True)
    chart.step(bytes([UNDECIDED, YES]))
    str(chart.why(4, 0))            # 'True: step 1 marked it last; child 2 of that step showed it, by its area verdict.'

The library, libsmyrilox.so, is looked for beside this module, then where the environment's SMYRILOX_SO says, then among the repository's
products, where bindings/build puts it, then where the system's loader looks.
"""

from ._block import M, N, THETA, T, WHOLE, X, Y, Block, Coordinate, Interval, Setup
from ._chart import Chart, Counts, Grey, Reading, Run, Step
from ._leaves import first_cut, later_cut, midpoint, simple_fraction
from ._plot import BlockBox, Edges, MapKind, Padding, Plot
from ._reason import Explanation, NotExplained, Reason, ReasonKind, SamplePoint, explain
from ._refusal import WORDS, NoMemory, Refused
from ._saved import NotLoaded
from ._table import Table, Tile
from ._verdict import AREA, NO, UNDECIDED, YES, Verdict, found_at, yes_for

__version__ = "0.1.0"
__all__ = [
    "X",
    "Y",
    "M",
    "N",
    "THETA",
    "T",
    "Interval",
    "WHOLE",
    "Coordinate",
    "Block",
    "Setup",
    "Verdict",
    "NO",
    "UNDECIDED",
    "YES",
    "AREA",
    "found_at",
    "yes_for",
    "Chart",
    "Step",
    "Run",
    "Counts",
    "Reading",
    "Grey",
    "Table",
    "Tile",
    "explain",
    "Explanation",
    "Reason",
    "ReasonKind",
    "SamplePoint",
    "NotExplained",
    "Plot",
    "Padding",
    "Edges",
    "MapKind",
    "BlockBox",
    "WORDS",
    "Refused",
    "NoMemory",
    "NotLoaded",
    "midpoint",
    "simple_fraction",
    "first_cut",
    "later_cut",
]

"""lists.py: what the makers of the replays share that is no model of the documents.

A double as its 64 bits: a number, bytes with the higher first, or 16 hexadecimal digits. The sheet that the program
`chart` reads. Lines that were recorded, and the two files of a replay: the list that it plays, and what it must print.
"""
import os
import struct

# ---- doubles


def bits(x):
    return struct.unpack(">Q", struct.pack(">d", x))[0]


def of_bits(n):
    return struct.unpack(">d", struct.pack(">Q", n))[0]


def of_digits(text):
    return of_bits(int(text, 16))


def one_nan(x):
    """A bound's bits; every NaN has the same."""
    return bits(x) if x == x else 0x7FF8000000000000


def bounds(*intervals):
    """The bytes of intervals, each one's lower bound first; a bound may be given as its bytes."""
    return b"".join(v if isinstance(v, bytes) else struct.pack(">d", v) for p in intervals for v in p)


# ---- sheets


def sheet(width, height, uses, budget, ranges=(), tape=b"", zero=0):
    """A sheet; `ranges` are those of the used parameters, in order, `zero` the two bits that should be 0."""
    return struct.pack(">HHBI", width, height, uses << 2 | zero, budget) + bounds(*ranges) + bytes(tape)


# ---- files


def next_to(maker, *names):
    """The path of a file in a maker's folder."""
    return os.path.join(os.path.dirname(os.path.abspath(maker)), *names)


def lines_of(path):
    with open(path) as recorded:
        return [line.rstrip("\n") for line in recorded]


def write(maker, name, data, text):
    """The list, by its name in the maker's folder, and what is to be printed of it."""
    with open(next_to(maker, name), "wb") as played, open(next_to(maker, "stdout"), "w") as printed:
        played.write(data)
        printed.write(text)

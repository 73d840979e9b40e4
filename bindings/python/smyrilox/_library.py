"""What crosses to the library, in the order of its fields (include/smyrilox.h says the same in C), and where the library is found."""

import ctypes
import os
from ctypes import POINTER, Structure, c_bool, c_double, c_int32, c_size_t, c_uint8, c_uint32, c_uint64

PARAMETERS = ("m", "n", "theta", "t")
SIDES = ("left", "right", "bottom", "top")
# how a run ended, by the number in the header
ENDINGS = {1: "done", 2: "limit", 3: "more", 4: "stop"}


class Interval(Structure):
    _fields_ = [("lower", c_double), ("upper", c_double)]


class Ranges(Structure):
    _fields_ = [(p, Interval) for p in PARAMETERS]


class Coordinate(Structure):
    _fields_ = [("index", c_uint64), ("level", c_int32)]


class Last(Structure):
    _fields_ = [("x", c_uint64), ("y", c_uint64)] + [(p, Interval) for p in PARAMETERS]


class Chosen(Structure):
    _fields_ = [("width", c_uint32), ("height", c_uint32)] + [(n, c_uint8) for n in ("set", "reserved1", "reserved2", "reserved3")]


class State(Structure):
    _fields_ = [
        ("chosen", Chosen),
        ("taken", c_uint64),
        ("queued", c_uint64),
        ("len", c_size_t),
        ("head", c_size_t),
        ("used", c_size_t),
        ("front", Last),
        ("back", Last),
    ]


class Child(Structure):
    _fields_ = [("x", Coordinate), ("y", Coordinate)] + [(p, Interval) for p in PARAMETERS]


class Number(Structure):
    _fields_ = [("refusal", c_uint64), ("value", c_uint64)]


class Point(Structure):
    _fields_ = [("refusal", c_uint64), ("value", c_double)]


class Started(Structure):
    _fields_ = [("refusal", c_uint64), ("state", State)]


class Moved(Structure):
    _fields_ = [("refusal", c_uint64), ("state", State)]


class Listed(Structure):
    _fields_ = [("refusal", c_uint64), ("count", c_size_t), ("at", Child * 4)]


class Stepped(Structure):
    _fields_ = [("refusal", c_uint64), ("evaluations", c_uint64), ("tape", c_size_t), ("state", State)]


class Ran(Structure):
    _fields_ = [(n, c_uint64) for n in ("refusal", "ending", "stop", "steps", "evaluations")] + [("tape", c_size_t), ("state", State)]


class Explained(Structure):
    _fields_ = [(n, c_uint64) for n in ("refusal", "reason", "step", "child", "point", "number", "before")]
    _fields_ += [("block", Child)] + [(n, c_uint64) for n in ("direction", "ending", "steps", "evaluations")]
    _fields_ += [("tape", c_size_t), ("state", State)]


class Tally(Structure):
    _fields_ = [(n, c_uint64) for n in ("trues", "falses", "uncertain", "givenup", "queued", "share")]


class Counted(Structure):
    _fields_ = [("refusal", c_uint64), ("counts", Tally)]


class Pieces(Structure):
    _fields_ = [("refusal", c_uint64), ("count", c_size_t), ("at", Interval * 3)]


class Padding(Structure):
    _fields_ = [(side, c_uint32) for side in SIDES]


class Edges(Structure):
    _fields_ = [(side, Interval) for side in SIDES]


class Plot(Structure):
    _fields_ = [("width", c_uint32), ("height", c_uint32), ("padding", Padding), ("edges", Edges)]


class Boxed(Structure):
    _fields_ = [("refusal", c_uint64), ("edges", Edges), ("x", Interval), ("y", Interval)]


RECORDS = (Interval, Ranges, Coordinate, Last, Chosen, State, Child, Number, Point, Started, Moved, Listed, Stepped, Ran, Explained, Tally)
RECORDS += (Counted, Pieces, Padding, Edges, Plot, Boxed)


def layout(records=RECORDS) -> int:
    """The number of the records' layout, made as bindings/c/layout.c makes it: sizes and places folded by FNV-1a."""
    folded = 0xCBF29CE484222325
    for record in records:
        for number in (ctypes.sizeof(record), *(getattr(record, field).offset for field, *_ in record._fields_)):
            folded = (folded ^ number) * 0x100000001B3 % 2**64
    return folded


NAME = "libsmyrilox.so"


def find() -> str:
    """Where the library is: beside this module, else where SMYRILOX_SO says, else among the repository's products, else by its name for the
    system's loader."""
    here = os.path.dirname(os.path.abspath(__file__))
    beside, product = os.path.join(here, NAME), os.path.join(here, "..", "..", "..", "target", "bindings", NAME)
    if os.path.exists(beside):
        return beside
    named = os.environ.get("SMYRILOX_SO")
    return named or (product if os.path.exists(product) else NAME + ".0")


def load(path: str):
    """The library at a path, if its records are the ones above."""
    try:
        found = ctypes.CDLL(path)
    except OSError as why:
        raise ImportError(f"smyrilox: no library at {path} ({why}): make it with bindings/build, or name it in SMYRILOX_SO") from None
    try:
        asked = found.smyrilox_layout
    except AttributeError:
        raise ImportError(f"smyrilox: the library {path} is older than this module: it does not say how its records are laid out") from None
    asked.argtypes, asked.restype = [], c_uint64
    if asked() != layout():
        raise ImportError(f"smyrilox: the library {path} has records of the layout {asked():016x}, and this module is made for {layout():016x}")
    return declared(found)


def declared(found):
    """The library with the arguments and answers of its functions."""
    bytes_, cells, table = ([POINTER(number), c_size_t] for number in (c_uint8, c_uint64, c_uint32))
    for name, takes, answers in (
        ("cells", [c_uint32, c_uint32], Number),
        ("least_ring", [Chosen, Ranges], Number),
        ("enough_ring", [Chosen, Ranges, c_uint32], Number),
        ("setup", [Chosen, Ranges] + bytes_ + cells, Started),
        ("children", [State] + bytes_, Listed),
        ("step", [State] + bytes_ + cells + bytes_, Stepped),
        ("run", [State] + bytes_ + cells + bytes_ + [c_uint32], Ran),
        ("move_queue", [State] + bytes_ + bytes_, Moved),
        ("picture", [State] + cells + bytes_, c_uint64),
        ("counts", [State] + cells, Counted),
        ("tile_count", [c_uint32, c_uint32], Number),
        ("setup_with_table", [Chosen, Ranges] + bytes_ + cells + table, Started),
        ("step_with_table", [State] + bytes_ + cells + table + bytes_, Stepped),
        ("run_with_table", [State] + bytes_ + cells + table + bytes_ + [c_uint32], Ran),
        ("fill_table", [State] + cells + table, c_uint64),
        ("explain", [Chosen, Ranges] + bytes_ + cells + bytes_ + [c_uint32, c_uint32, c_uint32], Explained),
        ("midpoint", [Interval], Point),
        ("simple_fraction", [Interval], Point),
        ("first_cut", [Interval, c_bool], Pieces),
        ("later_cut", [Interval, c_bool], Pieces),
        ("block_box", [Plot, c_uint8, Coordinate, Coordinate], Boxed),
    ):
        try:
            function = getattr(found, "smyrilox_" + name)
        except AttributeError:
            raise ImportError(f"smyrilox: the library is older than this module: it has no smyrilox_{name}") from None
        function.argtypes, function.restype = takes, answers
    return found


library = load(find())

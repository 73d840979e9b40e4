"""Charts as bytes: bindings/SAVED.md has both layouts. Layout 2 is written; layout 1 is still read."""

import struct
import zlib
from typing import NamedTuple, Optional

from . import _library as lib


class NotLoaded(Exception):
    """These bytes are not a saved chart, or not one with the tag that was named."""


class Saved(NamedTuple):
    """What saved bytes hold. The queue begins at the ring's first byte in layout 2, and stands in the whole ring in layout 1."""

    state: lib.State
    ranges: Optional[lib.Ranges]
    tag: bytes
    ring: bytes
    cells: bytes


_NAME = b"SMYRILOX"
# bytes a cell, coding, mode, floor, shape: what kinds of charts this release has, which is one
_KIND = {"number of bytes a cell": 8, "coding": 0, "mode": 0, "floor": -32, "shape": 0}
_WHOLE = struct.pack("<2d", float("-inf"), float("inf")) * 4
# the name, the layout, the sides, the set, the kind, whether the ranges are known, a reserved byte, the tag's length;
# taken, queued, ring, used, cells; the ranges; the blocks taken and queued last
_HEAD_2 = struct.Struct("<8s3IB5b2BI5Q64s80s80s")
# the name, the layout, the chosen; taken, queued, ring, head, used, cells; the blocks taken and queued last
_HEAD_1 = struct.Struct("<8sI12s6Q80s80s")


def written(state: lib.State, ranges: Optional[lib.Ranges], tag: bytes, ring, cells) -> bytes:
    chosen = state.chosen
    pixels = chosen.width * chosen.height
    head = _HEAD_2.pack(
        *(_NAME, 2, chosen.width, chosen.height, chosen.set, *_KIND.values(), ranges is not None, 0, len(tag)),
        *(state.taken, state.queued, state.len, state.used, pixels),
        *(_WHOLE if ranges is None else bytes(ranges), bytes(state.front), bytes(state.back)),
    )
    body = head + tag + queue_bytes(state, ring) + memoryview(cells)[:pixels].tobytes()
    return body + struct.pack("<I", zlib.crc32(body))


def queue_bytes(state: lib.State, ring) -> bytes:
    """The ring's bytes in use, from the head on."""
    ring, end = memoryview(ring), state.head + state.used
    return ring[state.head : end].tobytes() + ring[: max(0, end - state.len)].tobytes()


def read(saved: bytes) -> Saved:
    saved = bytes(saved)
    if saved[:8] != _NAME:
        raise NotLoaded("not a saved chart")
    layout = int.from_bytes(saved[8:12], "little")
    if len(saved) < 12 or layout in (1, 2) and len(saved) < {1: _HEAD_1.size + 8, 2: _HEAD_2.size + 4}[layout]:
        raise NotLoaded("a saved chart with bytes missing")
    if layout not in (1, 2):
        raise NotLoaded(f"a chart saved in layout {layout}; this release reads 1 and 2")
    return _read_2(saved) if layout == 2 else _read_1(saved)


def _read_2(saved: bytes) -> Saved:
    _, _, width, height, uses, *kind_and_more = _HEAD_2.unpack_from(saved)
    kind, (known, reserved, tag, taken, queued, length, used, cells, ranges, front, back) = kind_and_more[:5], kind_and_more[5:]
    at_queue = _HEAD_2.size + tag
    at_cells = at_queue + used
    if len(saved) != at_cells + kind[0] * cells + 4:
        raise NotLoaded("a saved chart with bytes missing or left over")
    if int.from_bytes(saved[-4:], "little") != zlib.crc32(saved[:-4]):
        raise NotLoaded("a saved chart with changed bytes")
    for (what, has), found in zip(_KIND.items(), kind):
        if found != has:
            raise NotLoaded(f"a saved chart whose {what} is {found}, which this release does not have")
    if known > 1 or reserved or used > length or cells != width * height:
        raise NotLoaded("a saved chart with bytes missing or left over")
    last = lib.Last.from_buffer_copy
    state = lib.State(lib.Chosen(width, height, uses), taken, queued, length, 0, used, last(front), last(back))
    ranges = lib.Ranges.from_buffer_copy(ranges) if known else None
    return Saved(state, ranges, saved[_HEAD_2.size : at_queue], saved[at_queue:at_cells], saved[at_cells:-4])


def _read_1(saved: bytes) -> Saved:
    _, _, chosen, taken, queued, length, head, used, cells, front, back = _HEAD_1.unpack_from(saved)
    at_cells = _HEAD_1.size + length
    if any(chosen[9:]) or len(saved) != at_cells + 8 * cells + 8:
        raise NotLoaded("a saved chart with bytes missing or left over")
    if int.from_bytes(saved[-8:], "little") != _crc64(saved[:-8]):
        raise NotLoaded("a saved chart with changed bytes")
    last = lib.Last.from_buffer_copy
    state = lib.State(lib.Chosen.from_buffer_copy(chosen), taken, queued, length, head, used, last(front), last(back))
    return Saved(state, None, b"", saved[_HEAD_1.size : at_cells], saved[at_cells:-8])


def _table():
    table = []
    for r in range(256):
        for _ in range(8):
            r = r >> 1 ^ (r & 1) * 0xC96C5795D7870F42
        table.append(r)
    return table


_TABLE = _table()


def _crc64(data: bytes) -> int:
    """CRC-64/XZ, the check of layout 1; Python's library has none."""
    r = 2**64 - 1
    for b in data:
        r = r >> 8 ^ _TABLE[(r ^ b) & 255]
    return r ^ 2**64 - 1

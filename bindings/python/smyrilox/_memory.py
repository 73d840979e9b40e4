"""Memory of a chart's own."""

from ctypes import sizeof
from typing import Any

from ._refusal import NoMemory


def zeros(kind: Any, count: int) -> Any:
    """So many zeros of one of ctypes' numbers, or an error that names the bytes."""
    try:
        return (kind * count)()
    except (MemoryError, OverflowError):
        raise NoMemory(count * sizeof(kind)) from None


def copied(array: Any) -> Any:
    """A copy of ctypes' numbers or records."""
    return type(array).from_buffer_copy(array)

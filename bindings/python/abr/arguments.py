"""Arguments brought into C's types. ctypes itself cuts a number that has too many bits."""

from __future__ import annotations

import operator
from typing import Iterable


def unsigned(name: str, value: int, bits: int) -> int:
    """The number itself, if so many bits hold it."""
    number = operator.index(value)
    if not 0 <= number < 1 << bits:
        raise OverflowError(f"{name} is {number}, and must be from 0 to 2^{bits} - 1")
    return number


def u32(name: str, value: int) -> int:
    """A number of 32 bits."""
    return unsigned(name, value, 32)


def u64(name: str, value: int) -> int:
    """A number of 64 bits."""
    return unsigned(name, value, 64)


def u64s(name: str, values: Iterable[int]) -> list[int]:
    """Numbers of 64 bits."""
    return [u64(f"{name}[{place}]", value) for place, value in enumerate(values)]


def octets(name: str, value: bytes) -> bytes:
    """The octets of an object that has nothing else: bytes, a bytearray, a memoryview of octets."""
    if isinstance(value, bytes):
        return value
    view = memoryview(value)
    if view.itemsize != 1:
        raise TypeError(f"{name} has items of {view.itemsize} octets")
    return view.tobytes()


def double(name: str, value: float) -> float:
    """A double, or a whole number that is one, as all up to 2^53 are. Nothing is rounded."""
    if not isinstance(value, (float, int)):
        raise TypeError(f"{name} is no float but {type(value).__name__}")
    number = float(value)
    if isinstance(value, int) and number != value:
        raise OverflowError(f"{name} is {value}, which no double is")
    return number

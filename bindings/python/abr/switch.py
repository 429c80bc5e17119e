"""The explicit-rate port of a switch (the manual, section 18), without a table."""

from __future__ import annotations

from ctypes import Array, c_uint8, c_uint64
from typing import Iterable

from .c import library
from .arguments import octets, u64, u64s
from .refusal import accepted


def fair_share(capacity: int, demands: Iterable[int]) -> int | None:
    """The share of a capacity: the greatest whole rate with which all demands, each cut to it, stay within the
    capacity; None if there is no limit. All are rates in units of 1/512 cell per second."""
    rates = array(demands)
    share = library.abr_fair_share(u64("capacity", capacity), rates, len(rates))
    accepted(share.refusal)
    return share.rate if share.limited else None


def limit(rate: int, cell: bytes) -> bytes:
    """A passing cell, with the explicit rate of a backward RM cell lowered to a rate."""
    passed = copy(cell)
    accepted(library.abr_limit(u64("rate", rate), passed, len(passed)))
    return bytes(passed)


def port(capacity: int, demands: Iterable[int], cell: bytes) -> bytes:
    """A passing cell, with the explicit rate of a backward RM cell lowered to the share."""
    rates, passed = array(demands), copy(cell)
    accepted(library.abr_port(u64("capacity", capacity), rates, len(rates), passed, len(passed)))
    return bytes(passed)


def array(demands: Iterable[int]) -> Array[c_uint64]:
    """Demands for a call."""
    rates = u64s("demands", demands)
    return (c_uint64 * len(rates))(*rates)


def copy(cell: bytes) -> Array[c_uint8]:
    """A cell for a call that writes it."""
    cell = octets("cell", cell)
    return (c_uint8 * len(cell)).from_buffer_copy(cell)

"""Rates, their 16-bit codes, and rates as doubles in cells per second (the manual, sections 3 and 18)."""

from typing import NamedTuple

from .c import library
from .arguments import double, u32, u64
from .refusal import accepted


class Contract(NamedTuple):
    """The rates of a contract in cells per second."""

    pcr: float
    mcr: float
    icr: float


class Imported(NamedTuple):
    """A double as a rate code: the rate of the code over 512 plus the remainder is the double, with no rounding."""

    code: int
    remainder: float


def code(rate: int) -> int:
    """The code of the greatest code rate not above a rate, in units of 1/512 cell per second."""
    coded = library.abr_code(u64("rate", rate))
    accepted(coded.refusal)
    return int(coded.code)


def rate(code: int) -> int:
    """The rate of a code, in units of 1/512 cell per second."""
    rated = library.abr_rate(u32("code", code))
    accepted(rated.refusal)
    return int(rated.rate)


def import_rate(cells_per_second: float) -> Imported:
    """The code of the greatest code rate not above a double, and what the double has more."""
    imported = library.abr_import(double("cells_per_second", cells_per_second))
    accepted(imported.refusal)
    return Imported(imported.code, imported.remainder)

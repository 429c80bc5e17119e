"""The parameters of an open."""

from __future__ import annotations

from dataclasses import astuple, dataclass, fields

from .c import abr_params, library
from .arguments import u32


@dataclass(frozen=True)
class Params:
    """What an open gives beside address and time; pcr, mcr and icr are rate codes. The open checks the ranges."""

    pcr: int
    mcr: int
    icr: int
    n: int  # Nrm = 2^n
    r: int  # RIF = 1/2^r
    d: int  # RDF = 1/2^d
    c: int  # CDF = 1/2^c; CDF_ZERO means zero
    tbe: int  # cells allowed before feedback
    frtt: int  # round trip in microseconds
    adtf: int  # in steps of 10 ms
    trm: int  # number of Trm

    @classmethod
    def house(cls, pcr: int, mcr: int, icr: int) -> Params:
        """The house set with three rate codes; dataclasses.replace changes others."""
        return cls.from_c(library.abr_house(u32("pcr", pcr), u32("mcr", mcr), u32("icr", icr)))

    @classmethod
    def from_c(cls, params: abr_params) -> Params:
        """Those that a call answered."""
        return cls(*(getattr(params, name) for name, _ in abr_params._fields_))

    def as_c(self) -> abr_params:
        """The same for a call."""
        names = [field.name for field in fields(self)]
        return abr_params(*(u32(name, value) for name, value in zip(names, astuple(self))))

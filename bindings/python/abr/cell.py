"""Cells of 53 octets, written and read without a table."""

from __future__ import annotations

from ctypes import c_uint8
from dataclasses import astuple, dataclass, fields
from typing import NamedTuple

from .c import abr_rm, library
from .constants import CELL_OCTETS
from .arguments import octets, u32
from .refusal import accepted

Buffer = c_uint8 * CELL_OCTETS  # a cell that a call writes

RM = 2  # the kind of an RM cell that is read


@dataclass(frozen=True)
class Rm:
    """The fields of an RM cell: er, ccr and mcr are rate codes, dir to ra are bits."""

    vpi: int
    vci: int
    dir: int = 0  # 1 backward
    bn: int = 0  # 1: not made by a source
    ci: int = 0
    ni: int = 0
    ra: int = 0
    er: int = 0
    ccr: int = 0
    mcr: int = 0
    ql: int = 0
    sn: int = 0


class Data(NamedTuple):
    """A data cell, as it is read."""

    vpi: int
    vci: int
    efci: int  # the congestion mark


def write_rm(rm: Rm) -> bytes:
    """The octets of an RM cell."""
    names = [field.name for field in fields(rm)]
    written = Buffer()
    numbers = abr_rm(*(u32(name, value) for name, value in zip(names, astuple(rm))))
    accepted(library.abr_write_rm(numbers, written, len(written)))
    return bytes(written)


def read(cell: bytes) -> Rm | Data:
    """What a cell is."""
    cell = octets("cell", cell)
    found = library.abr_read(cell, len(cell))
    accepted(found.refusal)
    if found.kind != RM:
        return Data(found.rm.vpi, found.rm.vci, found.efci)
    return Rm(*(getattr(found.rm, name) for name, _ in abr_rm._fields_))

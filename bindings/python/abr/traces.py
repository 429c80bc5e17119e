"""The judge of other transmitters' traces (the manual, section 18), without a table."""

from __future__ import annotations

import enum
from typing import NamedTuple

from .c import library
from .arguments import octets
from .refusal import accepted


class Rule(enum.IntEnum):
    """The rules that the cells of a trace must follow."""

    FIRST = 1  # the first cell is forward
    GAP = 2  # a later cell is a gap or more after the one before
    FORWARD = 3  # a later cell is forward exactly when a forward cell is due


class Breach(NamedTuple):
    """Where a trace breaks a rule first: the cell, 1 for the first one, and the rule, the lowest if it breaks
    several."""

    cell: int
    rule: Rule


def judge(trace: bytes) -> Breach | None:
    """None if a trace passes, else what it breaks. include/abr.h says how a trace is written."""
    trace = octets("trace", trace)
    verdict = library.abr_judge(trace, len(trace))
    accepted(verdict.refusal)
    return Breach(verdict.cell, Rule(verdict.rule)) if verdict.rule else None

"""What the calls on a table answer: opens, closes, received cells, slots, rates."""

from __future__ import annotations

import enum
from typing import NamedTuple


class Opened(NamedTuple):
    """The connection's leaf in the tournament, the lowest free one, kept until its close, and the comparisons."""

    leaf: int
    comparisons: int


class Closed(NamedTuple):
    """The data cells that waited, and the comparisons."""

    cells: int
    comparisons: int


class ReceivedKind(enum.IntEnum):
    """What was received."""

    FORWARD = 1
    BACKWARD = 2
    DATA = 3


class Received(NamedTuple):
    """What was received, and the allowed rate of its connection afterwards."""

    kind: ReceivedKind
    vpi: int
    vci: int  # of a member's data cell that of the member
    leaf: int  # of the connection; for a member's data cell that of the path
    acr: int
    comparisons: int


class Kind(enum.IntEnum):
    """What a slot sends; a made cell counts as a turned one."""

    FORWARD = 1
    TURNED = 2
    DATA = 3


class Sent(NamedTuple):
    """What a slot sends, and the allowed rate afterwards and before."""

    kind: Kind
    vpi: int
    vci: int  # of data of a path that of the member
    acr: int
    cell: bytes | None  # the octets of an RM cell; the caller has those of data
    comparisons: int
    leaf: int  # of the connection; for data of a path that of the path
    acr_before: int  # the rate that a trace wants (judge)
    made: bool  # the turned cell is one that Table.make made


class Allowed(NamedTuple):
    """The allowed rate, and what the last backward cell changed."""

    acr: int
    change: int

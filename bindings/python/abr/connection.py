"""What the readings of a table answer: a connection, a member, the whole link."""

from __future__ import annotations

from dataclasses import dataclass, fields
import enum
from typing import Any, NamedTuple

from .c import abr_connection
from .constants import NEVER
from .params import Params


class ConnectionKind(enum.IntEnum):
    """What a VPI and a VCI stand for."""

    CHANNEL = 1
    PATH = 2
    MEMBER = 3


@dataclass(frozen=True)
class Connection:
    """Everything of a connection (the manual, section 21). Of a member all but kind, vpi, vci and waiting is its
    path's. A cell from a slot is one that Table.slot answered; out-of-rate cells are none."""

    kind: ConnectionKind
    vpi: int
    vci: int
    leaf: int
    waiting: int  # data cells, of a path the sum of its members'
    params: Params  # as the open gave them
    crm: int
    icr_used: int  # the initial rate that is used, in units; params has the given one's code
    acr: int
    change: int  # of acr, by the last accepted backward cell
    opened: int  # the time of the open
    last_sent: int | None  # the time of the last cell from a slot
    last_forward: int | None  # that of the last forward cell from a slot
    ready: int | None  # the ready instant; None if it is never ready as things stand
    last_made: int | None  # the time of the last accepted Table.make, that cell sent or not
    last_out_of_rate: int | None
    k: int  # cells from slots since the last forward one
    unanswered: int  # forward cells from slots since the last backward cell with BN 0, up to 8,388,608
    backward_sent: bool  # a turned or made cell is among those k
    efci: bool  # the saved congestion mark
    turned: bool  # a turned cell waits
    made_level: int  # the level at which the made cell that waits was made; 0: none waits
    served: int  # of a path the VCI of the member whose data went last, removed since or not; 0 before any

    @classmethod
    def from_c(cls, read: abr_connection) -> Connection:
        """The connection of an accepted reading."""
        values: dict[str, Any] = {field.name: getattr(read, field.name) for field in fields(cls)}
        for name in ("last_sent", "last_forward", "ready", "last_made", "last_out_of_rate"):
            values[name] = instant(values[name])
        for name in ("backward_sent", "efci", "turned"):
            values[name] = bool(values[name])
        values |= {"kind": ConnectionKind(read.kind), "params": Params.from_c(read.params)}
        return cls(**values)


class Member(NamedTuple):
    """A member of a path, and its data cells that wait."""

    vpi: int
    vci: int
    waiting: int


class Totals(NamedTuple):
    """What belongs to no single connection."""

    connections: int  # open, channels and paths
    connections_max: int  # how many can be: CONNECTIONS_MAX
    members: int  # of all paths together
    level: int  # of congestion
    last: int  # the last accepted time, before which a time is refused; 0 before any, a time like others


def instant(time: int) -> int | None:
    """An instant of the C interface; None if it never comes or never was."""
    return None if time == NEVER else time

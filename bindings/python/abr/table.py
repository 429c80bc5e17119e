"""The table of connections and the calls on it."""

from __future__ import annotations

import ctypes
from itertools import islice
from typing import Iterator

from .answers import Allowed, Closed, Kind, Opened, Received, ReceivedKind, Sent
from .c import CONNECTIONS_MAX, abr_answer, abr_closed, abr_connection, abr_opened, abr_table, library
from .cell import Buffer
from .connection import Connection, Member, Totals, instant
from .arguments import octets, u32, u64
from .params import Params
from .rates import Contract
from .refusal import accepted


class Table:
    """The connections of one link, none at first. A connection is named by VPI and VCI, a path by its VPI and PATH_VCI.
    Times are nanoseconds, rates whole numbers of 1/512 cell per second. A refused call raises Refused and changes
    nothing; include/abr.h has the refusals of each in order."""

    def __init__(self) -> None:
        self._table = abr_table()

    def copy(self) -> Table:
        """Another table with the same connections."""
        table = Table()
        table._table = abr_table.from_buffer_copy(self._table)
        return table

    def open(self, vpi: int, vci: int, time: int, params: Params) -> Opened:
        """Opens a channel; its leaf and the comparisons."""
        return _opened(library.abr_open(self._table, *_pair(vpi, vci), u64("time", time), params.as_c()))

    def close(self, vpi: int, vci: int) -> Closed:
        """Closes a connection, a path with its members, and drops what waits."""
        return _closed(library.abr_close(self._table, *_pair(vpi, vci)))

    def offer(self, vpi: int, vci: int, cells: int) -> int:
        """Adds data cells to those that wait on a channel; the comparisons."""
        return _comparisons(library.abr_offer(self._table, *_pair(vpi, vci), u64("cells", cells)))

    def acr(self, vpi: int, vci: int) -> Allowed:
        """The allowed rate of a connection, and what its last backward cell changed."""
        allowed = library.abr_acr(self._table, *_pair(vpi, vci))
        accepted(allowed.refusal)
        return Allowed(allowed.acr, allowed.change)

    def status(self, vpi: int, vci: int) -> Connection:
        """Everything of a channel, of a path, or of a member with its path."""
        return _connection(library.abr_status(self._table, *_pair(vpi, vci)))

    def at(self, leaf: int) -> Connection:
        """Everything of the connection in a leaf, a channel or a path."""
        return _connection(library.abr_at(self._table, u32("leaf", leaf)))

    def connections(self) -> Iterator[Connection]:
        """All that are open at this call, channels and paths, in the order of their leaves."""
        leaves = (library.abr_at(self._table, leaf) for leaf in range(CONNECTIONS_MAX))
        taken = (read for read in leaves if not read.refusal)
        return iter([Connection.from_c(read) for read in islice(taken, self.link().connections)])

    def member_at(self, number: int) -> Member:
        """The member with this number, counted from 0 in ascending order of VPI and VCI over all paths. The number
        changes as others are added and removed."""
        member = library.abr_member_at(self._table, u32("number", number))
        accepted(member.refusal)
        return Member(member.vpi, member.vci, member.waiting)

    def members(self) -> Iterator[Member]:
        """The members that all paths have at this call, in ascending order of VPI and VCI."""
        return iter([self.member_at(number) for number in range(self.link().members)])

    def link(self) -> Totals:
        """What belongs to no single connection: how many connections and members there are, the congestion level and
        the last accepted time."""
        link = library.abr_link(self._table)
        return Totals(link.connections, link.connections_max, link.members, link.level, link.last)

    def export(self, vpi: int, vci: int) -> Contract:
        """The rates that the open of a connection gave, as doubles in cells per second, exactly."""
        refusal = ctypes.c_uint32()
        contract = library.abr_export(self._table, *_pair(vpi, vci), refusal)
        accepted(refusal.value)
        return Contract(contract.pcr, contract.mcr, contract.icr)

    def open_path(self, vpi: int, time: int, params: Params) -> Opened:
        """Opens a path, without members; its leaf and the comparisons."""
        return _opened(library.abr_open_path(self._table, u32("vpi", vpi), u64("time", time), params.as_c()))

    def add_member(self, vpi: int, vci: int) -> None:
        """Makes a VCI a member of the path of its VPI."""
        _comparisons(library.abr_add_member(self._table, *_pair(vpi, vci)))

    def offer_member(self, vpi: int, vci: int, cells: int) -> int:
        """Adds data cells to those that wait on a member; the comparisons."""
        return _comparisons(library.abr_offer_member(self._table, *_pair(vpi, vci), u64("cells", cells)))

    def remove_member(self, vpi: int, vci: int) -> Closed:
        """Removes a member from its path, and drops what waits on it."""
        return _closed(library.abr_remove_member(self._table, *_pair(vpi, vci)))

    def receive(self, cell: bytes) -> Received:
        """Receives a cell; what it is, the leaf of its connection and that connection's allowed rate afterwards."""
        cell = octets("cell", cell)
        received = library.abr_receive(self._table, cell, len(cell))
        accepted(received.refusal)
        kind = ReceivedKind(received.kind)
        return Received(kind, received.vpi, received.vci, received.leaf, received.acr, received.comparisons)

    def set_level(self, level: int) -> None:
        """Sets the congestion level: 0 none, 1 no increase, 2 congestion."""
        accepted(library.abr_set_level(self._table, u32("level", level)))

    def make(self, vpi: int, vci: int, time: int) -> int:
        """Makes a backward RM cell on a connection; the comparisons."""
        return _comparisons(library.abr_make(self._table, *_pair(vpi, vci), u64("time", time)))

    def slot(self, time: int) -> Sent | None:
        """Gives the slot at a time to the connection with the earliest ready instant; None if it is idle."""
        cell = Buffer()
        sent = library.abr_slot(self._table, u64("time", time), cell, len(cell))
        accepted(sent.refusal)
        if not sent.kind:
            return None
        kind = Kind(sent.kind)
        written = None if kind is Kind.DATA else bytes(cell)
        rest = sent.comparisons, sent.leaf, sent.acr_before, bool(sent.made)
        return Sent(kind, sent.vpi, sent.vci, sent.acr, written, *rest)

    def next_ready(self) -> int | None:
        """The earliest ready instant: an accepted slot before it is idle, and one from then on is not. None if no
        connection is ever ready as things stand. An accepted offer, received RM cell, made cell, close or removal of a
        member, and a slot that sends may change it; no other call does."""
        return instant(library.abr_next_ready(self._table))

    def slot_time(self, now: int, lag: int) -> int:
        """The time to pass to a slot whose own time is now: the next ready instant if that has come, but not before the
        last accepted time, and at most lag behind now, so that the next gap counts from the instant at which the cell
        was ready. A now before the last accepted time comes back as it is, and a slot refuses it."""
        return int(library.abr_slot_time(self._table, u64("now", now), u64("lag", lag)))

    def out_of_rate(self, vpi: int, vci: int, time: int) -> bytes:
        """An out-of-rate forward RM cell of a connection, to be sent beside the slots."""
        cell = Buffer()
        accepted(library.abr_out_of_rate(self._table, *_pair(vpi, vci), u64("time", time), cell, len(cell)))
        return bytes(cell)


def _pair(vpi: int, vci: int) -> tuple[int, int]:
    return u32("vpi", vpi), u32("vci", vci)


def _opened(opened: abr_opened) -> Opened:
    accepted(opened.refusal)
    return Opened(opened.leaf, opened.comparisons)


def _connection(read: abr_connection) -> Connection:
    accepted(read.refusal)
    return Connection.from_c(read)


def _comparisons(answer: abr_answer) -> int:
    accepted(answer.refusal)
    return int(answer.comparisons)


def _closed(closed: abr_closed) -> Closed:
    accepted(closed.refusal)
    return Closed(closed.cells, closed.comparisons)

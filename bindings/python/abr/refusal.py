"""Why a call was refused (the manual, section 14)."""

from __future__ import annotations

import enum


class Refusal(enum.IntEnum):
    """The refusals, each with its number and its text. 3 is no longer given."""

    text: str

    def __new__(cls, number: int, text: str = "") -> Refusal:
        refusal = int.__new__(cls, number)
        refusal._value_ = number
        refusal.text = text
        return refusal

    LENGTH = 1, "cell or buffer is not 53 octets"
    HEADER_CHECK = 2, "octet 5 is wrong"
    PAYLOAD_TYPE = 4, "payload type is 4, 5 or 7"
    CRC = 5, "CRC-10 is wrong"
    PROTOCOL = 6, "protocol is not 1"
    RANGE = 7, "parameter, field, address or rate code is out of range"
    TIME = 8, "time is over 2^62"
    TOO_LARGE = 9, "level is over 2 or rate is above the largest"
    LOW_VCI = 10, "VCI is under 32"
    NOT_OPEN = 11, "connection is not open"
    ALREADY_OPEN = 12, "connection is already open"
    FULL = 13, "as many connections are open as there can be"
    TIME_BACKWARD = 14, "time is before the last accepted open, slot, made or out-of-rate cell"
    TOO_MUCH_DATA = 15, "waiting data would pass 65,535 cells"
    NOT_CONGESTED = 16, "congestion level is 0"
    MADE_TOO_SOON = 17, "less than 100 ms since the last cell made on this connection"
    OUT_OF_RATE_TOO_SOON = 18, "less than 100 ms since the last out-of-rate cell on this connection"
    RESERVED_BIT = 19, "reserved bit of a rate code is set"
    DOUBLE = 20, "not a rate: not a number, infinite, below 0, between 0 and 1, or 2^32 and more"
    TOO_MANY_DEMANDS = 21, "over 1,024 demands"
    DEMAND_TOO_LARGE = 22, "a demand is above the largest rate"
    TRACE_NUMBER = 23, "a number of a trace is not in shortest form or over 64 bits"
    TRACE_END = 24, "trace is empty or ends inside a record"
    TRACE_RANGE = 25, "n, Trm number, kind, rate or summed time of a trace is out of range"
    MEMBERS_FULL = 26, "256 members are in the engine"
    ALREADY_MEMBER = 27, "pair is already a member of its path"
    NOT_A_MEMBER = 28, "path is open, but the VCI is no member of it"
    TBE = 29, "TBE is 0 or over 16,777,215"
    FRTT = 30, "FRTT is over 16,700,000"


class Refused(Exception):
    """A call was refused, and has changed nothing."""

    def __init__(self, number: int):
        super().__init__(number)
        self.refusal = Refusal(number)

    @property
    def number(self) -> int:
        """The number of the refusal."""
        return int(self.refusal)

    @property
    def text(self) -> str:
        """What it means."""
        return self.refusal.text

    def __str__(self) -> str:
        return f"refused ({self.number}): {self.text}"


def accepted(number: int) -> None:
    """Raises the refusal with this number; 0 is none."""
    if number != 0:
        raise Refused(number)

"""The ABR end-system rate engine from Python, for planning tools that hold contracts as doubles.

A Table holds the connections of one link. Rates are whole numbers of 1/512 cell per second (RATE_ONE is one cell per
second), but for the doubles of Table.export and import_rate, which are in cells per second; times are nanoseconds. A
refused call raises Refused, with the number and the text of the refusal. A number that C's types cannot hold raises
OverflowError, before any call."""

# All that is imported here is what the package offers, which the second name says to a checker of types.
# flake8: noqa: F401, F403
from .answers import Allowed as Allowed, Closed as Closed, Kind as Kind, Opened as Opened, Received as Received
from .answers import ReceivedKind as ReceivedKind, Sent as Sent
from .c import COMPARISONS_MAX as COMPARISONS_MAX, CONNECTIONS_MAX as CONNECTIONS_MAX, TABLE_WORDS as TABLE_WORDS
from .cell import Data as Data, Rm as Rm, read as read, write_rm as write_rm
from .connection import Connection as Connection, ConnectionKind as ConnectionKind, Member as Member, Totals as Totals
from .constants import *
from .params import Params as Params
from .rates import Contract as Contract, Imported as Imported, code as code, import_rate as import_rate, rate as rate
from .refusal import Refusal as Refusal, Refused as Refused
from .switch import fair_share as fair_share, limit as limit, port as port
from .table import Table as Table
from .traces import Breach as Breach, Rule as Rule, judge as judge

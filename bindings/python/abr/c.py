"""The C interface: structs and functions as include/abr.h declares them, and the shared object."""

from ctypes import POINTER, PyDLL, Structure, c_char_p, c_double, c_int64, c_size_t, c_uint8, c_uint32, c_uint64
import os
from pathlib import Path

from .constants import VERSION


def path() -> str:
    """The shared object: the one that ABR_SHARED names, else, installed from a wheel, that beside this file, else, in
    an unpacked delivery, that of its lib, else the one that the loader finds by its name."""
    name = f"libabr.so.{VERSION >> 16}"
    here = Path(__file__).resolve()
    delivered = [place / name for place in (here.parent, here.parents[2] / "lib") if (place / name).is_file()]
    return os.environ.get("ABR_SHARED") or (str(delivered[0]) if delivered else name)


def serves(version: int) -> bool:
    """Whether a library of a version serves this binding, as abr_matches of the header says: the major number is the
    same and the minor number not earlier."""
    return version >> 16 == VERSION >> 16 and version >> 8 >= VERSION >> 8


def load(name: str) -> PyDLL:
    """Loads the shared object, which may be of any edition; its version must serve this binding. The interpreter's lock
    is held while a call runs (PyDLL), so that no two threads are in one table; where Python runs without that lock, the
    caller must see to it."""
    library = PyDLL(name)
    library.abr_version.restype = c_uint32
    if not serves(library.abr_version()):
        raise ImportError(f"{name} is of another version than this binding")
    return library


library = load(path())
library.abr_table_words.restype = c_uint32

# The words of a table of the loaded edition.
TABLE_WORDS = library.abr_table_words()


class abr_table(Structure):
    _fields_ = [("words", c_uint64 * TABLE_WORDS)]


class abr_params(Structure):
    _fields_ = [(name, c_uint32) for name in "pcr mcr icr n r d c tbe frtt adtf trm".split()]


class abr_rm(Structure):
    _fields_ = [(name, c_uint32) for name in "vpi vci dir bn ci ni ra er ccr mcr ql sn".split()]


class abr_opened(Structure):
    _fields_ = [("refusal", c_uint32), ("comparisons", c_uint32), ("leaf", c_uint32)]


class abr_answer(Structure):
    _fields_ = [("refusal", c_uint32), ("comparisons", c_uint32)]


class abr_received(Structure):
    _fields_ = [(name, c_uint32) for name in "refusal comparisons kind vpi vci leaf".split()] + [("acr", c_uint64)]


class abr_closed(Structure):
    _fields_ = [("refusal", c_uint32), ("comparisons", c_uint32), ("cells", c_uint64)]


class abr_sent(Structure):
    _fields_ = [
        *((name, c_uint32) for name in "refusal comparisons kind vpi vci leaf".split()),
        *((name, c_uint64) for name in "acr acr_before".split()),
        *((name, c_uint32) for name in "made reserved".split()),
    ]


class abr_allowed(Structure):
    _fields_ = [("refusal", c_uint32), ("reserved", c_uint32), ("acr", c_uint64), ("change", c_int64)]


class abr_connection(Structure):
    _fields_ = [
        *((name, c_uint32) for name in "refusal kind vpi vci leaf waiting".split()),
        ("params", abr_params),
        ("crm", c_uint32),
        *((name, c_uint64) for name in "icr_used acr".split()),
        ("change", c_int64),
        *((name, c_uint64) for name in "opened last_sent last_forward ready last_made last_out_of_rate".split()),
        *((name, c_uint32) for name in "k unanswered backward_sent efci turned made_level served reserved".split()),
    ]


class abr_member(Structure):
    _fields_ = [(name, c_uint32) for name in "refusal vpi vci waiting".split()]


class abr_totals(Structure):
    _fields_ = [
        *((name, c_uint32) for name in "connections connections_max members level".split()),
        ("last", c_uint64),
    ]


class abr_cell(Structure):
    _fields_ = [("refusal", c_uint32), ("kind", c_uint32), ("efci", c_uint32), ("rm", abr_rm)]


class abr_coded(Structure):
    _fields_ = [("refusal", c_uint32), ("code", c_uint32)]


class abr_rated(Structure):
    _fields_ = [("refusal", c_uint32), ("reserved", c_uint32), ("rate", c_uint64)]


class abr_contract(Structure):
    _fields_ = [("pcr", c_double), ("mcr", c_double), ("icr", c_double)]


class abr_imported(Structure):
    _fields_ = [("refusal", c_uint32), ("code", c_uint32), ("remainder", c_double)]


class abr_share(Structure):
    _fields_ = [("refusal", c_uint32), ("limited", c_uint32), ("rate", c_uint64)]


class abr_verdict(Structure):
    _fields_ = [("refusal", c_uint32), ("rule", c_uint32), ("cell", c_uint64)]


TABLE, RATES, READ, WRITTEN = POINTER(abr_table), POINTER(c_uint64), c_char_p, POINTER(c_uint8)

# What each function returns, and its arguments.
FUNCTIONS = {
    "abr_version": (c_uint32, []),
    "abr_table_words": (c_uint32, []),
    "abr_open": (abr_opened, [TABLE, c_uint32, c_uint32, c_uint64, abr_params]),
    "abr_close": (abr_closed, [TABLE, c_uint32, c_uint32]),
    "abr_offer": (abr_answer, [TABLE, c_uint32, c_uint32, c_uint64]),
    "abr_acr": (abr_allowed, [TABLE, c_uint32, c_uint32]),
    "abr_status": (abr_connection, [TABLE, c_uint32, c_uint32]),
    "abr_at": (abr_connection, [TABLE, c_uint32]),
    "abr_member_at": (abr_member, [TABLE, c_uint32]),
    "abr_link": (abr_totals, [TABLE]),
    "abr_export": (abr_contract, [TABLE, c_uint32, c_uint32, POINTER(c_uint32)]),
    "abr_open_path": (abr_opened, [TABLE, c_uint32, c_uint64, abr_params]),
    "abr_add_member": (abr_answer, [TABLE, c_uint32, c_uint32]),
    "abr_offer_member": (abr_answer, [TABLE, c_uint32, c_uint32, c_uint64]),
    "abr_remove_member": (abr_closed, [TABLE, c_uint32, c_uint32]),
    "abr_receive": (abr_received, [TABLE, READ, c_size_t]),
    "abr_set_level": (c_uint32, [TABLE, c_uint32]),
    "abr_make": (abr_answer, [TABLE, c_uint32, c_uint32, c_uint64]),
    "abr_slot": (abr_sent, [TABLE, c_uint64, WRITTEN, c_size_t]),
    "abr_next_ready": (c_uint64, [TABLE]),
    "abr_slot_time": (c_uint64, [TABLE, c_uint64, c_uint64]),
    "abr_out_of_rate": (c_uint32, [TABLE, c_uint32, c_uint32, c_uint64, WRITTEN, c_size_t]),
    "abr_write_rm": (c_uint32, [abr_rm, WRITTEN, c_size_t]),
    "abr_read": (abr_cell, [READ, c_size_t]),
    "abr_code": (abr_coded, [c_uint64]),
    "abr_rate": (abr_rated, [c_uint32]),
    "abr_import": (abr_imported, [c_double]),
    "abr_house": (abr_params, [c_uint32, c_uint32, c_uint32]),
    "abr_fair_share": (abr_share, [c_uint64, RATES, c_size_t]),
    "abr_limit": (c_uint32, [c_uint64, WRITTEN, c_size_t]),
    "abr_port": (c_uint32, [c_uint64, RATES, c_size_t, WRITTEN, c_size_t]),
    "abr_judge": (abr_verdict, [READ, c_size_t]),
}


def declare(library: PyDLL) -> None:
    """Gives the functions of the shared object their types."""
    for name, (returned, arguments) in FUNCTIONS.items():
        function = getattr(library, name)
        function.restype, function.argtypes = returned, arguments


declare(library)

# The connections of the loaded edition, and the most comparisons of a call, the rounds of its tournament.
CONNECTIONS_MAX = library.abr_link(abr_table()).connections_max
COMPARISONS_MAX = CONNECTIONS_MAX.bit_length() - 1

"""Numbers that C's types cannot hold and objects that are no octets are never passed on, and nothing is cut."""

import array
from dataclasses import fields, replace
from decimal import Decimal
import inspect
import unittest

import abr

HOUSE = abr.Params.house(0x53E8, 0x4000, 0x53E8)
CELL = abr.write_rm(abr.Rm(1, 32, dir=1, er=0x7FFF))


def opened():
    """A table with VCI 32 on VPI 1, on which data waits."""
    table = abr.Table()
    table.open(1, 32, 0, HOUSE)
    table.offer(1, 32, 5)
    return table


# The bits of the numbers that calls take, by their names, and arguments of every name with which a call may be made.
BITS = dict(vpi=32, vci=32, time=64, now=64, lag=64, cells=64, level=32, rate=64, code=32, capacity=64)
BITS |= dict(pcr=32, mcr=32, icr=32, leaf=32, number=32)
GOOD = {name: 32 for name in BITS}
GOOD |= dict(params=HOUSE, rm=abr.Rm(1, 32), cell=CELL, trace=b"\x05\x07", demands=[1], cells_per_second=1.0)

# Every call: those on a table, and those without.
METHODS = {name: call for name, call in vars(abr.Table).items() if not name.startswith("_")}
FUNCTIONS = {name: call for name, call in vars(abr).items() if inspect.isfunction(call)} | {"house": abr.Params.house}


def names_of(call):
    """The names of a call's arguments, but for the table."""
    return [name for name in inspect.signature(call).parameters if name != "self"]


def with_number(name, call, argument):
    """A call with a number left open; it is given a table too."""
    def made(table, x):
        arguments = {each: GOOD[each] for each in names_of(call)} | {argument: x}
        return call(table, **arguments) if name in METHODS else call(**arguments)
    return made


# Each call with one number left open, and the bits of that number.
NUMBERS = {
    f"{name} {argument}": (BITS[argument], with_number(name, call, argument))
    for name, call in (METHODS | FUNCTIONS).items()
    for argument in names_of(call)
    if argument in BITS
}
NUMBERS["fair_share demand"] = (64, lambda table, x: abr.fair_share(0, [1, x]))
NUMBERS["port demand"] = (64, lambda table, x: abr.port(0, [x], CELL))
for name in (field.name for field in fields(abr.Params)):
    NUMBERS[f"params {name}"] = (32, lambda table, x, name=name: table.open(2, 32, 0, replace(HOUSE, **{name: x})))
for name in (field.name for field in fields(abr.Rm)):
    NUMBERS[f"rm {name}"] = (32, lambda table, x, name=name: abr.write_rm(replace(abr.Rm(1, 32), **{name: x})))

# Each call that takes octets.
OCTETS = {
    "receive": lambda table, x: table.receive(x),
    "read": lambda table, x: abr.read(x),
    "limit": lambda table, x: abr.limit(512, x),
    "port": lambda table, x: abr.port(512, [1024], x),
    "judge": lambda table, x: abr.judge(x),
}


class Numbers(unittest.TestCase):
    def test_every_call_and_every_argument_is_known(self):
        calls = METHODS | FUNCTIONS
        self.assertEqual({name for call in calls.values() for name in names_of(call)}, set(GOOD))
        functions = {f"abr_{name}" for name in calls.keys() - {"copy", "connections", "members", "import_rate"}}
        functions |= {"abr_import"}
        self.assertEqual(functions | {"abr_version", "abr_table_words"}, set(abr.c.FUNCTIONS))

    def test_a_number_with_too_many_bits_is_not_cut(self):
        for name, (bits, call) in NUMBERS.items():
            for wrong in (-1, 1 << bits, (1 << bits) + 32, 1 << 200):
                table = opened()
                before = bytes(table._table)
                with self.subTest(name, wrong=wrong):
                    self.assertRaises(OverflowError, call, table, wrong)
                    self.assertEqual(bytes(table._table), before)

    def test_the_greatest_number_reaches_the_library(self):
        for name, (bits, call) in NUMBERS.items():
            with self.subTest(name):
                try:
                    call(opened(), (1 << bits) - 1)
                except abr.Refused:
                    pass

    def test_what_is_no_whole_number_is_not_rounded(self):
        for name, (_, call) in NUMBERS.items():
            for wrong in (1.0, 1.5, "1", None):
                with self.subTest(name, wrong=wrong):
                    self.assertRaises(TypeError, call, opened(), wrong)

    def test_the_error_names_the_argument(self):
        self.assertRaisesRegex(OverflowError, r"^vci is 4294967296, ", opened().close, 1, 1 << 32)
        self.assertRaisesRegex(OverflowError, r"^demands\[1\] is -1, ", abr.fair_share, 1, [1, -1])


class Doubles(unittest.TestCase):
    def test_only_floats_and_whole_numbers_are_imported(self):
        self.assertEqual(abr.import_rate(1000), abr.Imported(0x53E8, 0.0))
        for wrong in (Decimal("1000.1"), "1000", None, 1j):
            with self.subTest(wrong=wrong):
                self.assertRaises(TypeError, abr.import_rate, wrong)
        for wrong in (2**53 + 1, -(2**53) - 1, 10**400):
            with self.subTest(wrong=wrong):
                self.assertRaises(OverflowError, abr.import_rate, wrong)
        self.assertRaises(abr.Refused, abr.import_rate, 2**53 + 2)  # a double, and above 2^32


class Octets(unittest.TestCase):
    def test_what_has_no_octets_is_not_passed_on(self):
        for name, call in OCTETS.items():
            for wrong in (53, "x" * 53, None, [0] * 53, array.array("I", [0] * 53)):
                with self.subTest(name, wrong=wrong):
                    self.assertRaises(TypeError, call, opened(), wrong)

    def test_the_length_is_that_of_the_octets(self):
        for name, call in OCTETS.items():
            for length in (0, 1, 52, 54, 53 + 256):
                with self.subTest(name, length=length), self.assertRaises(abr.Refused) as refused:
                    call(opened(), bytes(length))
                expected = {abr.Refusal.LENGTH} if name != "judge" else {abr.Refusal.TRACE_END, abr.Refusal.TRACE_RANGE}
                self.assertIn(refused.exception.refusal, expected)

    def test_every_sort_of_octets_is_taken_and_left_as_it_is(self):
        for sort in (bytes, bytearray, memoryview, lambda cell: memoryview(cell + cell)[:53]):
            given = sort(CELL)
            self.assertEqual(abr.read(given).er, 0x7FFF)
            self.assertEqual(abr.read(abr.limit(512, given)).er, 0x4000)
            self.assertEqual(abr.read(abr.port(512, [1024], given)).er, 0x4000)
            opened().receive(given)
            self.assertEqual(bytes(given), CELL)

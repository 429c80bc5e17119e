"""Every call through the binding, with numbers computed by hand from documents 01 and 02."""

from dataclasses import replace
import math
import pickle
import re
import subprocess
import sys
from pathlib import Path
import unittest

import abr
from abr import ConnectionKind, Kind, ReceivedKind, Refusal, Rm

MS = 1_000_000
THOUSAND = 0x53E8  # the code of 1,000 cells per second
RATE = 512_000
HOUSE = abr.Params.house(THOUSAND, 0x4000, THOUSAND)


class Calls(unittest.TestCase):
    def setUp(self):
        self.table = abr.Table()

    def refused(self, refusal, call, *arguments):
        """The call is refused so, and leaves every octet of the table."""
        before = bytes(self.table._table)
        with self.assertRaises(abr.Refused) as caught:
            call(*arguments)
        self.assertIs(caught.exception.refusal, refusal)
        self.assertEqual(bytes(self.table._table), before)

    def opened(self, cells=0):
        """VCI 32 on VPI 1, with so many data cells."""
        self.assertEqual(self.table.open(1, 32, 0, HOUSE), abr.Opened(leaf=0, comparisons=1))
        if cells:
            self.assertEqual(self.table.offer(1, 32, cells), abr.COMPARISONS_MAX)

    def kinds(self, *times):
        """What the slots at these times send."""
        return [sent and sent.kind for sent in map(self.table.slot, times)]


class Connections(Calls):
    def test_open_and_close(self):
        self.opened(7)
        self.refused(Refusal.ALREADY_OPEN, self.table.open, 1, 32, 0, HOUSE)
        self.refused(Refusal.LOW_VCI, self.table.open, 1, 31, 0, HOUSE)
        self.refused(Refusal.RANGE, self.table.open, 256, 32, 0, HOUSE)
        self.refused(Refusal.TBE, self.table.open, 2, 32, 0, replace(HOUSE, tbe=0))
        self.refused(Refusal.FRTT, self.table.open, 2, 32, 0, replace(HOUSE, frtt=abr.FRTT_MAX + 1))
        self.refused(Refusal.TIME, self.table.open, 2, 32, abr.TIME_MAX + 1, HOUSE)
        self.assertEqual(self.table.close(1, 32), abr.Closed(cells=7, comparisons=abr.COMPARISONS_MAX))
        self.refused(Refusal.NOT_OPEN, self.table.close, 1, 32)

    def test_as_many_are_open_as_there_can_be(self):
        leaves = range(abr.CONNECTIONS_MAX)
        self.assertEqual([self.table.open(1, 32 + leaf, 0, HOUSE).leaf for leaf in leaves], list(leaves))
        self.refused(Refusal.FULL, self.table.open, 2, 32, 0, HOUSE)
        self.assertEqual([each.leaf for each in self.table.connections()], list(leaves))

    def test_an_open_takes_the_lowest_free_leaf(self):
        self.assertEqual([self.table.open(1, vci, 0, HOUSE).leaf for vci in (34, 33, 32)], [0, 1, 2])
        self.table.close(1, 33)
        self.table.close(1, 34)
        self.assertEqual(self.table.open_path(7, 0, HOUSE).leaf, 0)
        self.assertEqual(self.table.open(1, 40, 0, HOUSE).leaf, 1)
        self.assertEqual(self.table.open(1, 41, 0, HOUSE).leaf, 3)

    def test_offers_fill_a_connection(self):
        self.opened(abr.WAITING_MAX)
        self.refused(Refusal.TOO_MUCH_DATA, self.table.offer, 1, 32, 1)
        self.refused(Refusal.NOT_OPEN, self.table.offer, 0, 65_568, 1)  # not 1 and 32

    def test_slots_and_the_next_ready_instant(self):
        self.assertIsNone(self.table.next_ready())
        self.assertIsNone(self.table.slot(0))
        self.opened(2)
        self.assertEqual(self.table.next_ready(), 0)
        sent = self.table.slot(5)
        self.assertEqual(sent[:4], (Kind.FORWARD, 1, 32, RATE))
        self.assertEqual(abr.read(sent.cell), Rm(1, 32, er=THOUSAND, ccr=THOUSAND, mcr=0x4000))
        self.assertEqual(self.table.next_ready(), 5 + MS)
        self.assertIsNone(self.table.slot(4 + MS))
        data = abr.Sent(Kind.DATA, 1, 32, RATE, None, abr.COMPARISONS_MAX, leaf=0, acr_before=RATE, made=False)
        self.assertEqual(self.table.slot(5 + MS), data)
        self.refused(Refusal.TIME_BACKWARD, self.table.slot, 4 + MS)

    def test_the_time_to_pass_to_a_slot(self):
        self.opened(2)
        self.table.slot(5)  # ready again at 5 ns + 1 ms
        self.assertEqual(self.table.slot_time(MS, MS), MS)
        self.assertEqual(self.table.slot_time(2 * MS, MS), 5 + MS)
        self.assertEqual(self.table.slot_time(2 * MS, 7), 2 * MS - 7)
        self.assertEqual(self.table.slot_time(2 * MS, 0), 2 * MS)
        self.assertEqual(self.table.slot_time(2 * MS, 2**64 - 1), 5 + MS)
        self.assertIs(self.table.slot(self.table.slot_time(2 * MS, MS)).kind, Kind.DATA)
        self.assertEqual(self.table.slot_time(4 + MS, MS), 4 + MS)  # before the last time
        self.refused(Refusal.TIME_BACKWARD, self.table.slot, 4 + MS)

    def test_feedback_moves_the_rate(self):
        self.opened()
        self.assertEqual(self.table.acr(1, 32), abr.Allowed(acr=RATE, change=0))
        received = self.table.receive(abr.write_rm(Rm(1, 32, dir=1, ci=1, er=0x7FFF)))
        self.assertEqual(received, abr.Received(ReceivedKind.BACKWARD, 1, 32, leaf=0, acr=480_000, comparisons=1))
        self.assertEqual(self.table.acr(1, 32), abr.Allowed(acr=480_000, change=-32_000))
        self.refused(Refusal.NOT_OPEN, self.table.acr, 1, 33)
        self.refused(Refusal.NOT_OPEN, self.table.receive, abr.write_rm(Rm(2, 32, dir=1)))

    def test_a_slot_answers_the_rate_before_its_cell_too(self):
        self.table.open(2, 32, 0, HOUSE)
        self.table.open(1, 32, 0, abr.Params.house(THOUSAND, 0x4000, 0x4600))  # it starts with 8 cells per second
        self.assertEqual(self.table.receive(abr.write_rm(Rm(1, 32, dir=1, er=0x7FFF))).acr, 4_096 + RATE // 16)
        self.table.offer(1, 32, 1)
        sent = self.table.slot(0)  # the first cell brings the rate down to the initial one
        self.assertEqual((sent.leaf, sent.acr_before, sent.acr, sent.made), (1, 36_096, 4_096, False))

    def test_a_cell_is_turned_and_one_is_made(self):
        self.opened()
        self.refused(Refusal.NOT_CONGESTED, self.table.make, 1, 32, 0)
        self.table.set_level(2)
        self.refused(Refusal.TOO_LARGE, self.table.set_level, 3)
        received = self.table.receive(abr.write_rm(Rm(1, 32, er=0x4000, ccr=0x4000, mcr=0x4000)))
        most = abr.COMPARISONS_MAX
        self.assertEqual(received, abr.Received(ReceivedKind.FORWARD, 1, 32, leaf=0, acr=RATE, comparisons=most))
        self.assertEqual(self.table.make(1, 32, 0), most)
        self.refused(Refusal.MADE_TOO_SOON, self.table.make, 1, 32, abr.MAKE_INTERVAL - 1)
        self.assertIs(self.table.slot(0).kind, Kind.FORWARD)
        turned, made = self.table.slot(MS), self.table.slot(2 * MS)
        self.assertEqual((turned.kind, made.kind), (Kind.TURNED, Kind.TURNED))
        self.assertEqual((turned.made, made.made), (False, True))
        self.assertEqual(abr.read(turned.cell), Rm(1, 32, dir=1, ci=1, er=0x4000, ccr=0x4000, mcr=0x4000))
        self.assertEqual(abr.read(made.cell), Rm(1, 32, dir=1, bn=1, ci=1, er=THOUSAND))

    def test_out_of_rate_cells_at_rate_0(self):
        self.table.open(1, 32, 0, abr.Params.house(THOUSAND, 0, 0))
        self.assertEqual(self.table.offer(1, 32, 1), 1)
        self.assertIsNone(self.table.next_ready())
        cell = self.table.out_of_rate(1, 32, 9)
        self.assertEqual(abr.read(cell), Rm(1, 32, er=THOUSAND))
        self.assertEqual(cell[3] & 1, 1)  # CLP
        self.refused(Refusal.OUT_OF_RATE_TOO_SOON, self.table.out_of_rate, 1, 32, 8 + abr.OUT_OF_RATE_INTERVAL)

    def test_a_path_and_its_members(self):
        self.assertEqual(self.table.open_path(7, 0, HOUSE), abr.Opened(leaf=0, comparisons=1))
        for vci in (50, 40):
            self.assertIsNone(self.table.add_member(7, vci))
            self.assertEqual(self.table.offer_member(7, vci, 2), abr.COMPARISONS_MAX)
        self.refused(Refusal.ALREADY_MEMBER, self.table.add_member, 7, 40)
        self.refused(Refusal.NOT_A_MEMBER, self.table.offer, 7, abr.PATH_VCI, 1)
        self.refused(Refusal.NOT_A_MEMBER, self.table.remove_member, 7, 41)
        self.refused(Refusal.NOT_A_MEMBER, self.table.remove_member, 7, 65_576)  # not 40
        self.refused(Refusal.NOT_A_MEMBER, self.table.offer_member, 7, 65_576, 1)
        sent = [self.table.slot(time * MS)[:3] for time in range(3)]
        self.assertEqual(sent, [(Kind.FORWARD, 7, 6), (Kind.DATA, 7, 40), (Kind.DATA, 7, 50)])
        self.assertEqual(self.table.remove_member(7, 40), abr.Closed(cells=1, comparisons=abr.COMPARISONS_MAX))
        self.assertEqual(self.table.acr(7, abr.PATH_VCI).acr, RATE)
        self.assertEqual(self.table.close(7, abr.PATH_VCI).cells, 1)

    def test_the_setup_lowers_the_initial_rate_and_the_export_does_not_show_it(self):
        self.table.open(1, 32, 0, replace(HOUSE, tbe=64, frtt=128_000))
        self.assertEqual(self.table.acr(1, 32).acr, 256_000)
        self.assertEqual(self.table.export(1, 32), abr.Contract(pcr=1000.0, mcr=1.0, icr=1000.0))
        self.refused(Refusal.NOT_OPEN, self.table.export, 1, 33)

    def test_a_copy_is_another_table(self):
        self.opened(2)
        other = self.table.copy()
        self.assertEqual(other.slot(0), self.table.copy().slot(0))
        self.assertEqual((self.table.next_ready(), other.next_ready()), (0, MS))


class Readings(Calls):
    # 100 cells before feedback and a round trip of 200 ms: a CRM of 100 / 32, rounded up, and 500 cells per second.
    PARAMS = replace(HOUSE, tbe=100, frtt=200_000)
    PATH = (3, abr.PATH_VCI)
    # A data cell of VPI 3 and VCI 40 with its congestion mark.
    MARKED = bytes([0x00, 0x30, 0x02, 0x84, 0x0B]) + bytes(48)

    def setUp(self):
        super().setUp()
        self.table.open_path(3, 5, self.PARAMS)
        for vci, cells in ((50, 2), (40, 7)):
            self.table.add_member(3, vci)
            self.table.offer_member(3, vci, cells)

    def opened_beside(self):
        """VCI 33 on VPI 1 in leaf 2; leaf 1 is free again."""
        for vci in (32, 33):
            self.table.open(1, vci, 5, HOUSE)
        self.table.close(1, 32)

    def used(self):
        """The path with a cell of every sort sent or waiting."""
        self.table.slot(7)
        self.table.set_level(2)
        self.table.make(*self.PATH, 9)
        self.table.out_of_rate(*self.PATH, 11)
        self.table.receive(abr.write_rm(Rm(*self.PATH)))
        received = self.table.receive(self.MARKED)
        self.assertEqual(received[:5], (ReceivedKind.DATA, 3, 40, 0, RATE // 2))
        self.assertTrue(self.table.status(*self.PATH).turned)
        self.assertEqual(self.kinds(7 + 2 * MS, 7 + 4 * MS), [Kind.TURNED, Kind.DATA])
        self.table.receive(abr.write_rm(Rm(*self.PATH, dir=1, ci=1, er=0x7FFF)))

    def fresh(self):
        """The path before its first cell."""
        never = dict.fromkeys(("last_sent", "last_forward", "last_made", "last_out_of_rate"))
        marks = dict.fromkeys(("backward_sent", "efci", "turned"), False)
        zeros = dict.fromkeys(("change", "k", "unanswered", "made_level", "served"), 0)
        return abr.Connection(
            ConnectionKind.PATH, *self.PATH, leaf=0, waiting=9, params=self.PARAMS, crm=4, icr_used=RATE // 2,
            acr=RATE // 2, opened=5, ready=5, **never, **marks, **zeros)

    def test_everything_of_a_path_and_of_its_members(self):
        self.assertEqual(self.table.status(*self.PATH), self.fresh())
        self.used()
        path = replace(
            self.fresh(), waiting=8, acr=240_000, change=-16_000, last_sent=7 + 4 * MS, last_forward=7, last_made=9,
            last_out_of_rate=11, ready=7 + 4 * MS + 2_133_334, k=2, backward_sent=True, efci=True, made_level=2,
            served=40)
        self.assertEqual(self.table.status(*self.PATH), path)
        for vci, cells in ((40, 6), (50, 2)):
            member = replace(path, kind=ConnectionKind.MEMBER, vci=vci, waiting=cells)
            self.assertEqual(self.table.status(3, vci), member)
        self.refused(Refusal.NOT_OPEN, self.table.status, 3, 41)
        self.refused(Refusal.NOT_OPEN, self.table.status, 0, 3 << 16 | 40)

    def test_unanswered_forward_cells(self):
        self.table.slot(7)
        self.assertEqual(self.table.status(*self.PATH).unanswered, 1)
        self.table.receive(abr.write_rm(Rm(*self.PATH, dir=1, bn=1, ni=1, er=0x7FFF)))
        self.assertEqual(self.table.status(*self.PATH).unanswered, 1)
        self.table.receive(abr.write_rm(Rm(*self.PATH, dir=1, ni=1, er=0x7FFF)))
        self.assertEqual(self.table.status(*self.PATH).unanswered, 0)

    def test_connections_by_their_leaves(self):
        self.opened_beside()
        self.assertEqual(self.table.at(0), self.table.status(*self.PATH))
        self.assertEqual(self.table.at(2), self.table.status(1, 33))
        self.assertIs(self.table.at(2).kind, ConnectionKind.CHANNEL)
        for leaf in (1, 3, abr.CONNECTIONS_MAX - 1, abr.CONNECTIONS_MAX, 2**32 - 1):
            self.refused(Refusal.NOT_OPEN, self.table.at, leaf)
        self.assertEqual([(each.vpi, each.vci) for each in self.table.connections()], [self.PATH, (1, 33)])

    def test_members_in_ascending_order(self):
        self.table.open_path(2, 5, HOUSE)
        self.table.add_member(2, 60)
        members = [abr.Member(2, 60, 0), abr.Member(3, 40, 7), abr.Member(3, 50, 2)]
        self.assertEqual([self.table.member_at(number) for number in range(3)], members)
        self.assertEqual(list(self.table.members()), members)
        self.refused(Refusal.NOT_OPEN, self.table.member_at, 3)

    def test_the_link(self):
        empty = abr.Totals(connections=0, connections_max=abr.CONNECTIONS_MAX, members=0, level=0, last=0)
        self.assertEqual(abr.Table().link(), empty)
        self.opened_beside()
        self.table.set_level(1)
        self.assertEqual(self.table.link(), empty._replace(connections=2, members=2, level=1, last=5))
        self.table.slot(9)
        self.assertEqual(self.table.link().last, 9)

    def test_what_is_listed_may_be_closed_on_the_way(self):
        self.opened_beside()
        for member in self.table.members():
            self.table.remove_member(member.vpi, member.vci)
        for connection in self.table.connections():
            self.table.close(connection.vpi, connection.vci)
        self.assertEqual((self.table.link().connections, self.table.link().members), (0, 0))

    def test_readings_leave_the_table(self):
        self.used()
        before = bytes(self.table._table)
        table = self.table
        calls = [(table.status, 3, 40), (table.at, 0), (table.member_at, 1)]
        for call, *arguments in calls + [(table.link,), (table.connections,), (table.members,)]:
            call(*arguments)
            self.assertEqual(bytes(table._table), before, call.__name__)


class WithoutATable(unittest.TestCase):
    def refused(self, refusal, call, *arguments):
        with self.assertRaises(abr.Refused) as caught:
            call(*arguments)
        self.assertIs(caught.exception.refusal, refusal)

    def test_codes_and_rates(self):
        self.assertEqual((abr.code(RATE), abr.code(511), abr.code(abr.RATE_MAX)), (THOUSAND, 0, abr.CODE_MAX))
        self.assertEqual((abr.rate(0x4000), abr.rate(abr.CODE_MAX)), (512, abr.RATE_MAX))
        self.refused(Refusal.TOO_LARGE, abr.code, abr.RATE_MAX + 1)
        self.refused(Refusal.RESERVED_BIT, abr.rate, 0x8000)
        self.refused(Refusal.RANGE, abr.rate, 0x10000)

    def test_doubles(self):
        self.assertEqual(abr.import_rate(1000.75), abr.Imported(THOUSAND, 0.75))
        self.assertEqual(abr.import_rate(-0.0), abr.Imported(0, 0.0))
        for cells in (1.0, 1.001953125, 333.3, 4294967295.5, math.nextafter(1000.0, 0)):
            code, remainder = abr.import_rate(cells)
            self.assertEqual(abr.rate(code) / abr.RATE_ONE + remainder, cells)
            self.assertGreaterEqual(remainder, 0)
        for wrong in (0.5, -1.0, math.nan, math.inf, 2.0**32, 2**32, 5e-324):
            self.refused(Refusal.DOUBLE, abr.import_rate, wrong)

    def test_every_code_comes_back_from_its_double(self):
        for code in range(0x4000, 0x8000):
            self.assertEqual(abr.import_rate(abr.rate(code) / abr.RATE_ONE), (code, 0.0))

    def test_cells(self):
        rm = Rm(vpi=255, vci=65535, dir=1, bn=0, ci=1, ni=0, ra=1, er=0x4001, ccr=0x5002, mcr=0x6003, ql=1 << 31, sn=7)
        cell = abr.write_rm(rm)
        self.assertEqual((len(cell), abr.read(cell)), (abr.CELL_OCTETS, rm))
        self.refused(Refusal.RANGE, abr.write_rm, replace(rm, vpi=256))
        self.refused(Refusal.CRC, abr.read, cell[:20] + bytes([cell[20] ^ 1]) + cell[21:])
        self.refused(Refusal.LENGTH, abr.read, cell[1:])
        data = bytes([0, 0, 0, 1, 0x52]) + bytes(48)
        self.assertEqual(abr.read(data), abr.Data(vpi=0, vci=0, efci=0))

    def test_shares_and_ports(self):
        self.assertEqual(abr.fair_share(10, [2, 8, 8]), 4)
        self.assertEqual(abr.fair_share(0, [1]), 0)
        self.assertIsNone(abr.fair_share(18, (2, 8, 8)))
        self.assertIsNone(abr.fair_share(0, iter([])))
        self.refused(Refusal.TOO_MANY_DEMANDS, abr.fair_share, 0, [0] * 1025)
        self.refused(Refusal.DEMAND_TOO_LARGE, abr.fair_share, 0, [abr.RATE_MAX + 1])
        backward, forward = (abr.write_rm(Rm(1, 32, dir=way, er=0x7FFF)) for way in (1, 0))
        self.assertEqual(abr.read(abr.port(2 * RATE, [RATE, 9 * RATE], backward)).er, THOUSAND)
        self.assertEqual(abr.port(2 * RATE, [RATE, RATE], backward), backward)
        self.assertEqual(abr.limit(RATE, forward), forward)
        self.assertEqual(abr.limit(RATE, backward), abr.write_rm(Rm(1, 32, dir=1, er=THOUSAND)))
        self.refused(Refusal.LENGTH, abr.port, 0, [], b"")

    def test_the_judge(self):
        trace = bytes([5, 7, 0, 1, 0, 0xC0, 0x84, 0x3D, 3, 0x80, 0xA0, 0x1F])
        self.assertIsNone(abr.judge(trace))
        early = trace[:5] + bytes([trace[5] - 1]) + trace[6:]
        self.assertEqual(abr.judge(early), abr.Breach(cell=2, rule=abr.Rule.GAP))
        self.refused(Refusal.TRACE_END, abr.judge, b"")
        self.refused(Refusal.TRACE_NUMBER, abr.judge, b"\x85\x00")
        self.refused(Refusal.TRACE_RANGE, abr.judge, b"\x09")

    def test_a_refusal_has_number_and_text(self):
        refused = abr.Refused(11)
        self.assertEqual((refused.number, refused.text), (11, "connection is not open"))
        self.assertEqual(str(refused), "refused (11): connection is not open")
        self.assertEqual(pickle.loads(pickle.dumps(refused)).refusal, Refusal.NOT_OPEN)


class Examples(unittest.TestCase):
    def test_the_example_of_the_readme_gives_what_stands_beside_it(self):
        readme = Path(__file__).resolve().parents[1] / "README.md"
        example = readme.read_text().split("```python\n")[1].split("```")[0]
        names = {}
        exec(example, names)
        beside = [eval(f"abr.{each}") for each in re.findall(r"# (\w+\(.*\))", example)]
        self.assertEqual(beside, [names["peak"], names["table"].export(1, 32), names["table"].link()])
        self.assertEqual((names["sent"].kind, len(names["sent"].cell)), (Kind.FORWARD, abr.CELL_OCTETS))

    def test_the_plan_prints_what_it_should(self):
        plan = Path(__file__).resolve().parents[1] / "examples/plan.py"
        run = subprocess.run([sys.executable, plan], capture_output=True, text=True, check=True)
        self.assertEqual(run.stdout, plan.with_suffix(".out").read_text())

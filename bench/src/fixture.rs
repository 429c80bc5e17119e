//! What a workload needs on one side: open connections, cells, times.

use std::hint::black_box;

use abr_reference::{Address, Params, Rm};

use crate::engines::{Engine, Octets};
use crate::traces;
use crate::workload::{Sort, Workload};

/// The VCIs on each VPI. Names rise over all VPIs: the i-th connection has VPI i / 4.
const ON_A_PATH: u32 = 4;
/// The first VCI; one below it can be opened.
const FIRST: u32 = 33;
/// The VPI of the path, if there is one.
const PATH: u32 = 7;
/// A rate code of about 100,000 cells per second.
const CODE: u32 = 0x6121;
/// The rate code of one cell per second.
const SLOW: u32 = 0x4000;

/// A rate of 1,000 cells per second.
const LIMIT: u64 = 512_000;

/// Longer than the gap at any rate at which data is sent.
const ROUND: u64 = 1_000_000;
/// How far behind its own time a slot may be passed, longer than a gap.
const LAG: u64 = 1_000_000;

/// A workload prepared on one side.
pub struct Fixture<E: Engine> {
    workload: Workload,
    engine: E,
    connections: u32,
    params: E::Params,
    last: Address,
    time: u64,
    step: u64,
    rm: E::Rm,
    /// Received, read or limited in turn.
    cells: [Octets; 2],
    /// What a capacity is shared among, and the capacity, which limits.
    demands: Vec<u64>,
    capacity: u64,
    /// What is judged.
    pub trace: Vec<u8>,
}

impl<E: Engine> Fixture<E> {
    /// Opens the connections and makes the cells.
    pub fn new(connections: u32, workload: Workload) -> Self {
        let last = address(connections.max(1) - 1);
        let rms = rms(last, workload);
        let demands = rates(workload.demands());
        let mut fixture = Fixture {
            workload,
            engine: E::empty(),
            connections,
            params: E::params(&steady(CODE)),
            last,
            time: 1,
            step: step(connections, workload),
            rm: E::rm(&rms[0]),
            cells: rms.map(|rm| cell_of(&rm, workload)),
            capacity: demands.iter().sum::<u64>() / 2,
            demands,
            trace: workload.trace(traces::octets),
        };
        for place in order(connections, workload) {
            let params = E::params(&params_of(place, workload));
            fixture.engine.open(address(place), 0, &params);
        }
        if let Some(members) = workload.members() {
            fixture.open_path(members);
        }
        if workload.sort() == Some(Sort::Moving) {
            fixture.first_cells();
        }
        if workload.sends() && workload != Workload::LastFirst {
            fixture.spread(params_of(0, workload).n);
        }
        match workload {
            Workload::Make => fixture.engine.set_level(2),
            Workload::Next | Workload::SlotTime => fixture.offer_all(1),
            _ => {}
        }
        fixture
    }

    /// Opens a path with so many members.
    fn open_path(&mut self, members: u32) {
        self.engine.open_path(PATH, 0, &self.params);
        for place in 0..members {
            self.engine.add_member(member(place));
        }
    }

    /// Every connection has data and sends its first cell.
    fn first_cells(&mut self) {
        let mut buffer = [0; abr::CELL_OCTETS];
        self.offer_all(1);
        for _ in 0..self.connections {
            self.engine.slot(self.time, &mut buffer);
        }
    }

    /// Brings the connections to different places between two forward cells, the
    /// i-th to k = i mod Nrm, so that any stretch of slots has its share of them: in
    /// each round some more begin to send, and all that have begun send a cell, at
    /// one time. Afterwards all are due.
    fn spread(&mut self, n: u32) {
        let mut buffer = [0; abr::CELL_OCTETS];
        let nrm = 1 << n;
        for round in 0..nrm {
            for i in (0..self.connections).filter(|i| i % nrm >= nrm - 1 - round) {
                self.engine.offer(address(i), 1);
            }
            for _ in 0..self.connections {
                self.engine.slot(self.time, &mut buffer);
            }
            self.time += ROUND;
        }
    }

    /// Offers data on every connection. Beyond what may wait an offer is
    /// refused, and enough waits.
    fn offer_all(&mut self, cells: u64) {
        for place in order(self.connections, self.workload) {
            self.engine.offer(address(place), cells);
        }
    }

    /// Gives every connection data for so many slots, and each member of a path or one.
    pub fn refill(&mut self, slots: u64) {
        let members = match self.workload {
            Workload::Members { members } => members,
            Workload::LoneMember { .. } => 1,
            _ => 0,
        };
        for place in 0..members {
            self.engine.offer_member(member(place), slots);
        }
        if self.workload.sends() {
            self.offer_all(slots);
        }
    }

    /// Runs the workload so many times.
    pub fn run(&mut self, times: u64) {
        let mut buffer = [0; abr::CELL_OCTETS];
        match self.workload {
            slot if slot.sends() || slot == Workload::Idle => repeat(times, |_| {
                self.time += self.step;
                self.engine.slot(self.time, &mut buffer);
            }),
            Workload::Receive(_) | Workload::Unknown(_) => repeat(times, |i| {
                self.engine.receive(black_box(&self.cells[i % 2]));
            }),
            Workload::Offer => repeat(times, |_| self.engine.offer(black_box(self.last), 0)),
            Workload::OfferMember { members } => repeat(times, |_| {
                self.engine.offer_member(black_box(member(members - 1)), 0);
            }),
            Workload::AddRemove { .. } => repeat(times, |_| {
                self.engine.add_member(black_box(below_members()));
                self.engine.remove_member(black_box(below_members()));
            }),
            Workload::OpenClose => self.open_close(times, highest()),
            Workload::OpenCloseLow => self.open_close(times, lowest()),
            Workload::Make => repeat(times, |_| {
                self.time += self.step;
                self.engine.make(black_box(self.last), self.time);
            }),
            Workload::OutOfRate => repeat(times, |_| {
                self.time += self.step;
                let at = black_box(self.last);
                self.engine.out_of_rate(at, self.time, &mut buffer);
            }),
            Workload::Level => repeat(times, |_| self.engine.set_level(black_box(1))),
            other => self.run_reading(other, times, &mut buffer),
        }
        black_box(buffer);
    }

    /// Runs a workload that only reads the table, or has none.
    fn run_reading(&mut self, workload: Workload, times: u64, buffer: &mut Octets) {
        match workload {
            Workload::Acr => repeat(times, |_| self.engine.acr(black_box(self.last))),
            Workload::Status => repeat(times, |_| self.engine.status(black_box(self.last))),
            Workload::StatusMember { members } => repeat(times, |_| {
                self.engine.status(black_box(member(members - 1)));
            }),
            Workload::Export => repeat(times, |_| self.engine.export(black_box(self.last))),
            Workload::Next => repeat(times, |_| self.engine.next_ready()),
            Workload::SlotTime => repeat(times, |_| {
                self.time += self.step;
                self.engine.slot_time(self.time, black_box(LAG));
            }),
            other => self.run_without_table(other, times, buffer),
        }
    }

    /// Runs a workload that has no table.
    fn run_without_table(&self, workload: Workload, times: u64, buffer: &mut Octets) {
        match workload {
            Workload::Read(_) => repeat(times, |i| E::read(black_box(&self.cells[i % 2]))),
            Workload::Write => repeat(times, |_| E::write_rm(black_box(&self.rm), buffer)),
            Workload::Code => repeat(times, |_| E::code(black_box(512_000))),
            Workload::Rate => repeat(times, |_| E::rate(black_box(CODE))),
            Workload::Import { exact } => {
                let cells = if exact { 1_000.0 } else { 1_000.7 };
                repeat(times, |_| E::import(black_box(cells)));
            }
            Workload::FairShare { .. } => repeat(times, |_| {
                E::fair_share(self.capacity, black_box(&self.demands));
            }),
            Workload::Limit => repeat(times, |i| {
                *buffer = self.cells[i % 2];
                E::limit(black_box(LIMIT), buffer);
            }),
            Workload::Port { .. } => repeat(times, |i| {
                *buffer = self.cells[i % 2];
                E::port(self.capacity, black_box(&self.demands), buffer);
            }),
            Workload::Judge { .. } => repeat(times, |_| E::judge(black_box(&self.trace))),
            Workload::House => repeat(times, |_| E::house(black_box(CODE))),
            other => unreachable!("{other:?} has a table"),
        }
    }

    /// Opens and closes one more connection so many times.
    fn open_close(&mut self, times: u64, at: Address) {
        repeat(times, |_| {
            self.engine.open(black_box(at), self.time, &self.params);
            self.engine.close(black_box(at));
        });
    }

    /// Runs it so many times in the function whose instructions are counted.
    pub fn counted(&mut self, times: u64) {
        self.refill(times);
        self.run(1);
        bench_region(&mut || self.run(times));
    }
}

#[inline(always)]
fn repeat(times: u64, mut call: impl FnMut(usize)) {
    for i in 0..times as usize {
        call(i);
    }
}

/// What callgrind collects: `--toggle-collect=bench_region`.
#[no_mangle]
#[inline(never)]
pub fn bench_region(workload: &mut dyn FnMut()) {
    workload();
    black_box(());
}

/// Parameters under which no call changes the rate.
fn steady(code: u32) -> Params {
    Params {
        c: 7,
        ..Params::house(code, code, code)
    }
}

/// The address of the connection with a place in the order of names.
fn address(place: u32) -> Address {
    Address::new(place / ON_A_PATH, FIRST + place % ON_A_PATH)
}

/// A name above all others, and one below them.
fn highest() -> Address {
    Address::new(abr::VPI_MAX, abr::VCI_MAX)
}

fn lowest() -> Address {
    Address::new(0, FIRST - 1)
}

/// A member of the path, by its place, and one below them all.
fn member(place: u32) -> Address {
    Address::new(PATH, FIRST + place)
}

fn below_members() -> Address {
    Address::new(PATH, FIRST - 1)
}

/// The places in the order in which they are opened. Of those that are due at one
/// time the lowest name sends first.
fn order(connections: u32, workload: Workload) -> Vec<u32> {
    let mut order: Vec<u32> = (0..connections).collect();
    if workload == Workload::LastFirst {
        order.reverse();
    }
    order
}

/// The parameters of a connection, by its place.
fn params_of(place: u32, workload: Workload) -> Params {
    match workload {
        Workload::Turns { n } => Params { n, ..steady(CODE) },
        // Rates between a quarter of one and the whole of it.
        Workload::Mixed => steady(CODE - (FIRST + place) * 37 % 1_024),
        // One cell lowers the rate by a sixteenth, the next raises it to its peak.
        Workload::Receive(Sort::Moving) => Params::house(CODE, SLOW, CODE),
        _ => steady(CODE),
    }
}

/// The time from one slot to the next: the gap at the sum of all rates. From one
/// made or out-of-rate cell to the next: the least that is accepted.
fn step(connections: u32, workload: Workload) -> u64 {
    match workload {
        Workload::Make => return abr::MAKE_INTERVAL,
        Workload::OutOfRate => return abr::OUT_OF_RATE_INTERVAL,
        _ => {}
    }
    let codes = order(connections, workload)
        .into_iter()
        .map(|place| params_of(place, workload).icr);
    let path = workload.members().map(|_| CODE);
    let total: u64 = codes.chain(path).map(abr_reference::rate_of).sum();
    let gap = abr_reference::gap(total.max(512)).expect("a rate above 0");
    let step = gap + 1;
    match workload {
        Workload::Mixed => 2 * step,
        // As long as the gap of one: all others are due.
        Workload::LastFirst => u64::from(connections) * step,
        _ => step,
    }
}

/// So many demands, each of a rate of its own, in no order.
fn rates(count: u32) -> Vec<u64> {
    let code = |place: u32| CODE - place * 37 % 1_024;
    (0..count)
        .map(|place| abr_reference::rate_of(code(place)))
        .collect()
}

/// The fields of the RM cells, in turn.
fn rms(last: Address, workload: Workload) -> [Rm; 2] {
    let at = match workload {
        Workload::Unknown(_) => highest(),
        _ => last,
    };
    let rm = Rm {
        vpi: at.vpi,
        vci: at.vci,
        dir: u32::from(workload.sort() != Some(Sort::Forward)),
        er: 0x7FFF,
        ccr: CODE,
        mcr: CODE,
        ..Rm::default()
    };
    let ci = u32::from(workload.sort() == Some(Sort::Moving));
    [Rm { ci, ..rm }, rm]
}

/// The cell with these fields, or the data cell with this address.
fn cell_of(rm: &Rm, workload: Workload) -> Octets {
    let mut cell = [0; abr::CELL_OCTETS];
    abr_reference::write_rm(rm, &mut cell).expect("fields in range");
    match workload.sort() {
        Some(Sort::Data) => {
            let header = (rm.vpi << 20 | rm.vci << 4 | 2 << 1).to_be_bytes();
            cell[..4].copy_from_slice(&header);
            cell[4] = abr_reference::cell::header_check(&header);
        }
        Some(Sort::Damaged) => cell[20] ^= 1,
        _ => {}
    }
    cell
}

#[cfg(test)]
#[path = "fixture_tests.rs"]
mod tests;

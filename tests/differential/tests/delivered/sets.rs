//! Random sets of up to 16 connections whose peaks together fit the line: constant rates and
//! rates moved by feedback, with data always waiting or in bursts, some of them paths; slots at
//! most S apart, or the line sleeps until the next ready instant; sometimes one is closed and
//! opened again.

use abr::ffi::abr_rm;
use abr::CELL_OCTETS;
use abr_differential::call::Call;
use abr_differential::library::Difference;
use abr_differential::parallel::Counts;
use abr_differential::rng::Rng;

use super::circuit::{Circuit, Sums};
use super::line::{backward, code, Line, ENDLESS, SECOND};

/// The slots of a set.
const SLOTS: u64 = 20_000;

/// The most circuits.
const CIRCUITS: u64 = 16;

/// What the sets showed.
#[derive(Debug, Clone, Copy, Default)]
pub struct Tally {
    pub sums: Sums,
    pub slots: u64,
    /// Slots to which the line slept, and opens after the first slot.
    pub slept: u64,
    pub opens: u64,
    /// Slots passed further behind than a slot for each connection that is open, and as far as
    /// the bound allows.
    pub beyond_open: u64,
    pub at_bound: u64,
    /// The furthest behind, and the latest cell by its minimum, each in thousandths of its
    /// bound.
    pub behind: u64,
    pub late: u64,
}

impl Counts for Tally {
    fn add(&mut self, other: &Tally) {
        self.sums.add(&other.sums);
        self.slots += other.slots;
        self.slept += other.slept;
        self.opens += other.opens;
        self.beyond_open += other.beyond_open;
        self.at_bound += other.at_bound;
        self.behind = self.behind.max(other.behind);
        self.late = self.late.max(other.late);
    }
}

/// A set on its line.
struct Set {
    rng: Rng,
    line: Line,
    circuits: Vec<Circuit>,
    /// The opens that are still to come.
    opens: u64,
    tally: Tally,
}

/// Runs the set of a seed: with a lag of a slot for each connection and each open, or without
/// one.
pub fn run(seed: u64, with_lag: bool) -> Result<Tally, Difference> {
    let mut set = Set::new(seed, with_lag);
    let report = |why: Difference| format!("set {seed}: {why}");
    set.begin().map_err(report)?;
    for _ in 0..SLOTS {
        set.step(with_lag).map_err(report)?;
    }
    Ok(set.tally)
}

impl Set {
    fn new(seed: u64, with_lag: bool) -> Self {
        let mut rng = Rng::new(seed);
        let slot = 500 + rng.below(2_500);
        let circuits = circuits(&mut rng, SECOND / slot);
        let some = 1 + rng.below(6);
        let opens = rng.pick(&[0, 0, some]);
        let lag = match with_lag {
            true => (circuits.len() as u64 + opens) * slot,
            false => 0,
        };
        Set {
            rng,
            line: Line::new(slot, lag),
            circuits,
            opens,
            tally: Tally::default(),
        }
    }

    /// Opens all circuits.
    fn begin(&mut self) -> Result<(), Difference> {
        self.line.call(&Call::SetLevel { level: 1 })?;
        let mut circuits = self.circuits.iter_mut();
        circuits.try_for_each(|circuit| circuit.open(&mut self.line))
    }

    /// What happens before a slot, the slot, and what must be so of it.
    fn step(&mut self, with_lag: bool) -> Result<(), Difference> {
        self.reopen()?;
        self.load()?;
        self.answer()?;
        let now = self.clock();
        let unbounded = self.line.slot_time(now, ENDLESS);
        let cell = self.line.slot(now)?;
        self.tally.slots += 1;
        if with_lag {
            self.near(unbounded)?;
        }
        if let Some(cell) = cell {
            let circuit = &mut self.circuits[cell.sent.vpi as usize];
            circuit.sent(&cell, with_lag, &mut self.tally.sums)?;
        }
        match with_lag {
            true => self.delivered(now),
            false => Ok(()),
        }
    }

    /// Closes an open circuit, or opens a closed one at the time that was passed last.
    fn reopen(&mut self) -> Result<(), Difference> {
        let place = self.rng.below(self.circuits.len() as u64) as usize;
        let circuit = &mut self.circuits[place];
        if circuit.opened.is_none() {
            if self.rng.once_in(100) {
                self.tally.opens += 1;
                return circuit.open(&mut self.line);
            }
        } else if self.opens > 0 && self.rng.once_in(SLOTS / 10) {
            self.opens -= 1;
            return circuit.close(&mut self.line);
        }
        Ok(())
    }

    /// Offers data: to those that are busy before it runs out, to others in bursts.
    fn load(&mut self) -> Result<(), Difference> {
        let open = |circuit: &&mut Circuit| circuit.opened.is_some();
        for circuit in self.circuits.iter_mut().filter(open) {
            if circuit.busy && circuit.waiting < 100 {
                circuit.offer(&mut self.line, 1_000)?;
            } else if !circuit.busy && circuit.waiting < 1_000 && self.rng.once_in(200) {
                circuit.offer(&mut self.line, self.rng.below(40))?;
            }
        }
        Ok(())
    }

    /// Sometimes a cell of the far end arrives, or one is made or sent beside the rate, at the
    /// time that was passed last.
    fn answer(&mut self) -> Result<(), Difference> {
        let place = self.rng.below(self.circuits.len() as u64) as usize;
        let circuit = &mut self.circuits[place];
        if circuit.opened.is_none() || !self.rng.once_in(8) {
            return Ok(());
        }
        let (at, time, len) = (circuit.at, self.line.passed, CELL_OCTETS);
        match self.rng.below(32) {
            0 => drop(self.line.call(&Call::Make { at, time })), // refused within 100 ms
            1 => drop(self.line.call(&Call::OutOfRate { at, time, len })),
            2 => {
                let mut forward = backward(at, abr_rm::default());
                forward[6] = 0;
                abr_differential::octets::put_crc(&mut forward);
                self.line.receive(&forward)?;
            }
            _ => self.line.receive(&feedback(&mut self.rng, circuit))?,
        }
        circuit.told(&self.line)
    }

    /// The next slot's own time: mostly a slot after the last, sometimes less, sometimes more
    /// if nothing is ready till then: up to a slot after the instant before the next ready one.
    fn clock(&mut self) -> u64 {
        let Line { slot, now, .. } = self.line;
        let (any, little) = (self.rng.below(slot + 1), slot - self.rng.below(20));
        let usual = now + self.rng.pick(&[slot, slot, slot, slot, slot, little, any]);
        match self.line.next() {
            Some(next) if next > now + slot && self.rng.once_in(2) => {
                self.tally.slept += 1;
                let (early, late) = (self.rng.below(next - now - slot), self.rng.below(slot));
                self.rng
                    .pick(&[next, next - early, next + late, next + slot - 1])
            }
            _ => usual,
        }
    }

    /// The slot is passed no further behind than a slot for each connection open at the last
    /// prompt one and each open since, and the lag decides nothing.
    fn near(&mut self, unbounded: u64) -> Result<(), Difference> {
        let (open, slot) = (self.line.open, self.line.slot);
        let bound = self.line.counted * slot;
        let behind = self.line.behind();
        if behind > bound || self.line.passed != unbounded {
            return Err(format!("{behind} behind, over {bound}, or {unbounded}"));
        }
        self.tally.beyond_open += u64::from(behind > open * slot);
        self.tally.at_bound += u64::from(behind == bound && bound > 0);
        self.tally.behind = self.tally.behind.max(behind * 1_000 / bound.max(1));
        Ok(())
    }

    /// Every busy circuit has its minimum, but for the lag.
    fn delivered(&mut self, now: u64) -> Result<(), Difference> {
        for circuit in &self.circuits {
            let Some(late) = circuit.late(now) else {
                continue;
            };
            if late > self.line.lag {
                return Err(format!("{:?}: {late} late at {now}", circuit.at));
            }
            self.tally.late = self.tally.late.max(late * 1_000 / self.line.lag);
        }
        Ok(())
    }
}

/// Circuits whose peaks together fit a rate, and mostly use up nearly all of it.
fn circuits(rng: &mut Rng, full: u64) -> Vec<Circuit> {
    let count = 1 + rng.below(CIRCUITS);
    let parts: Vec<u64> = (0..count).map(|_| 1 + rng.below(1_000)).collect();
    let used = rng.pick(&[1_000, 1_000, 1_000, 950, 600]);
    let sum: u64 = parts.iter().sum();
    let peaks = parts.iter().map(|part| full * used / 1_000 * part / sum);
    let mut codes: Vec<u32> = peaks.map(code).collect();
    let total = |codes: &[u32]| {
        codes
            .iter()
            .map(|c| abr_reference::rate_of(*c))
            .sum::<u64>()
    };
    for place in 0..codes.len() {
        codes[place] += 1;
        if total(&codes) > full {
            codes[place] -= 1;
        }
    }
    assert!(total(&codes) <= full);
    let draw = |(vpi, code)| circuit(rng, vpi, code);
    (0..).zip(codes).map(draw).collect()
}

/// A circuit with this peak.
fn circuit(rng: &mut Rng, vpi: u32, pcr: u32) -> Circuit {
    let members = match rng.once_in(4) {
        true => (0..1 + rng.below(3) as u32).map(|i| 40 + i).collect(),
        false => Vec::new(),
    };
    let mut params = super::line::params(abr_reference::rate_of(pcr), 0, 0);
    (params.mcr, params.icr) = match rng.once_in(2) {
        true => (pcr, pcr),
        false => {
            let mcr = rng.within(pcr.saturating_sub(2_048).max(0x4000), pcr);
            (mcr, rng.within(mcr, pcr))
        }
    };
    params.n = rng.within(1, 8);
    params.r = rng.within(0, 6);
    params.d = rng.within(0, 6);
    params.c = rng.pick(&[7, 7, 0, 2, 6]);
    params.tbe = rng.pick(&[1, 100, 16_777_215]);
    params.trm = rng.within(0, 7);
    let mut circuit = Circuit::new(vpi, members, params);
    circuit.busy = !rng.once_in(3);
    circuit
}

/// A backward cell for a circuit: mostly an explicit rate about its contract, sometimes marks.
fn feedback(rng: &mut Rng, circuit: &Circuit) -> [u8; CELL_OCTETS] {
    let params = &circuit.params;
    let within = rng.within(params.mcr, params.pcr);
    let any = rng.within(0x4000, 0x7FFF);
    let rm = abr_rm {
        er: rng.pick(&[within, within, params.pcr, 0x7FFF, 0, any]),
        ci: rng.pick(&[0, 0, 0, 1]),
        ni: rng.pick(&[0, 0, 1]),
        bn: rng.pick(&[0, 1]),
        ..abr_rm::default()
    };
    backward(circuit.at, rm)
}

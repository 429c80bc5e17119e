//! The own line as a port: connections whose peak is the line's rate, some of them leased with
//! a minimum. Each backward cell passes a limit, its minimum and a share of what the minimums
//! leave, before it is received. The shares change as connections fall silent and speak again:
//! falls are told first, by backward cells that the transmitter itself makes, and rises are let
//! through as a leaky bucket holds them. What the policer must tolerate follows from the count of
//! connections and the depth of the bucket.

use abr::ffi::abr_rm;
use abr::{Share, CELL_OCTETS};
use abr_differential::library::Difference;
use abr_differential::octets::{code_at, ER};
use abr_differential::parallel::Counts;
use abr_differential::rng::Rng;

use super::circuit::{Circuit, Sums};
use super::line::{backward, code, params, Line, ENDLESS, SECOND};

/// The slots of a run.
const SLOTS: u64 = 50_000;

/// What the runs showed.
#[derive(Debug, Clone, Copy, Default)]
pub struct Tally {
    pub sums: Sums,
    pub slots: u64,
    /// Falls told, rises let through, and rises that the bucket held back.
    pub falls: u64,
    pub rises: u64,
    pub held: u64,
    /// Slots passed as far behind as the debt allows.
    pub at_debt: u64,
    /// The furthest behind, and the latest leased circuit by its minimum, in thousandths of the
    /// lag.
    pub behind: u64,
    pub late: u64,
    /// Slots at which a leased circuit was later than the lag.
    pub short: u64,
    /// The least that a leased circuit had of its minimum, in thousandths.
    pub least: Option<u64>,
}

impl Counts for Tally {
    fn add(&mut self, other: &Tally) {
        self.sums.add(&other.sums);
        self.slots += other.slots;
        self.falls += other.falls;
        self.rises += other.rises;
        self.held += other.held;
        self.at_debt += other.at_debt;
        self.behind = self.behind.max(other.behind);
        self.late = self.late.max(other.late);
        self.short += other.short;
        self.least = self.least.into_iter().chain(other.least).min();
    }
}

/// A line and its port.
struct Own {
    rng: Rng,
    line: Line,
    circuits: Vec<Circuit>,
    /// Whether each has data to send.
    speaks: Vec<bool>,
    /// The limit of each, and its cap: what its last backward cell allows at most.
    limits: Vec<u64>,
    caps: Vec<u64>,
    /// The caps fit a line with a slot every so many nanoseconds, a little more than one.
    spaced: u64,
    /// What the bucket holds, and what it may hold, in nanoseconds.
    level: u64,
    depth: u64,
    /// How far behind a slot may be passed, by the rises since the last prompt one.
    debt: u64,
    /// How rarely one falls silent, and how rarely a backward cell arrives, in slots.
    silent: u64,
    answered: u64,
    tally: Tally,
}

/// Runs the line of a seed, with its port or without it.
pub fn run(seed: u64, limited: bool) -> Result<Tally, Difference> {
    let mut own = Own::new(seed);
    let report = |why: Difference| format!("own port {seed}: {why}");
    own.begin(limited).map_err(report)?;
    for _ in 0..SLOTS {
        own.step(limited).map_err(report)?;
    }
    for circuit in own.circuits.iter().filter(|circuit| circuit.mcr > 0) {
        let due = u128::from(own.line.now) * u128::from(circuit.mcr) / u128::from(SECOND);
        let had = u128::from(circuit.cells) * 1_000 / due.max(1);
        own.tally.least = own.tally.least.into_iter().chain([had as u64]).min();
    }
    Ok(own.tally)
}

impl Own {
    fn new(seed: u64) -> Self {
        let mut rng = Rng::new(seed);
        let slot = 1_000 + rng.below(2_000);
        let spaced = slot * 105 / 100;
        let peak = abr_reference::rate_of(code(SECOND / slot));
        let count = 2 + rng.below(9);
        let leased = 1 + rng.below(count - 1);
        let parts: Vec<u64> = (0..leased).map(|_| 1 + rng.below(100)).collect();
        let sold = SECOND / spaced * rng.pick(&[30, 60, 90]) / 100;
        let sum: u64 = parts.iter().sum();
        let minimums = parts.iter().map(|part| sold * part / sum);
        let minimums = minimums.chain((leased..count).map(|_| 0));
        let circuit = |(vpi, mcr)| Circuit::new(vpi, Vec::new(), params(peak, mcr, mcr));
        let mut circuits: Vec<Circuit> = (0..).zip(minimums).map(circuit).collect();
        for circuit in &mut circuits {
            circuit.busy = circuit.mcr > 0;
        }
        let depth = spaced * rng.pick(&[1, 2, 8, 32]);
        Own {
            line: Line::new(slot, count * spaced + depth),
            speaks: vec![true; circuits.len()],
            limits: vec![0; circuits.len()],
            caps: circuits.iter().map(|circuit| circuit.mcr).collect(),
            circuits,
            spaced,
            level: 0,
            depth,
            debt: count * spaced,
            silent: rng.pick(&[5, 50, 500]),
            answered: rng.pick(&[1, 4, 16]),
            rng,
            tally: Tally::default(),
        }
    }

    fn begin(&mut self, limited: bool) -> Result<(), Difference> {
        let mut circuits = self.circuits.iter_mut();
        circuits.try_for_each(|circuit| circuit.open(&mut self.line))?;
        self.share(limited)
    }

    /// What happens before a slot, the slot, and what must be so of it.
    fn step(&mut self, limited: bool) -> Result<(), Difference> {
        self.silence(limited)?;
        self.load()?;
        if self.rng.once_in(self.answered) {
            self.answer(limited)?;
        }
        let room = self.spaced - self.line.slot;
        self.level = self.level.saturating_sub(room);
        self.debt = self.debt.saturating_sub(room);
        let slot = self.line.slot;
        let early = self.rng.below(slot);
        let now = self.line.now + self.rng.pick(&[slot, slot, slot, slot - early]);
        let unbounded = self.line.slot_time(now, ENDLESS);
        let cell = self.line.slot(now)?;
        if let Some(cell) = cell {
            let circuit = &mut self.circuits[cell.sent.vpi as usize];
            circuit.sent(&cell, limited, &mut self.tally.sums)?;
        }
        self.tally.slots += 1;
        self.delivered(now);
        match limited {
            true => self.near(unbounded),
            false => Ok(()),
        }
    }

    /// Sometimes one that is not leased falls silent or speaks again, and the shares change.
    fn silence(&mut self, limited: bool) -> Result<(), Difference> {
        let place = self.rng.below(self.circuits.len() as u64) as usize;
        if self.circuits[place].mcr > 0 || !self.rng.once_in(self.silent) {
            return Ok(());
        }
        self.speaks[place] = !self.speaks[place];
        self.share(limited)
    }

    /// Shares what the minimums leave among those that speak, and tells the falls.
    fn share(&mut self, limited: bool) -> Result<(), Difference> {
        let sold: u64 = self.circuits.iter().map(|circuit| circuit.mcr).sum();
        let speaking = self.circuits.iter().zip(&self.speaks);
        let demands: Vec<u64> = speaking
            .map(|(circuit, speaks)| u64::from(*speaks) * (circuit.pcr - circuit.mcr))
            .collect();
        let share = match abr::fair_share(SECOND / self.spaced - sold, &demands) {
            Ok(Share::Rate(rate)) => rate,
            Ok(Share::NoLimit) => u64::MAX,
            Err(refusal) => return Err(format!("{refusal:?}")),
        };
        for (place, demand) in demands.iter().enumerate() {
            self.limits[place] = self.circuits[place].mcr + share.min(*demand);
            if limited && self.caps[place] > self.limits[place] {
                let (er, ni) = (code(self.limits[place]), 1);
                let rm = abr_rm {
                    er,
                    ni,
                    bn: 1,
                    ..abr_rm::default()
                };
                self.tell(place, &backward(self.circuits[place].at, rm))?;
                self.tally.falls += 1;
            }
        }
        Ok(())
    }

    /// Offers data to those that speak.
    fn load(&mut self) -> Result<(), Difference> {
        for (circuit, speaks) in self.circuits.iter_mut().zip(&self.speaks) {
            if *speaks && circuit.waiting < 100 {
                circuit.offer(&mut self.line, 1_000)?;
            }
        }
        Ok(())
    }

    /// A backward cell of the network arrives and, with the port, is limited: to the share, or
    /// to the cap that there is, if the bucket does not hold the rise. A rise from q to r costs
    /// (r - q) / r of a slot.
    fn answer(&mut self, limited: bool) -> Result<(), Difference> {
        let place = self.rng.below(self.circuits.len() as u64) as usize;
        let mut cell = self.network(place);
        if limited {
            let cap = self.caps[place];
            limit(self.limits[place], &mut cell)?;
            let raised = self.cap(place, &cell);
            if raised > cap {
                let cost = (self.spaced * (raised - cap)).div_ceil(raised);
                if self.level + cost > self.depth {
                    limit(cap, &mut cell)?;
                    self.tally.held += 1;
                } else {
                    self.level += cost;
                    self.debt += cost;
                    self.tally.rises += 1;
                }
            }
        }
        self.tell(place, &cell)
    }

    /// A backward cell as a network may send it, mostly with the line's rate or more.
    fn network(&mut self, place: usize) -> [u8; CELL_OCTETS] {
        let circuit = &self.circuits[place];
        let any = self.rng.within(0x4000, circuit.params.pcr);
        let rm = abr_rm {
            er: self
                .rng
                .pick(&[0x7FFF, circuit.params.pcr, circuit.params.pcr, any]),
            ci: u32::from(self.rng.once_in(16)),
            ni: u32::from(self.rng.once_in(8)),
            ..abr_rm::default()
        };
        backward(circuit.at, rm)
    }

    /// What a cell allows its connection at most.
    fn cap(&self, place: usize, cell: &[u8; CELL_OCTETS]) -> u64 {
        let er = abr_reference::rate_of(code_at(cell, ER));
        let circuit = &self.circuits[place];
        er.min(circuit.pcr).max(circuit.mcr)
    }

    /// A connection receives a backward cell.
    fn tell(&mut self, place: usize, cell: &[u8; CELL_OCTETS]) -> Result<(), Difference> {
        self.line.receive(cell)?;
        self.caps[place] = self.cap(place, cell);
        let circuit = &mut self.circuits[place];
        circuit.told(&self.line)?;
        let (acr, cap) = (self.line.acr(circuit.at)?, self.caps[place]);
        match acr <= cap {
            true => Ok(()),
            false => Err(format!("{acr} above {cap}")),
        }
    }

    /// The caps fit the line with its room to spare, the lag decides nothing, and the slot is
    /// passed no further behind than that, nor than the debt: a slot for each connection at the
    /// last prompt slot, and what each rise since has cost, less the room of each slot since.
    fn near(&mut self, unbounded: u64) -> Result<(), Difference> {
        let sum: u64 = self.caps.iter().sum();
        if sum > SECOND / self.spaced {
            return Err(format!("caps of {sum}"));
        }
        let behind = self.line.behind();
        if behind > self.line.lag.min(self.debt) || self.line.passed != unbounded {
            return Err(format!(
                "{behind} behind, over {}, or {unbounded}",
                self.debt
            ));
        }
        self.tally.at_debt += u64::from(behind > 0 && behind == self.debt);
        if behind == 0 {
            self.debt = self.circuits.len() as u64 * self.spaced;
        }
        self.tally.behind = self.tally.behind.max(behind * 1_000 / self.line.lag);
        Ok(())
    }

    /// How late the leased circuits are.
    fn delivered(&mut self, now: u64) {
        let late = self.circuits.iter().filter_map(|circuit| circuit.late(now));
        let late = late.max().unwrap_or(0);
        self.tally.late = self.tally.late.max(late * 1_000 / self.line.lag);
        self.tally.short += u64::from(late > self.line.lag);
    }
}

/// Limits a cell.
fn limit(rate: u64, cell: &mut [u8; CELL_OCTETS]) -> Result<(), Difference> {
    abr::limit(rate, cell).map_err(|refusal| format!("{refusal:?}"))
}

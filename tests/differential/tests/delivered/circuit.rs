//! A connection of a line: what waits on it, what it sent, and the policers behind the line.

use abr::ffi::abr_params;
use abr_differential::call::Call;
use abr_differential::library::Difference;
use abr_differential::policer::Policer;
use abr_reference::Address;

use super::line::{gap, Cell, Line};

/// Cells, and what became of them.
#[derive(Debug, Clone, Copy, Default)]
pub struct Sums {
    pub cells: u64,
    /// Those of a circuit on which something always waits and whose rate is as it was at the
    /// one before: passed exactly a gap after it.
    pub exact: u64,
    /// Those dropped by each policer: GCRA of the peak and DGCRA, both with the lag as
    /// tolerance, then with half of it.
    pub dropped: [u64; 4],
}

impl Sums {
    /// Adds those of another run.
    pub fn add(&mut self, other: &Sums) {
        self.cells += other.cells;
        self.exact += other.exact;
        for (to, from) in self.dropped.iter_mut().zip(other.dropped) {
            *to += from;
        }
    }
}

/// A connection, a channel or a path with members, on a VPI of its own.
pub struct Circuit {
    pub at: Address,
    members: Vec<u32>,
    pub params: abr_params,
    pub pcr: u64,
    pub mcr: u64,
    /// Whether something waits on it at every slot.
    pub busy: bool,
    /// Its allowed rate, and whether it has been that since the last cell.
    acr: u64,
    steady: bool,
    /// Its waiting data, and that of its members.
    pub waiting: u64,
    /// When it was opened; none while it is closed.
    pub opened: Option<u64>,
    /// The cells since, and the time passed for the last one.
    pub cells: u64,
    last: Option<u64>,
    policers: [Policer; 4],
}

impl Circuit {
    /// A circuit that is closed; a path if it has members.
    pub fn new(vpi: u32, members: Vec<u32>, params: abr_params) -> Self {
        let at = match members.is_empty() {
            true => Address::new(vpi, 32),
            false => Address::of_path(vpi),
        };
        Circuit {
            at,
            members,
            params,
            pcr: abr_reference::rate_of(params.pcr),
            mcr: abr_reference::rate_of(params.mcr),
            busy: true,
            acr: 0,
            steady: true,
            waiting: 0,
            opened: None,
            cells: 0,
            last: None,
            policers: [0; 4].map(Policer::new),
        }
    }

    /// Opens it with its members, behind new policers.
    pub fn open(&mut self, line: &mut Line) -> Result<(), Difference> {
        line.open(self.at, self.params)?;
        for vci in &self.members {
            let at = Address::new(self.at.vpi, *vci);
            line.call(&Call::Add { at })?;
        }
        self.acr = line.acr(self.at)?;
        self.opened = Some(line.passed);
        (self.cells, self.last, self.waiting) = (0, None, 0);
        self.policers = [line.lag, line.lag, line.lag / 2, line.lag / 2].map(Policer::new);
        Ok(())
    }

    /// Closes it.
    pub fn close(&mut self, line: &mut Line) -> Result<(), Difference> {
        self.opened = None;
        line.close(self.at)
    }

    /// Offers so many cells to it, or to each of its members.
    pub fn offer(&mut self, line: &mut Line, cells: u64) -> Result<(), Difference> {
        if self.members.is_empty() {
            self.waiting += cells;
            return line.offer(self.at, cells);
        }
        for vci in &self.members {
            let at = Address::new(self.at.vpi, *vci);
            line.call(&Call::OfferMember { at, cells })?;
            self.waiting += cells;
        }
        Ok(())
    }

    /// It received a cell, which may have moved its rate.
    pub fn told(&mut self, line: &Line) -> Result<(), Difference> {
        let acr = line.acr(self.at)?;
        self.steady &= acr == self.acr;
        self.acr = acr;
        Ok(())
    }

    /// It sent a cell. With its rate as it was at the one before, and with something always
    /// waiting, it is passed exactly a gap after that one.
    pub fn sent(&mut self, cell: &Cell, delivered: bool, sums: &mut Sums) -> Result<(), String> {
        let (peak, present) = (gap(self.pcr), gap(self.acr));
        let increments = [peak, present, peak, present];
        for (place, policer) in self.policers.iter_mut().enumerate() {
            let dropped = !policer.arrives(cell.now, increments[place]);
            sums.dropped[place] += u64::from(dropped);
        }
        if let (Some(last), true) = (self.last, delivered && self.busy && self.steady) {
            sums.exact += 1;
            if cell.passed != last + present {
                return Err(format!("{:?}: {} after {last}", self.at, cell.passed));
            }
        }
        self.last = Some(cell.passed);
        (self.acr, self.steady) = (cell.sent.acr, true);
        self.cells += 1;
        self.waiting -= u64::from(cell.sent.kind == 3);
        sums.cells += 1;
        Ok(())
    }

    /// How much later than its cells so far account for at its minimum a slot is; none if it
    /// is not busy, closed or has no minimum.
    pub fn late(&self, now: u64) -> Option<u64> {
        if !self.busy || self.mcr == 0 {
            return None;
        }
        let delivered = self.opened? + self.cells * gap(self.mcr);
        Some(now.saturating_sub(delivered))
    }
}

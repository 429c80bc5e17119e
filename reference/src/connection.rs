//! One connection: the four moves of its allowed rate (document 01, "Four
//! moves of the allowed rate"), its waiting data, and when and what it sends
//! ("Slots"; with document 02's L1 a made cell counts as a turned one, with L5 a
//! connection with an allowed rate of 0 is never ready, and any may send out-of-rate
//! forward cells; with L9 it keeps what the last feedback did; with L13 it is a channel or
//! a path, whose data is that of its members; with L14 the initial rate of the moves is
//! the one that TBE and FRTT allow, while the given one is exported).

use crate::address::Address;
use crate::cell::{self, Octets, Rm};
use crate::destination::Destination;
use crate::double::{self, Exported};
use crate::load::{Load, Members};
use crate::params::{Contract, CDF_ZERO, CRM_MAX, MRM};
use crate::rate::{code_within, gap, rate_of};
use crate::refusal::Refusal;
use crate::spacing::Spacing;

/// The kinds of cell that a slot sends.
#[derive(Debug, Clone, Copy, PartialEq, Eq)]
pub enum Kind {
    /// A forward RM cell of this source.
    Forward,
    /// A backward RM cell: a received forward cell turned round, or a made one.
    Turned,
    /// A cell of waiting data.
    Data,
}

/// A cell that a connection sends.
#[derive(Debug, Clone, Copy, PartialEq, Eq)]
pub struct Departed {
    /// What it is.
    pub kind: Kind,
    /// The connection's address; of a path's data that of the member.
    pub at: Address,
    /// Whether it is a made cell, which counts as a turned one.
    pub made: bool,
}

/// What reading a connection's allowed rate gives (document 02, L9).
#[derive(Debug, Clone, Copy, PartialEq, Eq)]
pub struct Allowed {
    /// The allowed rate.
    pub acr: u64,
    /// What the last backward cell made of it: new less old; 0 before the first.
    pub change: i64,
}

/// The allowed rate and the contract that it moves under. Each move takes the
/// record and returns the moved one.
#[derive(Debug, Clone, Copy, PartialEq, Eq)]
pub struct RateRecord {
    /// The allowed rate.
    pub acr: u64,
    /// The contract.
    pub contract: Contract,
}

impl RateRecord {
    /// A new connection starts at the initial rate.
    pub fn new(contract: Contract) -> Self {
        RateRecord {
            acr: contract.icr_used,
            contract,
        }
    }

    /// Before the first cell: not above the initial rate.
    pub fn first_cell(self) -> Self {
        self.at(self.acr.min(self.contract.icr_used))
    }

    /// Rule 5, `passed` nanoseconds after the last forward cell: once more than
    /// ADTF has passed the rate is not above the initial one.
    pub fn idle(self, passed: u64) -> Self {
        if passed > self.contract.adtf {
            self.at(self.acr.min(self.contract.icr_used))
        } else {
            self
        }
    }

    /// Rule 6, after rule 5, with so many unanswered forward cells.
    pub fn unanswered(self, unanswered: u32) -> Self {
        let Contract { crm, c, mcr, .. } = self.contract;
        if unanswered >= crm && c != CDF_ZERO {
            self.at(cut(self.acr, c).max(mcr))
        } else {
            self
        }
    }

    /// Rules 8 and 9: the marks of a backward cell, then its explicit rate,
    /// whatever the marks were. `er` is a rate and not a code.
    pub fn feedback(self, ci: bool, ni: bool, er: u64) -> Self {
        let Contract { pcr, mcr, r, d, .. } = self.contract;
        let marked = if ci {
            cut(self.acr, d)
        } else if ni {
            self.acr
        } else {
            pcr.min(self.acr + (pcr >> r))
        };
        self.at(marked.min(er).max(mcr))
    }

    /// The record with another allowed rate.
    fn at(self, acr: u64) -> Self {
        RateRecord { acr, ..self }
    }
}

/// A rate less one 2^exponent-th of it, rounded down. No overflow: a rate has
/// 41 bits at most and the exponent is 15 at most.
fn cut(rate: u64, exponent: u32) -> u64 {
    (rate * ((1 << exponent) - 1)) >> exponent
}

/// Whether a later cell is a forward one, k cells and `passed` nanoseconds after the last
/// forward cell (document 01, "Slots"; document 02's L11 judges traces by it).
pub fn forward_due(k: u32, nrm: u32, passed: u64, trm: u64) -> bool {
    k == nrm - 1 || (k >= MRM && passed >= trm)
}

/// What a connection has sent, from its first cell on.
#[derive(Debug, Clone, Copy, PartialEq, Eq)]
pub struct History {
    /// When it last sent a cell.
    pub last_sent: u64,
    /// When it last sent a forward cell.
    pub last_forward: u64,
    /// The cells sent since that forward cell.
    pub k: u32,
    /// Whether one of them was a turned or a made cell.
    pub turned: bool,
}

/// An open connection.
#[derive(Debug, Clone, PartialEq, Eq)]
pub struct Connection {
    pub(crate) at: Address,
    pub(crate) opened: u64,
    pub(crate) rate: RateRecord,
    /// The new allowed rate less the old one, of the last backward cell.
    change: i64,
    /// Nothing before the first cell.
    pub(crate) history: Option<History>,
    /// Waiting data cells.
    load: Load,
    /// The receiving side, with the backward cells that wait.
    pub(crate) destination: Destination,
    /// Forward cells sent since the last answer, the document's Y.
    pub(crate) unanswered: u32,
    /// When it last had an out-of-rate cell.
    pub(crate) out_of_rate: Spacing,
}

impl Connection {
    /// A connection as its open makes it, with nothing in its load.
    pub fn new(at: Address, time: u64, contract: Contract, load: Load) -> Self {
        Connection {
            at,
            opened: time,
            rate: RateRecord::new(contract),
            change: 0,
            history: None,
            load,
            destination: Destination::default(),
            unanswered: 0,
            out_of_rate: Spacing::default(),
        }
    }

    /// The allowed rate.
    pub fn acr(&self) -> u64 {
        self.rate.acr
    }

    /// The allowed rate, and what the last backward cell made of it.
    pub fn allowed(&self) -> Allowed {
        Allowed {
            acr: self.rate.acr,
            change: self.change,
        }
    }

    /// The three rates that its open gave, as doubles (document 02, L8).
    pub fn export(&self) -> Exported {
        let Contract { pcr, mcr, icr, .. } = self.rate.contract;
        Exported {
            pcr: double::export(pcr),
            mcr: double::export(mcr),
            icr: double::export(icr),
        }
    }

    /// The data cells that wait.
    pub fn waiting(&self) -> u64 {
        self.load.waiting()
    }

    /// Adds waiting data. Refusals: 28 on a path, 15.
    pub fn offer(&mut self, cells: u64) -> Result<(), Refusal> {
        self.load.offer(cells)
    }

    /// The members, if it is a path.
    pub fn members(&self) -> Option<&Members> {
        self.load.members()
    }

    /// The members to be changed, if it is a path.
    pub fn members_mut(&mut self) -> Option<&mut Members> {
        match &mut self.load {
            Load::Channel(_) => None,
            Load::Path(members) => Some(members),
        }
    }

    /// A data cell arrived.
    pub fn receive_data(&mut self, efci: bool) {
        self.destination.receive_data(efci);
    }

    /// A forward cell arrived under this congestion level.
    pub fn receive_forward(&mut self, cell: &Octets, level: u32) {
        self.destination.receive_forward(self.at, cell, level);
    }

    /// Makes a backward cell under this congestion level. Refusals: 16, 17.
    pub fn make(&mut self, time: u64, level: u32) -> Result<(), Refusal> {
        let pcr = self.rate.contract.pcr;
        self.destination.make(self.at, time, level, pcr)
    }

    /// A backward cell arrived: it moves the rate, also by nothing, and with BN 0 it
    /// answers all unanswered cells.
    pub fn receive_backward(&mut self, rm: &Rm) {
        let old = self.rate.acr;
        self.rate = self.rate.feedback(rm.ci == 1, rm.ni == 1, rate_of(rm.er));
        self.change = self.rate.acr as i64 - old as i64; // rates have 41 bits at most
        if rm.bn == 0 {
            self.unanswered = 0;
        }
    }

    /// An out-of-rate forward cell (rule 11): CCR is the rate as it stands, and
    /// CLP is 1. Nothing changes but the instant of the last such cell. Refusal: 18.
    pub fn out_of_rate(&mut self, time: u64) -> Result<Octets, Refusal> {
        if !self.out_of_rate.allow(time) {
            return Err(Refusal::OutOfRateTooSoon);
        }
        let mut cell = self.forward_octets();
        cell::set_clp(&mut cell);
        Ok(cell)
    }

    /// The ready instant; nothing for never, as at an allowed rate of 0.
    pub fn ready(&self) -> Option<u64> {
        let gap = gap(self.rate.acr)?;
        let waiting = self.waiting() > 0 || self.destination.waits();
        let Some(history) = self.history else {
            return waiting.then_some(self.opened);
        };
        let due = history.last_sent + gap;
        if waiting || history.k == self.rate.contract.nrm - 1 {
            Some(due)
        } else if history.k >= MRM {
            Some(due.max(history.last_forward + self.rate.contract.trm))
        } else {
            None
        }
    }

    /// What a slot at this time sends, on a connection that is ready.
    fn next_kind(&self, time: u64) -> Kind {
        let Some(history) = self.history else {
            return Kind::Forward;
        };
        let Contract { nrm, trm, .. } = self.rate.contract;
        let passed = time - history.last_forward;
        if forward_due(history.k, nrm, passed, trm) {
            Kind::Forward
        } else if self.destination.waits() && (!history.turned || self.waiting() == 0) {
            Kind::Turned
        } else {
            Kind::Data
        }
    }

    /// Sends a cell at this time, on a connection that is ready, and says what it is.
    pub fn send(&mut self, time: u64, buffer: &mut Octets) -> Departed {
        let kind = self.next_kind(time);
        let (mut at, mut made) = (self.at, false);
        match kind {
            Kind::Forward => *buffer = self.forward_cell(time),
            Kind::Turned => {
                if let Some(backward) = self.destination.take() {
                    *buffer = backward.cell;
                    made = backward.made_at.is_some();
                }
            }
            Kind::Data => at.vci = self.load.take().unwrap_or(at.vci),
        }
        self.record(kind, time);
        Departed { kind, at, made }
    }

    /// Makes the moves that go before a forward cell, counts the cell as
    /// unanswered, and gives its octets.
    fn forward_cell(&mut self, time: u64) -> Octets {
        self.rate = match self.history {
            None => self.rate.first_cell(),
            Some(history) => self
                .rate
                .idle(time - history.last_forward)
                .unanswered(self.unanswered),
        };
        self.unanswered = CRM_MAX.min(self.unanswered + 1);
        self.forward_octets()
    }

    /// The octets of a forward cell with the codes of the rates as they stand. A
    /// minimum of 0 has code 0x0000, whatever code the open gave.
    fn forward_octets(&self) -> Octets {
        cell::rm_octets(&Rm {
            vpi: self.at.vpi,
            vci: self.at.vci,
            er: code_within(self.rate.contract.pcr),
            ccr: code_within(self.rate.acr),
            mcr: code_within(self.rate.contract.mcr),
            ..Rm::default()
        })
    }

    /// Updates the history after a cell of this kind.
    fn record(&mut self, kind: Kind, time: u64) {
        self.history = match (kind, self.history) {
            (Kind::Forward, _) | (_, None) => Some(History {
                last_sent: time,
                last_forward: time,
                k: 0,
                turned: false,
            }),
            (_, Some(history)) => Some(History {
                last_sent: time,
                last_forward: history.last_forward,
                k: history.k + 1,
                turned: history.turned || kind == Kind::Turned,
            }),
        };
    }
}

#[cfg(test)]
#[path = "connection_tests.rs"]
mod tests;

//! The receiving side of a connection: the saved EFCI and the backward cells
//! that wait (document 01, "Turning cells round"; document 02, L1 and L2).

use crate::address::Address;
use crate::cell::{self, Octets, Rm};
use crate::rate::code_within;
use crate::refusal::Refusal;
use crate::spacing::Spacing;

/// A backward cell that waits.
#[derive(Debug, Clone, PartialEq, Eq)]
pub struct Backward {
    /// Its octets.
    pub cell: Octets,
    /// The congestion level at which it was made; nothing if it is a turned one.
    pub made_at: Option<u32>,
}

/// What a connection's receiving side keeps.
#[derive(Debug, Clone, PartialEq, Eq, Default)]
pub struct Destination {
    /// The saved EFCI.
    pub(crate) efci: bool,
    /// The waiting turned cell.
    pub(crate) turned: Option<Backward>,
    /// The waiting made cell.
    pub(crate) made: Option<Backward>,
    /// When a cell was last made, sent since or not.
    pub(crate) makings: Spacing,
}

impl Destination {
    /// A data cell arrived: its mark replaces the saved one.
    pub fn receive_data(&mut self, efci: bool) {
        self.efci = efci;
    }

    /// A forward cell arrived: it is turned at once, under the present congestion
    /// level, and replaces the turned one that waited, whose CI it keeps. The
    /// saved mark becomes 0.
    pub fn receive_forward(&mut self, at: Address, cell: &Octets, level: u32) {
        let waiting = self.turned.as_ref().map(|turned| &turned.cell);
        let ci = self.efci || level == 2 || waiting.is_some_and(cell::has_ci);
        let ni = level == 1;
        self.turned = Some(Backward {
            cell: cell::turn(cell, at, ci, ni),
            made_at: None,
        });
        self.efci = false;
    }

    /// Makes a backward cell under this congestion level, in place of a made one
    /// that waits. Refusals: 16, 17.
    pub fn make(&mut self, at: Address, time: u64, level: u32, pcr: u64) -> Result<(), Refusal> {
        if level == 0 {
            return Err(Refusal::NotCongested);
        }
        if !self.makings.allow(time) {
            return Err(Refusal::MadeTooSoon);
        }
        let cell = cell::rm_octets(&Rm {
            vpi: at.vpi,
            vci: at.vci,
            dir: 1,
            bn: 1,
            ci: u32::from(level == 2),
            ni: u32::from(level == 1),
            er: code_within(pcr),
            ..Rm::default()
        });
        let made_at = Some(level);
        self.made = Some(Backward { cell, made_at });
        Ok(())
    }

    /// Whether a turned or a made cell waits.
    pub fn waits(&self) -> bool {
        self.turned.is_some() || self.made.is_some()
    }

    /// The next cell to send, which then no longer waits: the turned one, else
    /// the made one.
    pub fn take(&mut self) -> Option<Backward> {
        self.turned.take().or_else(|| self.made.take())
    }
}

#[cfg(test)]
#[path = "destination_tests.rs"]
mod tests;

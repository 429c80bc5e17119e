//! A line: a table of the library, its slots, and the times passed to them.

use abr::ffi::{abr_params, abr_rm, abr_sent};
use abr::CELL_OCTETS;
use abr_differential::call::{Answer, Call};
use abr_differential::library::{Difference, Library};
use abr_differential::octets::{Buffer, Octets};
use abr_reference::Address;

/// A cell per second times a second, in units by nanoseconds: rates fit a line with a slot every
/// S if their sum times S is at most this.
pub const SECOND: u64 = 512_000_000_000;

/// The lag of a line without a bound of its own.
pub const ENDLESS: u64 = u64::MAX;

/// The nanoseconds from one cell to the next at a rate above 0.
pub fn gap(rate: u64) -> u64 {
    SECOND.div_ceil(rate)
}

/// The code of a rate, rounded down.
pub fn code(rate: u64) -> u32 {
    abr_reference::code_of(rate).expect("a rate in range")
}

/// The house set with these rates, whose source doesn't fall for want of feedback.
pub fn params(pcr: u64, mcr: u64, icr: u64) -> abr_params {
    let [pcr, mcr, icr] = [pcr, mcr, icr].map(code);
    let house = abr_reference::Params::house(pcr, mcr, icr);
    abr_convert::library_params(&abr_reference::Params { c: 7, ..house })
}

/// A cell that was sent.
pub struct Cell {
    pub sent: abr_sent,
    /// When it went, and the time that was passed for it.
    pub now: u64,
    pub passed: u64,
}

/// A line.
#[derive(Default)]
pub struct Line {
    library: Library,
    /// The nanoseconds of a slot, which is the most from one slot to the next.
    pub slot: u64,
    /// The tolerance of its policers.
    pub lag: u64,
    /// The last slot's own time, and the last accepted time.
    pub now: u64,
    pub passed: u64,
    /// The connections open.
    pub open: u64,
    /// Those open at the last slot that was passed its own time, and the opens since.
    pub counted: u64,
}

impl Line {
    /// A line without connections.
    pub fn new(slot: u64, lag: u64) -> Self {
        Line {
            slot,
            lag,
            ..Line::default()
        }
    }

    /// A call that is accepted.
    pub fn call(&mut self, call: &Call) -> Result<Answer, Difference> {
        let outcome = self.library.call(call, &mut Buffer::new(0))?;
        outcome.map_err(|refusal| format!("{call:x?}: {refusal:?}"))
    }

    /// Opens a channel, or a path by its own name, at the time that was passed last.
    pub fn open(&mut self, at: Address, params: abr_params) -> Result<(), Difference> {
        let (vpi, time) = (at.vpi, self.passed);
        self.call(&match at == Address::of_path(vpi) {
            true => Call::OpenPath { vpi, time, params },
            false => Call::Open { at, time, params },
        })?;
        self.open += 1;
        self.counted += 1;
        Ok(())
    }

    /// Closes a connection.
    pub fn close(&mut self, at: Address) -> Result<(), Difference> {
        self.call(&Call::Close { at })?;
        self.open -= 1;
        Ok(())
    }

    /// Offers cells to a channel.
    pub fn offer(&mut self, at: Address, cells: u64) -> Result<(), Difference> {
        self.call(&Call::Offer { at, cells }).map(|_| ())
    }

    /// Receives an RM cell.
    pub fn receive(&mut self, cell: &[u8; CELL_OCTETS]) -> Result<(), Difference> {
        let cell = Octets::cell(cell);
        self.call(&Call::Receive { cell }).map(|_| ())
    }

    /// Receives a backward cell without marks and with an explicit rate.
    pub fn explicit(&mut self, at: Address, rate: u64) -> Result<(), Difference> {
        let er = code(rate);
        self.receive(&backward(
            at,
            abr_rm {
                er,
                ..abr_rm::default()
            },
        ))
    }

    /// The allowed rate of a connection.
    pub fn acr(&self, at: Address) -> Result<u64, Difference> {
        match self.library.acr(at)? {
            Ok(Answer::Allowed(allowed)) => Ok(allowed.acr),
            other => Err(format!("ACR of {at:?}: {other:?}")),
        }
    }

    /// The earliest ready instant.
    pub fn next(&self) -> Option<u64> {
        self.library.next()
    }

    /// The time to be passed to a slot at `now`, with another tolerance than the line's.
    pub fn slot_time(&self, now: u64, lag: u64) -> u64 {
        self.library.slot_time(now, lag)
    }

    /// A slot at its own time, with the time passed that the library gives: a cell, or none
    /// if it is idle.
    pub fn slot(&mut self, now: u64) -> Result<Option<Cell>, Difference> {
        let passed = self.library.slot_time(now, self.lag);
        let len = CELL_OCTETS;
        let answer = self.call(&Call::Slot { time: passed, len })?;
        (self.now, self.passed) = (now, passed);
        let Answer::Sent(sent) = answer else {
            return Err(format!("a slot answered {answer:?}"));
        };
        Ok((sent.kind != 0).then_some(Cell { sent, now, passed }))
    }

    /// How far the last slot was passed behind its own time. Afterwards, if it was not, only
    /// what is open counts.
    pub fn behind(&mut self) -> u64 {
        if self.now == self.passed {
            self.counted = self.open;
        }
        self.now - self.passed
    }
}

/// A backward cell for a connection, with the fields of another.
pub fn backward(at: Address, rm: abr_rm) -> [u8; CELL_OCTETS] {
    let mut octets = [0; CELL_OCTETS];
    let rm = abr_rm {
        vpi: at.vpi,
        vci: at.vci,
        dir: 1,
        ..rm
    };
    abr_reference::write_rm(&abr_convert::reference_rm(&rm), &mut octets).expect("fields in range");
    octets
}

//! The judge of other transmitters' traces (document 02, L11), in one pass.

use crate::connection::{forward_due, Kind};
use crate::engine::TIME_MAX;
use crate::params::TRM_TIMES;
use crate::rate::{gap, LARGEST};
use crate::refusal::Refusal;
use crate::trace::Reader;

/// The first cell that breaks a rule.
#[derive(Debug, Clone, Copy, PartialEq, Eq)]
pub struct Breach {
    /// Its number, counted from 1.
    pub cell: u64,
    /// The lowest rule that it breaks, 1 to 3.
    pub rule: u32,
}

/// One cell of a trace.
struct Traced {
    /// When it was sent, counted from the first cell.
    time: u64,
    kind: Kind,
    /// The rate in force before it.
    rate: u64,
}

/// What the cells before have left to look at.
struct History {
    last_sent: u64,
    last_forward: u64,
    /// The cells since that forward cell.
    k: u32,
}

/// Nrm and Trm of a trace, and what it has shown so far; no history before the first cell.
struct Judge {
    nrm: u32,
    trm: u64,
    history: Option<History>,
}

/// Judges a trace: nothing if every cell follows the rules. Refusals: 23, 24, 25, whichever
/// is seen at the earliest octet, before any broken rule.
pub fn judge(trace: &[u8]) -> Result<Option<Breach>, Refusal> {
    let mut reader = Reader::new(trace);
    let n = reader.number_where(|n| (1..=8).contains(&n))?;
    let trm = reader.number_where(|trm| trm < TRM_TIMES.len() as u64)?;
    let mut judge = Judge {
        nrm: 1 << n,
        trm: TRM_TIMES[trm as usize],
        history: None,
    };
    let (mut breach, mut time) = (None, 0);
    for cell in 1.. {
        if reader.ended() {
            break;
        }
        let traced = read_cell(&mut reader, cell == 1, time)?;
        time = traced.time;
        if breach.is_none() {
            breach = judge.broken(&traced).map(|rule| Breach { cell, rule });
            judge.add(&traced);
        }
    }
    Ok(breach)
}

/// Reads a cell whose predecessor was sent at this time. Refusals: 23, 24, 25.
fn read_cell(reader: &mut Reader<'_>, first: bool, before: u64) -> Result<Traced, Refusal> {
    let left = if first { 0 } else { TIME_MAX - before };
    let passed = reader.number_where(|passed| passed <= left)?;
    let kind = match reader.number_where(|kind| (1..=3).contains(&kind))? {
        1 => Kind::Forward,
        2 => Kind::Turned,
        _ => Kind::Data,
    };
    let rate = reader.number_where(|rate| rate <= LARGEST)?;
    let time = before + passed;
    Ok(Traced { time, kind, rate })
}

impl Judge {
    /// The lowest rule that the next cell breaks.
    fn broken(&self, cell: &Traced) -> Option<u32> {
        let forward = cell.kind == Kind::Forward;
        let Some(history) = &self.history else {
            return (!forward).then_some(1);
        };
        let passed = cell.time - history.last_sent;
        if gap(cell.rate).is_none_or(|gap| passed < gap) {
            return Some(2);
        }
        let since_forward = cell.time - history.last_forward;
        let due = forward_due(history.k, self.nrm, since_forward, self.trm);
        (forward != due).then_some(3)
    }

    /// The cell was sent. The first one breaks a rule if it isn't forward, and nothing is
    /// judged behind it.
    fn add(&mut self, cell: &Traced) {
        let after = match &self.history {
            Some(history) if cell.kind != Kind::Forward => History {
                last_sent: cell.time,
                last_forward: history.last_forward,
                k: history.k + 1,
            },
            _ => History {
                last_sent: cell.time,
                last_forward: cell.time,
                k: 0,
            },
        };
        self.history = Some(after);
    }
}

#[cfg(test)]
#[path = "judge_tests.rs"]
mod tests;

//! What the rules look at before a later cell: the cell before it, the last forward cell and
//! the cells since that one.

use crate::trace::{Cell, Head, Kind};

/// The cells before a cell.
#[derive(Debug, Clone, Copy)]
pub struct History {
    /// The one right before it.
    pub last: Cell,
    /// The last forward one.
    pub forward: Cell,
    /// The cells since that one.
    pub k: u64,
}

impl History {
    /// That of the second cell.
    pub fn new(first: Cell) -> Self {
        History {
            last: first,
            forward: first,
            k: 0,
        }
    }

    /// That of the cell behind this one.
    pub fn after(self, cell: Cell) -> Self {
        match cell.kind {
            Kind::Forward => History::new(cell),
            _ => History {
                last: cell,
                k: self.k + 1,
                ..self
            },
        }
    }

    /// Why a forward cell is due at this time, if one is.
    pub fn due(&self, head: Head, time: u64) -> Option<Due> {
        if self.k == head.nrm() - 1 {
            Some(Due::Count)
        } else if self.k >= 2 && time - self.forward.time >= head.trm_time() {
            Some(Due::Time)
        } else {
            None
        }
    }
}

/// What makes a forward cell due.
#[derive(Debug, Clone, Copy, PartialEq, Eq)]
pub enum Due {
    /// Nrm - 1 cells have gone.
    Count,
    /// Trm has passed, and two cells have gone.
    Time,
}

/// The least time from one cell to the next at a rate, rounded up; none at rate 0.
pub fn gap(rate: u64) -> Option<u64> {
    (rate > 0).then(|| 512_000_000_000_u64.div_ceil(rate))
}

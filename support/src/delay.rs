//! RM cells under way.

use std::collections::VecDeque;

use abr::CELL_OCTETS;

/// The octets of a cell.
pub type Octets = [u8; CELL_OCTETS];

/// A way that every cell takes the same time for.
pub struct DelayLine {
    delay: u64,
    cells: VecDeque<(u64, Octets)>,
}

impl DelayLine {
    /// A way that takes so many nanoseconds.
    pub fn new(delay: u64) -> Self {
        DelayLine {
            delay,
            cells: VecDeque::new(),
        }
    }

    /// A cell that sets out at this time, which is not before that of the cell before.
    pub fn send(&mut self, time: u64, cell: Octets) {
        self.cells.push_back((time + self.delay, cell));
    }

    /// The next cell that has arrived by this time.
    pub fn arrived(&mut self, time: u64) -> Option<Octets> {
        let (due, _) = self.cells.front()?;
        if *due > time {
            return None;
        }
        self.cells.pop_front().map(|(_, cell)| cell)
    }
}

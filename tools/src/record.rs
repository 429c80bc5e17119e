//! A trace recorded from what a transmitter sends on one connection.

use abr::{Params, Sent};

use crate::text;
use crate::trace::{octets, Cell, Head, Kind};

/// The cells of one connection so far.
#[derive(Debug, Clone)]
pub struct Recorder {
    head: Head,
    cells: Vec<Cell>,
    /// When the first cell was sent.
    first: u64,
}

impl Recorder {
    /// A connection that was opened with these parameters.
    pub fn new(params: &Params) -> Self {
        let (n, trm) = (params.n.into(), params.trm.into());
        Recorder::of(Head { n, trm })
    }

    /// A connection whose trace begins so.
    pub fn of(head: Head) -> Self {
        Recorder {
            head,
            cells: Vec::new(),
            first: 0,
        }
    }

    /// A slot at this time sent a cell on the connection.
    pub fn sent(&mut self, time: u64, sent: &Sent) {
        let kind = match sent.kind {
            abr::Kind::Forward => Kind::Forward,
            abr::Kind::Turned => Kind::Backward,
            abr::Kind::Data => Kind::Data,
        };
        self.add(time, kind, sent.acr_before);
    }

    /// The same by what it was; the time is not before that of the last cell.
    pub fn add(&mut self, time: u64, kind: Kind, rate: u64) {
        if self.cells.is_empty() {
            self.first = time;
        }
        let time = time - self.first;
        self.cells.push(Cell {
            number: self.count() + 1,
            passed: time - self.cells.last().map_or(0, |last| last.time),
            time,
            kind,
            rate,
        });
    }

    /// When the last cell was sent.
    pub fn last(&self) -> Option<u64> {
        self.cells.last().map(|last| self.first + last.time)
    }

    /// The number of cells.
    pub fn count(&self) -> u64 {
        self.cells.len() as u64
    }

    /// The trace as octets.
    pub fn octets(&self) -> Vec<u8> {
        octets(self.head, &self.cells)
    }

    /// The trace as numbers.
    pub fn text(&self) -> String {
        text::written(self.head, &self.cells)
    }
}

//! A source with its engine.

use abr::{Address, Cell, Kind, Refusal, Table, CELL_OCTETS};
use abr_support::delay::Octets;

use super::feedbacks::Feedbacks;
use super::sources::Source;
use crate::track::Track;

/// What is seen of a source.
pub struct History {
    /// Its allowed rate, while the connection is open.
    pub track: Track,
    pub feedbacks: Feedbacks,
}

/// A source, with an engine of its own.
pub struct Station {
    source: &'static Source,
    at: Address,
    table: Table,
    /// The data cells that wait.
    waiting: u64,
    /// When the application has its next one.
    next: u64,
    pub history: History,
}

impl Station {
    /// A source whose connection is not open yet.
    pub fn new(source: &'static Source, at: Address) -> Result<Self, Refusal> {
        Ok(Station {
            source,
            at,
            table: Table::new(),
            waiting: 0,
            next: 0,
            history: History {
                track: Track::default(),
                feedbacks: Feedbacks::new(&source.params()?)?,
            },
        })
    }

    /// Opens the connection.
    pub fn open(&mut self, time: u64) -> Result<(), Refusal> {
        let params = self.source.params()?;
        self.table.open(self.at, time, &params).map(drop)
    }

    /// Closes the connection.
    pub fn close(&mut self, time: u64) -> Result<(), Refusal> {
        self.history.track.end(time);
        self.waiting = 0;
        self.table.close(self.at).map(drop)
    }

    /// Offers a data cell as often as the application has one. It makes none while two wait, and
    /// leaves two cells of every 32 to the RM cells, a forward and a turned one.
    fn offer(&mut self, time: u64) -> Result<(), Refusal> {
        let demand = self.source.demand(time);
        if demand == 0 || self.waiting == 2 || self.next > time {
            return Ok(());
        }
        let pause = 32 * 1_000_000_000 / (30 * demand);
        self.next = time.max(self.next + pause);
        self.waiting += 1;
        self.table.offer(self.at, 1).map(drop)
    }

    /// A slot of its link: an RM cell, if it sends one. Of data cells nothing is seen but that
    /// they are gone.
    pub fn slot(&mut self, time: u64) -> Result<Option<Octets>, Refusal> {
        self.offer(time)?;
        let mut cell = [0; CELL_OCTETS];
        let Some(sent) = self.table.slot(time, &mut cell)? else {
            return Ok(None);
        };
        self.history.track.add(time, sent.acr);
        if sent.kind == Kind::Data {
            self.waiting -= 1;
            return Ok(None);
        }
        Ok(Some(cell))
    }

    /// A cell that arrives.
    pub fn receive(&mut self, time: u64, cell: &Octets) -> Result<(), Refusal> {
        let before = self.table.acr(self.at)?;
        let after = self.table.receive(cell)?.acr;
        self.history.track.add(time, after);
        match abr::read(cell)? {
            Cell::Rm(rm) if rm.backward => self.history.feedbacks.count(time, &rm, before, after),
            _ => Ok(()),
        }
    }
}

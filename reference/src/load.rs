//! The data that waits on a connection: a channel's own, or that of a path's members and
//! whose turn it is (document 02, L13).

use std::collections::BTreeMap;
use std::ops::Bound;

use crate::refusal::Refusal;

/// The most data cells that may wait on a channel, and on each member of a path.
pub const DATA_MAX: u64 = 65_535;

/// The members that all paths may have together.
pub const MEMBERS_MAX: usize = 256;

/// The data cells that wait on a connection.
#[derive(Debug, Clone, PartialEq, Eq)]
pub enum Load {
    /// A channel's own.
    Channel(u64),
    /// Those of a path's members.
    Path(Members),
}

impl Load {
    /// A channel without data.
    pub fn channel() -> Self {
        Load::Channel(0)
    }

    /// A path without members.
    pub fn path() -> Self {
        Load::Path(Members::default())
    }

    /// How many wait; on a path the sum over its members.
    pub fn waiting(&self) -> u64 {
        match self {
            Load::Channel(data) => *data,
            Load::Path(members) => members.cells.values().sum(),
        }
    }

    /// Adds cells to those of a channel. A path has none of its own. Refusals: 28, 15.
    pub fn offer(&mut self, cells: u64) -> Result<(), Refusal> {
        match self {
            Load::Channel(data) => fill(data, cells),
            Load::Path(_) => Err(Refusal::NotAMember),
        }
    }

    /// Takes a cell to be sent, of which some wait, and says of which member it is.
    pub fn take(&mut self) -> Option<u32> {
        match self {
            Load::Channel(data) => {
                *data -= 1;
                None
            }
            Load::Path(members) => members.take(),
        }
    }

    /// The members, if it is that of a path.
    pub fn members(&self) -> Option<&Members> {
        match self {
            Load::Channel(_) => None,
            Load::Path(members) => Some(members),
        }
    }
}

/// The members of a path by VCI, each with its data, and the one served last.
#[derive(Debug, Clone, PartialEq, Eq, Default)]
pub struct Members {
    pub(crate) cells: BTreeMap<u32, u64>,
    /// Nothing before any was served. It stays when that member is removed.
    pub(crate) served: Option<u32>,
}

impl Members {
    /// How many there are.
    pub fn count(&self) -> usize {
        self.cells.len()
    }

    /// The cells that wait on a member. Refusal: 28.
    pub fn waiting(&self, vci: u32) -> Result<u64, Refusal> {
        let cells = self.cells.get(&vci).copied();
        cells.ok_or(Refusal::NotAMember)
    }

    /// Adds a member, without data.
    pub fn add(&mut self, vci: u32) {
        self.cells.insert(vci, 0);
    }

    /// Adds cells to those of a member. Refusals: 28, 15.
    pub fn offer(&mut self, vci: u32, cells: u64) -> Result<(), Refusal> {
        let waiting = self.cells.get_mut(&vci).ok_or(Refusal::NotAMember)?;
        fill(waiting, cells)
    }

    /// Removes a member and gives the cells that waited on it. Refusal: 28.
    pub fn remove(&mut self, vci: u32) -> Result<u64, Refusal> {
        self.cells.remove(&vci).ok_or(Refusal::NotAMember)
    }

    /// The member whose turn it is: the first with data above the one served last, else,
    /// and before any was served, the lowest with data.
    fn turn(&self) -> Option<u32> {
        let after = self.served.map_or(Bound::Unbounded, Bound::Excluded);
        let above = self.cells.range((after, Bound::Unbounded));
        let mut round = above.chain(&self.cells);
        round.find(|(_, cells)| **cells > 0).map(|(vci, _)| *vci)
    }

    /// Takes a cell of that member, which is then the one served last.
    fn take(&mut self) -> Option<u32> {
        let vci = self.turn()?;
        *self.cells.get_mut(&vci)? -= 1;
        self.served = Some(vci);
        self.served
    }
}

/// Adds cells to those that wait. Refusal: 15.
fn fill(waiting: &mut u64, cells: u64) -> Result<(), Refusal> {
    if cells > DATA_MAX - *waiting {
        return Err(Refusal::TooMuchData);
    }
    *waiting += cells;
    Ok(())
}

#[cfg(test)]
#[path = "load_tests.rs"]
mod tests;

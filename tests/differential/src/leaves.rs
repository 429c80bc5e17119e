//! The leaf of each open connection (document 02, L4), from a list's calls and their answers
//! alone: an open takes the lowest free one, which no other connection has, and each later answer
//! of that connection carries it until its close.

use std::collections::BTreeMap;

use abr::CONNECTIONS_MAX;
use abr_reference::Address;

use crate::call::{Answer, Call, Outcome};
use crate::library::Difference;

/// The leaves of a list.
#[derive(Debug, Clone)]
pub struct Leaves {
    /// Who has each leaf.
    connections: Vec<Option<Address>>,
    /// The leaf of each connection.
    leaves: BTreeMap<Address, u32>,
    /// All leaves below this one are taken.
    lowest: usize,
}

impl Default for Leaves {
    fn default() -> Self {
        Leaves {
            connections: vec![None; CONNECTIONS_MAX],
            leaves: BTreeMap::new(),
            lowest: 0,
        }
    }
}

impl Leaves {
    /// How many are taken.
    pub fn taken(&self) -> usize {
        self.leaves.len()
    }

    /// The connection in a leaf; nothing if it is free or there is no such leaf.
    pub fn connection(&self, leaf: u32) -> Option<Address> {
        *self.connections.get(leaf as usize)?
    }

    /// Adds a call with its answer, and checks the leaf that it carries.
    pub fn add(&mut self, call: &Call, outcome: &Outcome) -> Result<(), Difference> {
        match (*call, *outcome) {
            (Call::Open { at, .. }, Ok(Answer::Opened(opened))) => self.open(at, opened.leaf),
            (Call::OpenPath { vpi, .. }, Ok(Answer::Opened(opened))) => {
                self.open(Address::of_path(vpi), opened.leaf)
            }
            (Call::Close { at }, Ok(_)) => self.close(at),
            (_, Ok(Answer::Received(received))) => {
                let at = Address::new(received.vpi, received.vci);
                self.same(at, received.leaf)
            }
            (_, Ok(Answer::Sent(sent))) if sent.kind != 0 => {
                self.same(Address::new(sent.vpi, sent.vci), sent.leaf)
            }
            _ => Ok(()),
        }
    }

    /// Whether this is the leaf of a connection, or of a member's path. A pair is never both.
    pub fn same(&self, at: Address, leaf: u32) -> Result<(), Difference> {
        let of_path = self.leaves.get(&Address::of_path(at.vpi));
        match self.leaves.get(&at).or(of_path) {
            Some(taken) if *taken == leaf => Ok(()),
            taken => Err(format!("leaf {leaf} of {at:?}, which has {taken:?}")),
        }
    }

    fn open(&mut self, at: Address, leaf: u32) -> Result<(), Difference> {
        while self.connections[self.lowest].is_some() {
            self.lowest += 1;
        }
        if self.lowest != leaf as usize {
            let lowest = self.lowest;
            return Err(format!("{at:?} has leaf {leaf}, and {lowest} is free"));
        }
        self.connections[self.lowest] = Some(at);
        self.leaves.insert(at, leaf);
        Ok(())
    }

    fn close(&mut self, at: Address) -> Result<(), Difference> {
        let leaf = self.leaves.remove(&at);
        let leaf = leaf.ok_or_else(|| format!("{at:?} was not open"))? as usize;
        self.connections[leaf] = None;
        self.lowest = self.lowest.min(leaf);
        Ok(())
    }
}

#[cfg(test)]
mod tests {
    use super::*;
    use abr::ffi::{abr_params, abr_sent};
    use abr_reference::{Closed, Opened};

    fn open(leaves: &mut Leaves, vci: u32, leaf: u32) -> Result<(), Difference> {
        let at = Address::new(0, vci);
        let params = abr_params::house(0, 0, 0);
        let (time, comparisons) = (0, 1);
        let answer = Answer::Opened(Opened { comparisons, leaf });
        leaves.add(&Call::Open { at, time, params }, &Ok(answer))
    }

    #[test]
    fn only_the_lowest_free_leaf_is_right() {
        let mut leaves = Leaves::default();
        assert!(open(&mut leaves.clone(), 32, 1).is_err());
        for (vci, leaf) in [(32, 0), (33, 1), (34, 2)] {
            assert_eq!(open(&mut leaves, vci, leaf), Ok(()));
        }
        assert!(open(&mut leaves.clone(), 35, 2).is_err()); // that of another
        let closed = Closed {
            cells: 0,
            comparisons: 1,
        };
        let close = Call::Close {
            at: Address::new(0, 33),
        };
        assert_eq!(leaves.add(&close, &Ok(Answer::Closed(closed))), Ok(()));
        assert!(open(&mut leaves.clone(), 35, 3).is_err());
        assert_eq!(open(&mut leaves, 35, 1), Ok(()));
        assert_eq!((leaves.taken(), leaves.connection(3)), (3, None));
    }

    #[test]
    fn answers_carry_the_leaf_of_the_open() {
        let mut leaves = Leaves::default();
        open(&mut leaves, 40, 0).unwrap();
        open(&mut leaves, 6, 1).unwrap(); // stands for the path on VPI 0
        let mut sent = |vci, leaf| {
            let (kind, vpi) = (3, 0);
            let answer = Answer::Sent(abr_sent {
                kind,
                vpi,
                vci,
                leaf,
                ..abr_sent::default()
            });
            leaves
                .add(&Call::Slot { time: 0, len: 53 }, &Ok(answer))
                .is_ok()
        };
        assert!(sent(40, 0) && sent(6, 1) && sent(41, 1));
        assert!(!sent(40, 1) && !sent(6, 0) && !sent(41, 0));
    }
}

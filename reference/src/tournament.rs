//! The tournament of the ready instants (document 02, L4): a plain tree, kept
//! beside the table to count the matches that a call replays. No slot asks it who
//! sends.

use std::collections::BTreeSet;

use crate::capacity::{COMPARISONS_MAX, CONNECTIONS_MAX};

/// The leaves, one for each connection that may be open.
pub const LEAVES: usize = CONNECTIONS_MAX;

/// The levels of matches above the leaves.
pub const LEVELS: usize = COMPARISONS_MAX as usize;

/// The ready instant and the name of a connection. Of two the lower one wins a
/// match: the earlier instant, and of equal instants the lower name.
pub type Entrant = (u64, u32);

/// The leaves and the matches between them.
#[derive(Debug, Clone, PartialEq, Eq)]
pub struct Tournament {
    /// The leaves that no connection has.
    free: BTreeSet<usize>,
    /// Who plays for each leaf: nobody if it is empty or never ready.
    entrants: Vec<Option<Entrant>>,
    /// By level and place the leaf that wins there. Level 0 is the leaves
    /// themselves; places 2p and 2p + 1 of a level play match p of the next.
    winners: Vec<Vec<Option<usize>>>,
}

impl Default for Tournament {
    fn default() -> Self {
        Tournament {
            free: (0..LEAVES).collect(),
            entrants: vec![None; LEAVES],
            winners: (0..=LEVELS)
                .map(|level| vec![None; LEAVES >> level])
                .collect(),
        }
    }
}

impl Tournament {
    /// Takes the lowest free leaf; nothing if none is free.
    pub fn take(&mut self) -> Option<usize> {
        self.free.pop_first()
    }

    /// Frees a leaf, which from now on wins no match. The comparisons are those
    /// of its replay.
    pub fn release(&mut self, leaf: usize) -> u32 {
        self.free.insert(leaf);
        self.replay(leaf, None)
    }

    /// Replays the matches of a leaf, for which another may play now, and says how
    /// many they were: up to and including the first level whose winner, or lack of
    /// one, is as before and isn't that leaf. Above it nothing has changed.
    pub fn replay(&mut self, leaf: usize, entrant: Option<Entrant>) -> u32 {
        self.entrants[leaf] = entrant;
        self.winners[0][leaf] = entrant.map(|_| leaf);
        for level in 1..=LEVELS {
            let place = leaf >> level;
            let winner = self.play(level, place);
            let before = std::mem::replace(&mut self.winners[level][place], winner);
            if winner == before && winner != Some(leaf) {
                return level as u32;
            }
        }
        COMPARISONS_MAX
    }

    /// Who wins over all leaves.
    pub fn top(&self) -> Option<Entrant> {
        self.winners[LEVELS][0].and_then(|leaf| self.entrants[leaf])
    }

    /// The winner of a match between the two places below it.
    fn play(&self, level: usize, place: usize) -> Option<usize> {
        let below = &self.winners[level - 1];
        match (below[2 * place], below[2 * place + 1]) {
            (Some(one), Some(two)) if self.entrants[two] < self.entrants[one] => Some(two),
            (one, two) => one.or(two),
        }
    }
}

#[cfg(test)]
#[path = "tournament_tests.rs"]
mod tests;

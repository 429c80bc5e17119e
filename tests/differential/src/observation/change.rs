//! What the last feedback did (document 02, L9): the change, computed from the allowed
//! rates that were read, and its edges.

use abr_reference::{Address, Allowed};

use super::{Connection, Observation};
use crate::call::Call;
use crate::coverage::{Coverage, Event};
use crate::library::Difference;

impl Observation {
    /// Whether the change that was read of a connection is the allowed rate after its last
    /// backward cell less the one before.
    pub fn same_change(&self, at: Address, allowed: Allowed) -> Result<(), Difference> {
        match self.connections.get(&at) {
            Some(connection) if connection.change != allowed.change => Err(format!(
                "change of {at:?}: {}, but the rates read differ by {}",
                allowed.change, connection.change
            )),
            _ => Ok(()),
        }
    }

    /// A call was refused: it may be a cell of a connection whose rate had changed.
    pub(super) fn refused_change(&self, call: &Call, coverage: &mut Coverage) {
        let Call::Receive { .. } = call else {
            return;
        };
        let to = call.address().and_then(|at| self.connections.get(&at));
        let changed = to.is_some_and(|connection| connection.change != 0);
        coverage.reach(Event::ChangeKeptRefused, changed);
    }
}

/// A backward cell gave a connection, which is as it was before, this rate.
pub(super) fn received(connection: &mut Connection, bits: u8, acr: u64, coverage: &mut Coverage) {
    let change = difference(acr, connection.acr);
    let whole = difference(connection.pcr, connection.mcr);
    coverage.reach(Event::ChangeRise, change > 0);
    coverage.reach(Event::ChangeFall, change < 0);
    coverage.reach(Event::ChangeNothing, change == 0 && connection.change != 0);
    coverage.reach(Event::ChangeBn, change != 0 && bits & 0x40 != 0);
    coverage.reach(Event::ChangeToPeak, whole > 0 && change == whole);
    coverage.reach(Event::ChangeToMinimum, whole > 0 && change == -whole);
    connection.change = change;
}

/// A cell is sent on a connection that is as it was before, which then has this rate: if
/// that is another one, a move before a forward cell made it.
pub(super) fn sent(connection: &Connection, time: u64, acr: u64, coverage: &mut Coverage) {
    let moved = difference(acr, connection.acr);
    if moved == 0 || moved == connection.change {
        return;
    }
    let passed = connection.sends.map(|sends| time - sends.forward);
    let idle = passed.is_some_and(|passed| passed > connection.adtf());
    let back = idle && acr == connection.icr;
    coverage.reach(Event::ChangeKeptFirst, passed.is_none());
    coverage.reach(Event::ChangeKeptIdle, back);
    coverage.reach(Event::ChangeKeptUnanswered, passed.is_some() && !back);
}

/// One rate less another. Rates have 41 bits at most.
fn difference(new: u64, old: u64) -> i64 {
    new as i64 - old as i64
}

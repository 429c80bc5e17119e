//! Closes (document 02, L12): what waited, and what is not counted.

use abr::WAITING_MAX;
use abr_reference::{Address, Refusal};

use super::{Connection, Observation};
use crate::call::Call;
use crate::coverage::{Coverage, Event};

impl Observation {
    /// A connection was closed, and is as it was before.
    pub(super) fn closing(
        &mut self,
        at: Address,
        connection: &Connection,
        coverage: &mut Coverage,
    ) {
        let data = connection.data;
        let backward = connection.turned.is_some() || connection.made.is_some();
        let forward_only = connection.sends.is_some() && data > 0 && data == connection.offered;
        coverage.reach(Event::ClosedWaiting, data > 0);
        coverage.reach(Event::ClosedFull, data == WAITING_MAX);
        coverage.reach(Event::ClosedSent, data == 0 && connection.offered > 0);
        coverage.reach(Event::ClosedUnsent, forward_only);
        coverage.reach(Event::ClosedBackward, data == 0 && backward);
        coverage.reach(Event::ClosedRefused, connection.refused_offer);
        if data > 0 {
            coverage.reach(Event::ClosedAgain, !self.drained.insert(at));
        }
    }

    /// A call was refused: it may be an offer of too much.
    pub(super) fn refused_offer(&mut self, call: &Call, refusal: Refusal) {
        if let (Call::Offer { at, .. }, Refusal::TooMuchData) = (call, refusal) {
            if let Some(connection) = self.connections.get_mut(at) {
                connection.refused_offer = true;
            }
        }
    }
}

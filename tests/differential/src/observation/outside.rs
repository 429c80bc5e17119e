//! Out-of-rate cells (document 02, L5): what is known of them, and their edges.

use abr::{OUT_OF_RATE_INTERVAL, RATE_ONE};
use abr_reference::{Address, Refusal};

use super::Observation;
use crate::call::Call;
use crate::coverage::{Coverage, Event};

impl Observation {
    /// An out-of-rate cell was written.
    pub(super) fn outside(&mut self, at: Address, time: u64, coverage: &mut Coverage) {
        (self.last, self.last_outside) = (time, time);
        let before = self.outside.insert(at, time);
        let Some(connection) = self.connections.get_mut(&at) else {
            return;
        };
        let last = connection.last_outside.replace(time);
        let soon = before.is_some_and(|before| time - before < OUT_OF_RATE_INTERVAL);
        coverage.reach(Event::OutsideReopened, last.is_none() && soon);
        let end = last.map(|last| last + OUT_OF_RATE_INTERVAL);
        coverage.reach(Event::OutsideExact, end == Some(time));
        let (acr, first) = (connection.acr, connection.sends.is_none());
        coverage.reach(Event::OutsideAtZero, acr == 0);
        coverage.reach(Event::OutsideBelowOne, 0 < acr && acr < RATE_ONE);
        coverage.reach(Event::OutsideBeforeFirst, first);
        coverage.reach(Event::ChangeKeptOutside, connection.change != 0);
        coverage.reach(Event::OutsideAboveIcr, first && acr > connection.icr);
        let cuts = connection.unanswered >= connection.crm && connection.params.c != 7;
        let unanswered = cuts && acr > connection.mcr;
        coverage.reach(Event::OutsideUnanswered, unanswered);
        let nothing = !connection.waits() && connection.ready().is_none();
        coverage.reach(Event::OutsideAlone, nothing);
    }

    /// A call was refused: it may be at an edge of an out-of-rate cell.
    pub(super) fn refused_outside(&self, call: &Call, refusal: Refusal, coverage: &mut Coverage) {
        match (*call, refusal) {
            (Call::OutOfRate { at, time, .. }, Refusal::OutOfRateTooSoon) => {
                let last = self.connections.get(&at).and_then(|c| c.last_outside);
                let end = last.map(|last| last + OUT_OF_RATE_INTERVAL);
                coverage.reach(Event::OutsideLessOne, end == Some(time + 1));
            }
            (Call::OutOfRate { at, .. }, Refusal::NotOpen) => {
                coverage.reach(Event::OutsideClosed, self.closed.contains(&at));
            }
            (
                Call::Open { time, .. }
                | Call::OpenPath { time, .. }
                | Call::Slot { time, .. }
                | Call::Make { time, .. },
                Refusal::TimeBackward,
            ) => {
                let others = self.last_sent.max(self.last_making);
                coverage.reach(Event::OutsideTimeCounts, time >= others);
            }
            _ => {}
        }
    }
}

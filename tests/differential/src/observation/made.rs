//! Made cells (document 02, L1): what is known of them, and their edges.

use abr::MAKE_INTERVAL;
use abr_reference::{Address, Refusal};

use super::{Connection, Observation};
use crate::call::Call;
use crate::coverage::{Coverage, Event};

impl Observation {
    /// A cell was made.
    pub(super) fn made(&mut self, at: Address, time: u64, coverage: &mut Coverage) {
        let level = self.level;
        (self.last, self.last_making) = (time, time);
        let before = self.makings.insert(at, time);
        let Some(connection) = self.connections.get_mut(&at) else {
            return;
        };
        let soon = before.is_some_and(|before| time - before < MAKE_INTERVAL);
        coverage.reach(Event::MadeReopened, connection.last_made.is_none() && soon);
        let end = connection.last_made.map(|last| last + MAKE_INTERVAL);
        coverage.reach(Event::MadeExact, end == Some(time));
        coverage.reach(Event::MadeLevelOne, level == 1);
        coverage.reach(Event::MadeLevelTwo, level == 2);
        coverage.reach(Event::MadeUnderEfci, level == 1 && connection.efci);
        coverage.reach(Event::MadeBeforeFirst, connection.sends.is_none());
        coverage.reach(Event::MadeReplaced, connection.made.is_some());
        coverage.reach(Event::ChangeKeptMade, connection.change != 0);
        coverage.reach(Event::MadeBesideTurned, connection.turned.is_some());
        let marked = connection.turned.is_some_and(|cell| cell.ci);
        coverage.reach(Event::MadeBesideMarked, level == 1 && marked);
        connection.made = Some(level);
        connection.last_made = Some(time);
    }

    /// A call was refused: it may be at an edge of a made cell.
    pub(super) fn refused(&self, call: &Call, refusal: Refusal, coverage: &mut Coverage) {
        match (*call, refusal) {
            (Call::Make { at, time }, Refusal::MadeTooSoon) => {
                let last = self.connections.get(&at).and_then(|c| c.last_made);
                let end = last.map(|last| last + MAKE_INTERVAL);
                coverage.reach(Event::MadeLessOne, end == Some(time + 1));
            }
            (Call::Make { at, .. }, Refusal::NotOpen) => {
                coverage.reach(Event::MadeClosed, self.closed.contains(&at));
            }
            (
                Call::Open { time, .. } | Call::OpenPath { time, .. } | Call::Slot { time, .. },
                Refusal::TimeBackward,
            ) => {
                let others = self.last_sent.max(self.last_outside);
                coverage.reach(Event::MadeTimeCounts, time >= others);
            }
            _ => {}
        }
    }
}

/// A cell of this kind is sent on a connection, at this level.
pub(super) fn sent(connection: &Connection, kind: u32, level: u32, coverage: &mut Coverage) {
    let Some(made_at) = connection.made else {
        return;
    };
    let (data, turned) = (connection.data > 0, connection.turned.is_some());
    let since = connection.sends.is_some_and(|sends| sends.turned);
    let started = connection.sends.is_some();
    coverage.reach(Event::MadeStarts, !started && !data && !turned);
    coverage.reach(Event::MadeSecond, kind == 3 && !turned && since);
    coverage.reach(Event::TurnedBeforeMade, kind == 2 && turned);
    let sends_it = kind == 2 && !turned;
    coverage.reach(Event::MadeFirst, sends_it && data);
    coverage.reach(Event::MadeAlone, sends_it && since && !data);
    coverage.reach(Event::MadeLevelChanged, sends_it && level != made_at);
}

//! Turned cells: their marks, and those of a replaced one (document 01, "Turning
//! cells round"; document 02, L2).

use abr_reference::Address;

use super::{Connection, Observation};
use crate::coverage::{Coverage, Event};

const CI: u8 = 0x20;
const NI: u8 = 0x10;

/// A turned cell that waits.
#[derive(Debug, Clone, Copy)]
pub struct Turned {
    pub ci: bool,
    pub ni: bool,
    /// CI is 1 only because the cell that it replaced had it.
    carried: bool,
}

impl Observation {
    /// A forward cell came in on a connection, with these bits in octet 7.
    pub(super) fn forward_received(&mut self, at: Address, bits: u8, coverage: &mut Coverage) {
        let marked = |connection: &Connection| connection.turned.is_some_and(|cell| cell.ci);
        let mut others = self.connections.iter().filter(|(other, _)| **other != at);
        let elsewhere = others.any(|(_, connection)| marked(connection));
        let level = self.level;
        let Some(connection) = self.connections.get_mut(&at) else {
            return;
        };
        marks(connection, bits, level, coverage);
        let replaced = connection.turned;
        let cell = turn(connection, bits, level);
        let unmarked = !cell.ci;
        coverage.reach(Event::UnmarkedElsewhere, unmarked && elsewhere);
        coverage.reach(
            Event::UnmarkedAfterSent,
            unmarked && replaced.is_none() && connection.sent_ci,
        );
        coverage.reach(
            Event::UnmarkedBesideMade,
            unmarked && connection.made == Some(2),
        );
        let ni_lost = replaced.is_some_and(|old| old.ni) && !cell.ni;
        coverage.reach(Event::NiLost, ni_lost);
        coverage.reach(Event::CarriedNiLost, ni_lost && cell.carried);
        coverage.reach(Event::Carried, cell.carried);
        let again = cell.carried && replaced.is_some_and(|old| old.carried);
        coverage.reach(Event::CarriedTwice, again);
        coverage.reach(
            Event::CarriedBesideMade,
            cell.carried && connection.made.is_some(),
        );
        connection.turned = Some(cell);
        connection.efci = false;
    }
}

/// What marks the cell that is turned, and whether something waits beside it.
fn marks(connection: &Connection, bits: u8, level: u32, coverage: &mut Coverage) {
    let received = bits & (CI | NI) != 0;
    coverage.reach(Event::TurnedReplaced, connection.turned.is_some());
    coverage.reach(Event::TurnedBesideMade, connection.made.is_some());
    coverage.reach(Event::MarkEfci, connection.efci && level != 2);
    coverage.reach(Event::MarkLevelOne, level == 1);
    coverage.reach(Event::MarkLevelTwo, level == 2 && !connection.efci);
    coverage.reach(Event::MarkKept, received && level == 0 && !connection.efci);
}

/// The cell that waits afterwards.
fn turn(connection: &Connection, bits: u8, level: u32) -> Turned {
    let own = bits & CI != 0 || connection.efci || level == 2;
    let carried = !own && connection.turned.is_some_and(|old| old.ci);
    Turned {
        ci: own || carried,
        ni: bits & NI != 0 || level == 1,
        carried,
    }
}

//! Contracts without a minimum, and allowed rates of 0 (document 02, L5).

use abr::ffi::abr_sent;
use abr::RATE_ONE;

use super::Connection;
use crate::coverage::{Coverage, Event};

/// A slot at a time is given, and these are the connections before it: those with
/// a rate of 0 are passed over, whatever would make them ready.
pub(super) fn passed_over<'a>(
    connections: impl Iterator<Item = &'a Connection>,
    time: u64,
    coverage: &mut Coverage,
) {
    for connection in connections.filter(|connection| connection.acr == 0) {
        let waits = connection.waits();
        let Some(sends) = connection.sends else {
            coverage.reach(Event::ZeroBeforeFirst, waits);
            continue;
        };
        let by_count = sends.k == connection.nrm() - 1;
        let by_time = sends.k >= 2 && time >= sends.forward + connection.trm();
        coverage.reach(Event::ZeroWaits, waits);
        coverage.reach(Event::ZeroAtNrm, !waits && by_count);
        coverage.reach(Event::ZeroAtTrm, !waits && !by_count && by_time);
    }
}

/// A cell is sent on a connection that is as it was before, and so had a rate
/// above 0.
pub(super) fn sent(connection: &Connection, time: u64, sent: &abr_sent, coverage: &mut Coverage) {
    let passed = connection.sends.map(|sends| time - sends.forward);
    let idle = connection.icr == 0 && passed.is_some_and(|passed| passed > connection.adtf());
    let fell = sent.acr == 0;
    coverage.reach(Event::FirstToZero, fell && passed.is_none());
    coverage.reach(Event::IdleToZero, fell && idle);
    coverage.reach(Event::UnansweredToZero, fell && passed.is_some() && !idle);
    coverage.reach(Event::SentAfterZero, connection.stopped);
    coverage.reach(Event::SentBelowOne, connection.acr < RATE_ONE);
    let coded = connection.mcr == 0 && connection.params.mcr != 0;
    coverage.reach(Event::MinimumCoded, coded && sent.kind == 1);
}

/// A backward cell gave a connection, which is as it was before, this rate.
pub(super) fn received(
    connection: &Connection,
    bits: u8,
    er: u64,
    acr: u64,
    coverage: &mut Coverage,
) {
    let (ci, unmarked) = (bits & 0x20 != 0, bits & 0x30 == 0);
    let was_zero = connection.acr == 0;
    let fell = !was_zero && acr == 0;
    coverage.reach(Event::ErToZero, fell && er == 0);
    coverage.reach(Event::CutToZero, fell && ci && er > 0);
    coverage.reach(Event::RoseFromZero, was_zero && acr > 0);
    let stays = was_zero && acr == 0 && er > 0;
    coverage.reach(Event::MarkKeepsZero, stays && !unmarked);
    coverage.reach(Event::NoIncrease, stays && unmarked);
}

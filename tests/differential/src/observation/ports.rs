//! Shares of a capacity, and cells that passed a port (document 02, L10): the edges that
//! were reached.

use abr::{DEMANDS_MAX, RATE_MAX};
use abr_reference::{fair_share, rate_of, read, Cell, Refusal};

use crate::call::Call;
use crate::coverage::{Coverage, Event};
use crate::demands::Demands;
use crate::octets::Octets;

/// A call was accepted: it may have shared a capacity, or have had a cell pass.
pub(super) fn accepted(call: &Call, coverage: &mut Coverage) {
    match *call {
        Call::FairShare { capacity, demands } => shared(capacity, &demands, coverage),
        Call::Limit { rate, cell } => {
            coverage.reach(Event::LimitPastLargest, rate > RATE_MAX);
            passed(Some(rate), &cell, coverage);
        }
        Call::Port {
            capacity,
            demands,
            cell,
        } => {
            let share = fair_share(capacity, &demands.list()).unwrap_or_default();
            passed(share, &cell, coverage);
        }
        _ => {}
    }
}

/// A capacity was shared.
fn shared(capacity: u64, demands: &Demands, coverage: &mut Coverage) {
    let list = demands.list();
    let sum: u64 = list.iter().sum();
    let share = fair_share(capacity, &list).unwrap_or_default();
    coverage.reach(Event::ShareNone, list.is_empty());
    coverage.reach(Event::ShareMost, list.len() == DEMANDS_MAX);
    coverage.reach(Event::ShareLargest, list.contains(&RATE_MAX));
    coverage.reach(Event::ShareSum, !list.is_empty() && capacity == sum);
    coverage.reach(Event::ShareLessOne, sum > 0 && capacity == sum - 1);
    coverage.reach(Event::ShareZero, share == Some(0));
    let between = share.is_some_and(|share| list.iter().any(|demand| *demand <= share));
    coverage.reach(Event::ShareAboveSome, between && sum > capacity);
    let used = |share: u64| list.iter().map(|demand| share.min(*demand)).sum::<u64>();
    let rest = share.is_some_and(|share| used(share) < capacity);
    coverage.reach(Event::ShareRest, rest);
}

/// A cell passed under this limit.
fn passed(share: Option<u64>, cell: &Octets, coverage: &mut Coverage) {
    let octets = cell.as_slice();
    let Ok(Cell::Rm(rm)) = read(octets) else {
        return coverage.reach(Event::PassedData, share.is_some());
    };
    let (er, zero_coded) = (rate_of(rm.er), rate_of(rm.er) == 0 && rm.er != 0);
    if rm.dir == 0 {
        coverage.reach(Event::PassedForward, share.is_some_and(|share| share < er));
        return;
    }
    let Some(share) = share else {
        coverage.reach(Event::PassedNoLimit, true);
        return coverage.reach(Event::PassedNoLimitCoded, zero_coded);
    };
    coverage.reach(Event::PassedLowered, share < er);
    let code = abr_reference::code_of(share.min(RATE_MAX)).unwrap_or(0);
    coverage.reach(Event::PassedRounded, share < er && rate_of(code) < share);
    coverage.reach(Event::PassedEqual, share == er);
    coverage.reach(Event::PassedKept, share > er);
    coverage.reach(Event::PassedCoded, share > 0 && zero_coded);
    let clp = octets[3] & 1 != 0;
    let bits = [octets[0] >> 4, octets[6] & 7, octets[51] >> 2];
    let other = clp && bits.iter().all(|bits| *bits != 0);
    coverage.reach(Event::PassedOtherBits, share < er && other);
}

/// A call was refused: the demands may have been looked at before the cell, and their
/// number before each of them.
pub(super) fn refused(call: &Call, refusal: Refusal, coverage: &mut Coverage) {
    let (Call::FairShare { demands, .. } | Call::Port { demands, .. }) = *call else {
        return;
    };
    let above = demands.above.is_some();
    coverage.reach(
        Event::DemandsFirst,
        refusal == Refusal::TooManyDemands && above,
    );
    coverage.reach(
        Event::DemandsPastMost,
        refusal == Refusal::TooManyDemands && demands.count == DEMANDS_MAX + 1,
    );
    let by_one = demands.above.is_some_and(|(_, by)| by == 1);
    coverage.reach(
        Event::DemandPastLargest,
        refusal == Refusal::DemandTooLarge && by_one,
    );
    let last = demands
        .above
        .is_some_and(|(place, _)| place > 0 && place + 1 == demands.count);
    coverage.reach(
        Event::DemandLast,
        refusal == Refusal::DemandTooLarge && last,
    );
    if let Call::Port { cell, .. } = call {
        let wrong = read(cell.as_slice()).is_err();
        coverage.reach(
            Event::DemandsBeforeCell,
            refusal == Refusal::TooManyDemands && wrong,
        );
        coverage.reach(
            Event::DemandBeforeCell,
            refusal == Refusal::DemandTooLarge && wrong,
        );
    }
}

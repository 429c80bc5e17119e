//! TBE and FRTT (document 02, L14): CRM, the initial rate that is used, and their edges.

use abr::ffi::abr_params;
use abr::{FRTT_MAX, TBE_MAX, TIME_MAX};
use abr_reference::Refusal;

use crate::call::Call;
use crate::coverage::{Coverage, Event};

/// The rate at which TBE cells go in a round trip; nothing if that is 0.
fn limit(params: &abr_params) -> Option<u64> {
    let cells = 512_000_000 * u64::from(params.tbe);
    cells.checked_div(params.frtt.into())
}

/// The initial rate that is used.
pub(super) fn icr_used(params: &abr_params) -> u64 {
    let [icr, mcr] = [params.icr, params.mcr].map(abr_reference::rate_of);
    match limit(params) {
        Some(limit) if limit < icr => limit.max(mcr),
        _ => icr,
    }
}

/// A connection was opened with these parameters.
pub(super) fn opened(params: &abr_params, coverage: &mut Coverage) {
    let [icr, mcr] = [params.icr, params.mcr].map(abr_reference::rate_of);
    let (limit, used) = (limit(params), icr_used(params));
    let nrm = 1 << params.n;
    coverage.reach(Event::CrmWhole, params.tbe.is_multiple_of(nrm));
    coverage.reach(Event::CrmRounded, params.tbe % nrm == 1);
    coverage.reach(Event::TbeMost, params.tbe == TBE_MAX);
    coverage.reach(Event::FrttMost, params.frtt == FRTT_MAX);
    coverage.reach(Event::IcrWithoutTrip, limit.is_none());
    coverage.reach(Event::IcrLowered, mcr < used && used < icr);
    coverage.reach(Event::IcrToMinimum, used == mcr && mcr < icr && 0 < mcr);
    coverage.reach(Event::IcrKept, limit.is_some_and(|limit| limit > icr));
    coverage.reach(Event::IcrEqual, limit == Some(icr));
}

/// A call was refused: it may be an open with a TBE or an FRTT out of range.
pub(super) fn refused(call: &Call, refusal: Refusal, coverage: &mut Coverage) {
    let (Call::Open { params, time, .. } | Call::OpenPath { params, time, .. }) = call else {
        return;
    };
    let tbe = params.tbe == 0 || params.tbe > TBE_MAX;
    let frtt = params.frtt > FRTT_MAX;
    coverage.reach(Event::RangeBeforeTbe, refusal == Refusal::Range && tbe);
    coverage.reach(Event::TbeBeforeFrtt, refusal == Refusal::Tbe && frtt);
    coverage.reach(
        Event::FrttBeforeTime,
        refusal == Refusal::Frtt && *time > TIME_MAX,
    );
}

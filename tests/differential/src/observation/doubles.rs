//! Contracts exported and doubles imported (document 02, L8): the edges that were reached.

use abr::RATE_MAX;
use abr_reference::Address;

use super::Observation;
use crate::call::Call;
use crate::coverage::{Coverage, Event};

/// The sign of a double.
const SIGN: u64 = 1 << 63;

/// The bits of a double that has this many cells per second.
fn bits(cells: f64) -> u64 {
    cells.to_bits()
}

impl Observation {
    /// A contract was exported.
    pub(super) fn exported(&self, at: Address, coverage: &mut Coverage) {
        let Some(connection) = self.connections.get(&at) else {
            return;
        };
        coverage.reach(Event::ExportedMoved, connection.acr != connection.icr);
        coverage.reach(Event::ExportedNoMinimum, connection.mcr == 0);
        coverage.reach(Event::ExportedReopened, self.closed.contains(&at));
        let given = abr_reference::rate_of(connection.params.icr);
        coverage.reach(Event::ExportedGiven, connection.icr < given);
    }
}

/// A double was imported as this code.
pub(super) fn imported(given: u64, code: u32, coverage: &mut Coverage) {
    let step = 1 << 43; // from one code rate to the next
    coverage.reach(Event::ImportZero, given == 0);
    coverage.reach(Event::ImportMinusZero, given == SIGN);
    if given & !SIGN == 0 {
        return;
    }
    coverage.reach(Event::ImportOne, given == bits(1.0));
    coverage.reach(Event::ImportExact, given.is_multiple_of(step));
    coverage.reach(Event::ImportAbove, given % step == 1);
    coverage.reach(Event::ImportBelow, given % step == step - 1);
    let largest = bits(RATE_MAX as f64 / 512.0);
    coverage.reach(Event::ImportPastLargest, given > largest && code == 0x7FFF);
    coverage.reach(Event::ImportLast, given == bits(4_294_967_296.0) - 1);
}

/// A call was refused: it may be a double that is no rate.
pub(super) fn refused(call: &Call, coverage: &mut Coverage) {
    let Call::Import { bits: given } = *call else {
        return;
    };
    let (double, negative) = (f64::from_bits(given), given & SIGN != 0);
    let number = !double.is_nan();
    coverage.reach(Event::ImportNotANumber, !number && !negative);
    coverage.reach(Event::ImportMinusNotANumber, !number && negative);
    coverage.reach(Event::ImportInfinite, double.is_infinite() && !negative);
    coverage.reach(Event::ImportMinusInfinite, double.is_infinite() && negative);
    let rate = (1.0..4_294_967_296.0).contains(&-double);
    coverage.reach(Event::ImportNegative, rate);
    coverage.reach(Event::ImportSubnormal, double.is_subnormal());
    coverage.reach(Event::ImportLeast, given == 1);
    coverage.reach(Event::ImportBelowOne, given == bits(1.0) - 1);
    coverage.reach(Event::ImportTwoTo32, given == bits(4_294_967_296.0));
    coverage.reach(Event::ImportLarge, double > 4_294_967_296.0);
}

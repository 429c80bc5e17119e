//! The edges of the rules for a trace (document 02, L11), at each of which a judge that asks
//! for a little more or less has another verdict.

use crate::coverage::Event;
use crate::trace::Trace;

/// Those of rule 3 that a cell is on, so many cells and nanoseconds after the last forward one.
pub fn of_kind(n: u64, trm: u64, k: u64, since: u64) -> impl Iterator<Item = Event> {
    let all_but_one = (1 << n) - 1;
    let by_time = (2..all_but_one).contains(&k);
    let edges = [
        (Event::TraceTrmExact, by_time && since == trm),
        (Event::TraceTrmLessOne, by_time && since == trm - 1),
        (
            Event::TraceTrmTooFew,
            k < 2 && k < all_but_one && since >= trm,
        ),
        (Event::TraceNrm, k == all_but_one && since < trm),
        (Event::TraceNrmLessOne, k + 1 == all_but_one && since < trm),
    ];
    let met = edges.into_iter().filter(|(_, met)| *met);
    met.map(|(event, _)| event)
}

/// Trm in nanoseconds, by its number.
pub fn trm_time(number: u64) -> u64 {
    100_000_000 >> (7 - number)
}

/// Those of rules 2 and 3 that the cells of a trace are on.
pub fn of_trace(trace: &mut Trace) -> Vec<Event> {
    let (n, trm) = (trace.numbers[0], trm_time(trace.numbers[1]));
    let (mut k, mut time, mut forward) = (0, 0, 0);
    let mut events = Vec::new();
    for place in 0..trace.cells() {
        let [passed, kind, rate] = [0, 1, 2].map(|number| trace.cell(place)[number]);
        time += passed;
        if place > 0 {
            let exact = abr_reference::gap(rate) == Some(passed);
            events.extend(exact.then_some(Event::TraceGapExact));
            events.extend(of_kind(n, trm, k, time - forward));
        }
        (k, forward) = match kind {
            1 => (0, time),
            _ => (k + 1, forward),
        };
    }
    events
}

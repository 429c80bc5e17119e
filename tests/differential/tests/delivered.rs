//! What a line delivers, cell by cell, with the time passed to each slot that the library gives
//! for it (`abr_slot_time`), and what a policer behind the line sees. ABR_SEED gives other sets.

#[path = "delivered/circuit.rs"]
mod circuit;
#[path = "delivered/limits.rs"]
mod limits;
#[path = "delivered/line.rs"]
mod line;
#[path = "delivered/own_port.rs"]
mod own_port;
#[path = "delivered/sets.rs"]
mod sets;

use abr::CONNECTIONS_MAX;
use abr_differential::{lists, parallel};
use sets::Tally;

/// Runs so many sets.
fn run_sets(count: u64, with_lag: bool) -> Tally {
    let jobs = (0..count).map(|set| lists::seed() + set).collect();
    let total = parallel::total(jobs, |seed| sets::run(seed, with_lag));
    println!("{count} sets, lag {with_lag}: {total:?}");
    total
}

/// Nothing is dropped with the lag as tolerance; with half of it something is. Each slot's
/// bound, the exact gaps and the minimum of every busy circuit are checked at every slot.
#[test]
fn every_circuit_has_its_rate_and_nothing_is_dropped() {
    let tally = run_sets(1_500, true);
    let sums = tally.sums;
    assert_eq!(sums.dropped[..2], [0, 0]);
    assert!(sums.dropped[2..].iter().all(|dropped| *dropped > 10_000));
    assert!(sums.cells > 15_000_000 && sums.exact > 10_000_000);
    assert!(tally.slept > 1_000_000 && tally.opens > 1_000);
    assert!(tally.at_bound > 1_000 && tally.behind == 1_000);
}

/// Without a lag the times passed are the slots' own, and a policer needs no tolerance.
#[test]
fn without_a_lag_a_policer_needs_no_tolerance() {
    let Tally { sums, .. } = run_sets(500, false);
    assert_eq!(sums.dropped, [0; 4]);
    assert!(sums.cells > 5_000_000);
}

/// It is not enough that the rates of the moment fit the line: each rise may bring a cell
/// forward.
#[test]
fn rates_of_the_moment_that_fit_are_not_enough() {
    let (behind, most) = limits::rotating(4_000).unwrap_or_else(|why| panic!("{why}"));
    println!("a rate that goes round: {behind:?} slots behind, rates up to {most} thousandths");
    assert!(most <= 1_000);
    assert!(behind[0] > 8 && behind.is_sorted_by(|one, two| one + 800 < *two));
}

/// Each open gives a cell beyond the rate, so that one connection at a time is not enough.
#[test]
fn opens_count() {
    let (behind, opens) = limits::reopened(10_000).unwrap_or_else(|why| panic!("{why}"));
    println!("opened again and again: {behind} slots behind after {opens} opens");
    assert_eq!((behind, opens), (9_999, 10_000));
}

/// Shares that fit are not enough either where a rise is told before the fall that makes room
/// for it. Told after it, or at once, the line is three slots behind at most.
#[test]
fn falls_go_before_rises() {
    let exchanged = |rise, fall| {
        let behind = limits::exchanged(rise, fall, 100_000);
        behind.unwrap_or_else(|why| panic!("{why}"))
    };
    let (late, prompt, early) = (exchanged(0, 100), exchanged(0, 0), exchanged(100, 0));
    println!("fall after the rise: {late:?} slots behind; at once: {prompt:?}; before: {early:?}");
    assert!(late[0] > 500 && late.is_sorted_by(|one, two| one + 500 < *two));
    assert!(prompt.iter().chain(&early).all(|behind| *behind < 3));
}

/// Constant rates with data always waiting: what each gets with the slots' own times, with a lag
/// of one slot, and with a slot for each connection. If another call has the slot's own time,
/// what lags loses its lag: it is as without one.
#[test]
fn what_each_gets_of_its_rate() {
    let sixteen: Vec<u64> = (0..16).map(|i| 1_650 + 37 * i).collect();
    let sets: [&[u64]; 4] = [
        &[200, 300],
        &[400, 400, 400, 700],
        &[250, 330, 710, 900],
        &sixteen,
    ];
    let expected: [[&[u64]; 2]; 3] = [
        [&[668, 667], &[858, 858]],
        [&[751, 751, 751, 876], &[961, 961, 961, 981]],
        [&[596, 786, 846, 858], &[923, 869, 935, 948]],
    ];
    for (place, gaps) in sets.into_iter().enumerate() {
        if gaps.len() >= CONNECTIONS_MAX {
            continue; // one connection more is open
        }
        let shares = |lag, timed| {
            let shares = limits::shares(gaps, lag, timed, 200_000);
            shares.unwrap_or_else(|why| panic!("{why}"))
        };
        let each = gaps.len() as u64;
        let all = [0, 1, each].map(|lag| shares(lag, false));
        assert_eq!(shares(each, true), all[0]);
        println!("gaps {gaps:?} in hundredths of a slot, thousandths of the rates: {all:?}");
        assert!(all[2].iter().all(|share| *share == 1_000));
        match expected.get(place) {
            Some(expected) => assert_eq!(all[..2], *expected),
            None => assert_eq!([0, 1].map(|lag| ends(&all[lag])), [(718, 959), (796, 981)]),
        }
    }
}

/// The least and the most of some numbers.
fn ends(numbers: &[u64]) -> (u64, u64) {
    let (least, most) = (numbers.iter().min(), numbers.iter().max());
    (*least.expect("some"), *most.expect("some"))
}

/// Runs so many lines whose transmitter is their port, or is not.
fn run_own(count: u64, limited: bool) -> own_port::Tally {
    let jobs = (0..count).map(|line| lists::seed() + line).collect();
    let total = parallel::total(jobs, |seed| own_port::run(seed, limited));
    println!("{count} lines, limited {limited}: {total:?}");
    total
}

/// With the own line as a port each leased circuit has its minimum, and the policer that
/// tolerates the lag drops nothing; without it the minimum is lost.
#[test]
fn the_own_line_as_a_port() {
    let tally = run_own(200, true);
    assert_eq!((tally.short, &tally.sums.dropped[..2]), (0, &[0, 0][..]));
    assert!(tally.sums.cells > 5_000_000 && tally.sums.exact > 1_000_000);
    assert!(tally.falls > 100_000 && tally.rises > 100_000 && tally.held > 100_000);
    assert!(tally.least > Some(990));
    let without = run_own(20, false);
    assert!(without.short > without.slots / 10);
    assert!(without.least < Some(500));
}

//! Tests of the earliest ready instant (document 01, "Slots"; document 02, L5 and L13).

use crate::engine::{Engine, TIME_MAX};
use crate::engine_tests::{at, backward, engine_with, forward, kind, octets, params, MS};
use crate::{Address, Kind, Params, Refusal, Rm};

/// Trm of the house set.
const TRM: u64 = 100 * MS;

/// An engine whose connection has so many data cells and has sent its first cell at 0.
fn started(cells: u64) -> Engine {
    let mut engine = engine_with(&params());
    engine.offer(at(32), cells).unwrap();
    assert_eq!(kind(&mut engine, 0), Some(Kind::Forward));
    engine
}

/// Asserts when the next cell goes: a slot before is idle, and one then is not.
fn next_is(engine: &Engine, next: u64) {
    assert_eq!(engine.next_ready(), Some(next));
    if let Some(before) = next.checked_sub(1) {
        let early = engine.clone().slot(before, &mut [0; 53]);
        assert!(
            matches!(early, Ok(None) | Err(Refusal::TimeBackward)),
            "{early:?}"
        );
    }
    assert_ne!(kind(&mut engine.clone(), next), None);
}

/// Asserts that nothing goes, however late.
fn never(engine: &Engine) {
    assert_eq!(engine.next_ready(), None);
    assert_eq!(kind(&mut engine.clone(), TIME_MAX), None);
}

#[test]
fn nothing_open_or_nothing_waiting_is_never() {
    never(&Engine::new());
    let mut engine = engine_with(&params());
    never(&engine);
    engine.offer(at(32), 0).unwrap();
    never(&engine);
    engine.offer(at(32), 1).unwrap();
    next_is(&engine, 0);
    engine.close(at(32)).unwrap();
    never(&engine);
}

#[test]
fn before_the_first_cell_it_is_the_opening_also_long_after() {
    let mut engine = Engine::new();
    engine.open(at(32), 7, &params()).unwrap();
    engine.receive(&octets(&forward(32))).unwrap();
    next_is(&engine, 7);
    engine.open(at(33), 9 * MS, &params()).unwrap();
    assert_eq!(engine.next_ready(), Some(7)); // it has passed
}

#[test]
fn later_it_is_the_last_send_and_the_gap() {
    let mut engine = started(3);
    next_is(&engine, MS);
    assert_eq!(kind(&mut engine, 5 * MS), Some(Kind::Data)); // late: the gap counts from it
    next_is(&engine, 6 * MS);
}

#[test]
fn with_nothing_waiting_it_is_trm_from_two_cells_on() {
    let mut engine = started(1);
    assert_eq!(kind(&mut engine, MS), Some(Kind::Data));
    never(&engine); // k is 1
    engine.offer(at(32), 1).unwrap();
    assert_eq!(kind(&mut engine, 2 * MS), Some(Kind::Data));
    next_is(&engine, TRM);
    engine.receive(&octets(&forward(32))).unwrap();
    next_is(&engine, 3 * MS); // a turned cell waits
}

#[test]
fn the_gap_may_be_longer_than_trm() {
    let mut engine = started(2);
    assert_eq!(kind(&mut engine, MS), Some(Kind::Data));
    assert_eq!(kind(&mut engine, TRM - 1), Some(Kind::Data));
    next_is(&engine, TRM - 1 + MS);
}

#[test]
fn one_cell_short_of_nrm_it_is_the_gap_with_nothing_waiting() {
    let mut engine = engine_with(&Params { n: 1, ..params() });
    engine.offer(at(32), 1).unwrap();
    assert_eq!(kind(&mut engine, 0), Some(Kind::Forward));
    assert_eq!(kind(&mut engine, MS), Some(Kind::Data));
    next_is(&engine, 2 * MS);
}

#[test]
fn feedback_moves_it() {
    let mut engine = started(9);
    let explicit = |er| {
        octets(&Rm {
            ni: 0,
            er,
            ..backward(32)
        })
    };
    engine.receive(&explicit(0x4000)).unwrap(); // one cell per second
    next_is(&engine, 1_000 * MS);
    engine.receive(&explicit(0x7FFF)).unwrap();
    assert!(engine.next_ready().is_some_and(|next| next < MS));
}

#[test]
fn at_rate_0_it_is_never() {
    let mut engine = engine_with(&Params::house(0x53E8, 0, 0));
    engine.offer(at(32), 1).unwrap();
    never(&engine);
    engine.out_of_rate(at(32), 5, &mut [0; 53]).unwrap();
    never(&engine);
}

#[test]
fn of_several_it_is_the_earliest_whatever_the_names() {
    let mut engine = Engine::new();
    for (vpi, time) in [(9, 3), (0, 4), (255, 5)] {
        engine.open(Address::new(vpi, 32), time, &params()).unwrap();
        engine.offer(Address::new(vpi, 32), 1).unwrap();
    }
    assert_eq!(engine.next_ready(), Some(3));
    engine.close(Address::new(9, 32)).unwrap();
    assert_eq!(engine.next_ready(), Some(4));
    engine.close(Address::new(255, 32)).unwrap();
    assert_eq!(engine.next_ready(), Some(4));
}

#[test]
fn a_path_is_ready_by_its_members() {
    let mut engine = Engine::new();
    engine.open_path(3, 2, &params()).unwrap();
    engine.add_member(Address::new(3, 40)).unwrap();
    never(&engine);
    engine.offer_member(Address::new(3, 40), 1).unwrap();
    next_is(&engine, 2);
    engine.remove_member(Address::new(3, 40)).unwrap();
    never(&engine);
}

/// A cell at the latest time is followed by an instant at which no slot is accepted.
#[test]
fn it_may_be_after_the_latest_time() {
    let mut engine = started(2);
    assert_eq!(kind(&mut engine, TIME_MAX), Some(Kind::Data));
    assert_eq!(engine.next_ready(), Some(TIME_MAX + MS));
}

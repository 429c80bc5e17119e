//! Tests of the time that is passed to a slot (document 01, "Slots": due counts from it).

use crate::cell::LENGTH;
use crate::engine::{Engine, TIME_MAX};
use crate::engine_tests::{at, backward, draws, engine_with, kind, octets, params, MS};
use crate::{Address, Kind, Params, Refusal, Rm};

/// An engine whose connection has a cell to send from 0 on, a millisecond apart.
fn busy() -> Engine {
    let mut engine = engine_with(&params());
    engine.offer(at(32), 60_000).unwrap();
    assert_eq!(kind(&mut engine, 0), Some(Kind::Forward));
    engine
}

/// Asserts that a slot at the time given for `now` is accepted and idle exactly if one at
/// `now` is.
fn same_slot(engine: &Engine, now: u64, lag: u64) {
    let passed = engine.slot_time(now, lag);
    let slot = |time| {
        let sent = engine.clone().slot(time, &mut [0; LENGTH]);
        sent.map(|sent| sent.is_some())
    };
    assert!(slot(passed).is_ok());
    assert_eq!(slot(passed), slot(now));
}

#[test]
fn without_a_lag_it_is_now() {
    let engine = busy();
    for now in [0, 1, MS - 1, MS, MS + 1, 9 * MS, TIME_MAX, u64::MAX] {
        assert_eq!(engine.slot_time(now, 0), now);
    }
}

#[test]
fn with_nothing_to_send_it_is_now() {
    let mut engine = Engine::new();
    for now in [0, 5, TIME_MAX, TIME_MAX + 1, u64::MAX] {
        assert_eq!(engine.slot_time(now, u64::MAX), now);
    }
    engine.open(at(32), 7, &params()).unwrap();
    assert_eq!(engine.slot_time(9, u64::MAX), 9); // never ready
    let busy = busy();
    assert_eq!(busy.slot_time(MS - 1, u64::MAX), MS - 1); // ready a nanosecond later
}

#[test]
fn it_is_the_ready_instant_within_the_lag() {
    let engine = busy();
    assert_eq!(engine.slot_time(MS, u64::MAX), MS);
    assert_eq!(engine.slot_time(MS + 1, u64::MAX), MS);
    assert_eq!(engine.slot_time(MS + 70, 71), MS);
    assert_eq!(engine.slot_time(MS + 70, 70), MS);
    assert_eq!(engine.slot_time(MS + 70, 69), MS + 1);
    assert_eq!(engine.slot_time(TIME_MAX, TIME_MAX), MS);
}

/// An open, a slot, a made and an out-of-rate cell all move the last accepted time.
#[test]
fn it_is_not_before_the_last_accepted_time() {
    let mut engine = busy();
    engine.set_level(1).unwrap();
    let later = |call: &dyn Fn(&mut Engine)| {
        let mut engine = engine.clone();
        call(&mut engine);
        engine.slot_time(MS + 9, u64::MAX)
    };
    let open = |time| later(&|engine| assert!(engine.open(at(33), time, &params()).is_ok()));
    let open_path = |time| later(&|engine| assert!(engine.open_path(1, time, &params()).is_ok()));
    let make = |time| later(&|engine| assert!(engine.make(at(32), time).is_ok()));
    let out_of_rate =
        |time| later(&|engine| assert!(engine.out_of_rate(at(32), time, &mut [0; LENGTH]).is_ok()));
    assert_eq!((open(MS), open(MS + 2)), (MS, MS + 2));
    assert_eq!((open_path(MS), open_path(MS + 3)), (MS, MS + 3));
    assert_eq!((make(MS - 1), make(MS + 4)), (MS, MS + 4));
    assert_eq!((out_of_rate(0), out_of_rate(MS + 5)), (MS, MS + 5));
    // Two are ready at 0; what the first slot passes holds for the second.
    let mut engine = engine_with(&params());
    engine.open(at(33), 0, &params()).unwrap();
    for vci in [32, 33] {
        engine.offer(at(vci), 1).unwrap();
    }
    assert_eq!(engine.slot_time(5, 3), 2);
    assert_eq!(kind(&mut engine, 2), Some(Kind::Forward));
    assert_eq!(engine.slot_time(7, u64::MAX), 2);
}

/// A refused call moves nothing.
#[test]
fn a_refused_slot_leaves_it() {
    let mut engine = busy();
    assert_eq!(engine.slot(3 * MS, &mut [0; 52]), Err(Refusal::Length));
    assert_eq!(
        engine.slot(TIME_MAX + 1, &mut [0; LENGTH]),
        Err(Refusal::Time)
    );
    assert_eq!(engine.slot_time(5 * MS, u64::MAX), MS);
}

#[test]
fn a_wrong_clock_gives_now_which_the_slot_refuses() {
    let mut engine = busy();
    assert_eq!(kind(&mut engine, 5 * MS), Some(Kind::Data));
    for now in [0, 3, MS, 5 * MS - 1] {
        for lag in [0, 1, MS, u64::MAX] {
            assert_eq!(engine.slot_time(now, lag), now);
        }
        let refused = engine.clone().slot(now, &mut [0; LENGTH]);
        assert_eq!(refused, Err(Refusal::TimeBackward));
    }
    assert_eq!(engine.slot_time(5 * MS, u64::MAX), 5 * MS);
}

/// `now` less `lag` stops at 0, and neither has an end.
#[test]
fn the_ends_of_both_numbers() {
    let mut engine = engine_with(&params());
    engine.offer(at(32), 9).unwrap();
    for (now, lag) in [(5, 5), (5, 6), (5, u64::MAX), (0, 1), (0, u64::MAX)] {
        assert_eq!(engine.slot_time(now, lag), 0);
    }
    assert_eq!(engine.slot_time(5, 4), 1);
    assert_eq!(engine.slot_time(u64::MAX, u64::MAX), 0);
    assert_eq!(engine.slot_time(u64::MAX, 1), u64::MAX - 1); // refused with 8
    assert_eq!(kind(&mut engine, TIME_MAX), Some(Kind::Forward));
    assert_eq!(engine.slot_time(TIME_MAX, u64::MAX), TIME_MAX);
    assert_eq!(engine.slot_time(TIME_MAX + 2 * MS, u64::MAX), TIME_MAX + MS);
    assert_eq!(engine.next_ready(), Some(TIME_MAX + MS));
}

/// A path's ready instant counts like a channel's, and a rate of 0 has none.
#[test]
fn whose_ready_instant_it_is() {
    let mut engine = engine_with(&Params::house(0x53E8, 0, 0));
    engine.offer(at(32), 1).unwrap();
    assert_eq!(engine.slot_time(7, u64::MAX), 7);
    engine.open_path(3, 2, &params()).unwrap();
    engine.add_member(Address::new(3, 40)).unwrap();
    assert_eq!(engine.slot_time(7, u64::MAX), 7);
    engine.offer_member(Address::new(3, 40), 1).unwrap();
    assert_eq!(engine.slot_time(7, u64::MAX), 2);
    assert_eq!(engine.slot_time(7, 4), 3);
}

#[test]
fn a_slot_at_it_is_idle_exactly_if_one_at_now_is() {
    let mut draw = draws(11);
    let mut engine = Engine::new();
    for vci in 32..36 {
        engine.open(at(vci), 0, &params()).unwrap();
    }
    let mut now = 0;
    for _ in 0..4_000 {
        now += u64::from(draw(400_000));
        let vci = 32 + draw(4);
        let explicit = Rm {
            ni: 0,
            er: 0x5000 + draw(0x800),
            ..backward(vci)
        };
        match draw(3) {
            0 => assert!(engine.offer(at(vci), u64::from(draw(4))).is_ok()),
            1 => assert!(engine.receive(&octets(&explicit)).is_ok()),
            _ => {}
        }
        let lag = [0, u64::from(draw(1_000_000)), u64::MAX][draw(3) as usize];
        same_slot(&engine, now, lag);
        let passed = engine.slot_time(now, lag);
        assert!(now.saturating_sub(lag) <= passed && passed <= now);
        kind(&mut engine, passed);
    }
}

/// The cells of connections with data always waiting and these rates, in so many slots of a
/// millisecond.
fn cells(codes: &[u32], lag: u64, slots: u64) -> Vec<u64> {
    let mut engine = Engine::new();
    let mut cells = vec![0; codes.len()];
    for (vci, code) in (32..).zip(codes) {
        let fixed = Params {
            c: 7,
            ..Params::house(*code, *code, *code)
        };
        engine.open(at(vci), 0, &fixed).unwrap();
        engine.offer(at(vci), 60_000).unwrap();
    }
    for slot in 0..slots {
        let passed = engine.slot_time(slot * MS, lag);
        if let Some(sent) = engine.slot(passed, &mut [0; LENGTH]).unwrap() {
            cells[sent.vci as usize - 32] += 1;
        }
    }
    cells
}

/// 500 and 333 cells per second for a minute: a gap of 3.003 ms is 4 ms with the slots' own
/// times, so that the second loses a quarter; with a lag of two slots nothing is lost.
#[test]
fn what_a_lag_is_for() {
    let codes = [500 * 512, 333 * 512].map(|rate| crate::code_of(rate).unwrap());
    assert_eq!(codes.map(crate::rate_of), [256_000, 170_496]);
    assert_eq!(cells(&codes, 0, 60_000), [30_000, 15_000]);
    assert_eq!(cells(&codes, 2 * MS, 60_000), [30_000, 19_980]);
}

//! Tests of made cells through the calls of an engine (document 02, L1).

use crate::cell::LENGTH;
use crate::engine::{Engine, TIME_MAX};
use crate::engine_tests::{
    self, at, engine_with, forward, kind, octets, params, refused, slot_rm, MS, THOUSAND,
};
use crate::spacing::INTERVAL;
use crate::{Kind, Params, Refusal, Rm, Sent};

/// The cell that is made at a level, on VCI 32 with the largest peak.
fn made(level: u32) -> Rm {
    Rm {
        vci: 32,
        dir: 1,
        bn: 1,
        ci: u32::from(level == 2),
        ni: u32::from(level == 1),
        er: 0x7FFF,
        ..Rm::default()
    }
}

/// An engine with VCI 32 open, at a level.
fn engine_at(level: u32, params: &Params) -> Engine {
    let mut engine = engine_with(params);
    engine.set_level(level).unwrap();
    engine
}

/// An engine whose first cell is sent at time 0, with data left.
fn started(level: u32, data: u64) -> Engine {
    let mut engine = engine_at(level, &params());
    engine.offer(at(32), data + 1).unwrap();
    assert_eq!(kind(&mut engine, 0), Some(Kind::Forward));
    assert_eq!(kind(&mut engine, MS), Some(Kind::Data));
    engine
}

#[test]
fn the_order_of_refusals_when_making() {
    let mut engine = engine_at(1, &params());
    engine.open(at(33), 9, &params()).unwrap();
    engine.make(at(33), 9).unwrap();
    engine.set_level(0).unwrap();
    let late = TIME_MAX + 1;
    refused(&engine, Refusal::Time, |engine| engine.make(at(34), late));
    for vci in [0, 31, 34, 65_535, 65_536, 65_568, u32::MAX] {
        refused(&engine, Refusal::NotOpen, |engine| engine.make(at(vci), 8));
    }
    refused(&engine, Refusal::TimeBackward, |engine| {
        engine.make(at(33), 8)
    });
    refused(&engine, Refusal::NotCongested, |engine| {
        engine.make(at(33), 9)
    });
    engine.set_level(1).unwrap();
    refused(&engine, Refusal::MadeTooSoon, |engine| {
        engine.make(at(33), 9)
    });
    assert!(engine.make(at(32), 9).is_ok()); // another connection
}

#[test]
fn its_time_counts_for_opens_and_slots_and_a_refused_ones_does_not() {
    let mut engine = engine_at(2, &params());
    engine.make(at(32), 10).unwrap();
    refused(&engine, Refusal::MadeTooSoon, |engine| {
        engine.make(at(32), 20)
    });
    refused(&engine, Refusal::NotOpen, |engine| engine.make(at(33), 30));
    refused(&engine, Refusal::TimeBackward, |engine| {
        engine.slot(9, &mut [0; LENGTH])
    });
    refused(&engine, Refusal::TimeBackward, |engine| {
        engine.open(at(33), 9, &params())
    });
    assert!(engine.open(at(33), 10, &params()).is_ok());
    assert!(engine.make(at(33), TIME_MAX).is_ok());
    refused(&engine, Refusal::Time, |engine| {
        engine.make(at(33), TIME_MAX + 1)
    });
}

#[test]
fn a_made_cell_alone_makes_a_connection_ready_from_its_opening_on() {
    let mut engine = Engine::new();
    engine.set_level(2).unwrap();
    engine.open(at(33), 4, &params()).unwrap();
    engine.open(at(32), 5, &params()).unwrap();
    engine.offer(at(33), 1).unwrap();
    engine.make(at(32), 7).unwrap(); // ready at 5, not at 7
    let first = engine.slot(7, &mut [0; LENGTH]).unwrap().unwrap();
    assert_eq!((first.vci, first.kind), (33, Kind::Forward));
    let (sent, rm) = slot_rm(&mut engine, 7);
    assert_eq!((sent.vci, sent.kind), (32, Kind::Forward)); // the first cell is a forward one
    assert_eq!((rm.bn, rm.ccr), (0, THOUSAND));
    assert_eq!(engine.slot(MS + 6, &mut [0; LENGTH]), Ok(None));
    let (sent, rm) = slot_rm(&mut engine, MS + 7);
    let expected = Sent {
        leaf: 1,
        made: true,
        ..engine_tests::sent(Kind::Turned)
    };
    assert_eq!((sent, rm), (expected, made(2)));
}

#[test]
fn its_marks_are_those_of_the_level_at_its_making() {
    for (level, later) in [(1, 2), (1, 0), (2, 1), (2, 0)] {
        let mut engine = started(level, 0);
        engine.make(at(32), 2 * MS).unwrap();
        engine.set_level(later).unwrap();
        assert_eq!(slot_rm(&mut engine, 2 * MS).1, made(level));
    }
}

#[test]
fn its_er_is_the_code_of_pcr() {
    let mut engine = engine_at(1, &Params::house(THOUSAND, 0x4000, 0x4000));
    engine.make(at(32), 0).unwrap();
    assert_eq!(kind(&mut engine, 0), Some(Kind::Forward));
    let (_, rm) = slot_rm(&mut engine, 1_000 * MS);
    let er = THOUSAND;
    assert_eq!(rm, Rm { er, ..made(1) });
}

#[test]
fn the_turned_cell_goes_first_and_the_made_one_after_it() {
    let mut engine = started(2, 0);
    engine.make(at(32), MS).unwrap();
    engine.set_level(0).unwrap();
    engine.receive(&octets(&forward(32))).unwrap();
    let (sent, rm) = slot_rm(&mut engine, 2 * MS);
    assert_eq!((sent.kind, rm.bn, rm.ci), (Kind::Turned, 0, 0));
    let (sent, rm) = slot_rm(&mut engine, 3 * MS);
    assert_eq!((sent.kind, rm), (Kind::Turned, made(2)));
    assert_eq!(kind(&mut engine, 4 * MS), None);
}

#[test]
fn either_counts_as_the_one_turned_cell_before_data() {
    // A made cell was sent since the last forward cell: data before the turned one.
    let mut engine = started(1, 2);
    engine.make(at(32), MS).unwrap();
    assert_eq!(slot_rm(&mut engine, 2 * MS).1, made(1));
    engine.receive(&octets(&forward(32))).unwrap();
    assert_eq!(kind(&mut engine, 3 * MS), Some(Kind::Data));
    // A turned cell was sent since: data before the made one.
    let mut engine = started(1, 2);
    engine.receive(&octets(&forward(32))).unwrap();
    engine.make(at(32), MS).unwrap();
    assert_eq!(slot_rm(&mut engine, 2 * MS).1.bn, 0);
    for time in [3, 4] {
        assert_eq!(kind(&mut engine, time * MS), Some(Kind::Data));
    }
    assert_eq!(slot_rm(&mut engine, 5 * MS).1, made(1)); // no data waits
}

#[test]
fn a_forward_cell_that_is_due_goes_before_a_made_one() {
    let mut engine = engine_at(2, &Params { n: 2, ..params() });
    engine.offer(at(32), 3).unwrap();
    for time in 0..4 {
        assert!(kind(&mut engine, time * MS).is_some());
    }
    engine.make(at(32), 3 * MS).unwrap();
    assert_eq!(kind(&mut engine, 4 * MS), Some(Kind::Forward));
    assert_eq!(slot_rm(&mut engine, 5 * MS).1, made(2));
}

#[test]
fn a_waiting_made_cell_is_replaced_by_a_made_one_only() {
    let mut engine = engine_at(2, &params());
    engine.make(at(32), 0).unwrap();
    for sn in [1, 2] {
        let rm = Rm { sn, ..forward(32) };
        engine.receive(&octets(&rm)).unwrap();
    }
    engine.set_level(1).unwrap();
    engine.make(at(32), INTERVAL).unwrap();
    let start = INTERVAL;
    assert_eq!(kind(&mut engine, start), Some(Kind::Forward));
    assert_eq!(slot_rm(&mut engine, start + MS).1.sn, 2);
    assert_eq!(slot_rm(&mut engine, start + 2 * MS).1, made(1));
    assert_eq!(kind(&mut engine, start + 3 * MS), None);
}

#[test]
fn a_vci_opened_again_has_no_made_cell_and_no_last_making() {
    let mut engine = engine_at(1, &params());
    engine.make(at(32), 0).unwrap();
    engine.close(at(32)).unwrap();
    refused(&engine, Refusal::NotOpen, |engine| engine.make(at(32), 0));
    engine.open(at(32), 0, &params()).unwrap();
    assert_eq!(engine, engine_at(1, &params()));
    assert!(engine.make(at(32), 0).is_ok());
}

#[test]
fn each_connection_has_its_own_made_cell_and_interval() {
    let mut engine = engine_at(1, &params());
    engine.open(at(33), 0, &params()).unwrap();
    engine.make(at(32), 0).unwrap();
    engine.make(at(33), MS).unwrap();
    refused(&engine, Refusal::MadeTooSoon, |engine| {
        engine.make(at(33), INTERVAL)
    });
    assert!(engine.make(at(32), INTERVAL).is_ok());
    assert!(engine.make(at(33), INTERVAL + MS).is_ok());
}

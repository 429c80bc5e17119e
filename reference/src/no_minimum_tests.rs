//! Tests of contracts with a minimum of 0 through the calls of an engine (document
//! 02, L5): an allowed rate of 0 is never ready, whatever waits.

use crate::cell::LENGTH;
use crate::engine::{Engine, TIME_MAX};
use crate::engine_tests::{
    at, backward, engine_with, forward, kind, octets, receive, slot_rm, MS, RATE, THOUSAND,
};
use crate::{Kind, Params, Rm, COMPARISONS_MAX};

/// Peak 1,000 cells per second and no minimum; the initial rate is the peak.
fn params() -> Params {
    Params::house(THOUSAND, 0, THOUSAND)
}

/// A backward cell without marks and with an explicit rate.
fn explicit(er: u32) -> Rm {
    Rm {
        ni: 0,
        er,
        ..backward(32)
    }
}

/// Receives such a cell on VCI 32 and gives the allowed rate afterwards.
fn rate_after(engine: &mut Engine, er: u32) -> u64 {
    engine.receive(&octets(&explicit(er))).unwrap();
    engine.acr(at(32)).unwrap()
}

/// An engine whose connection has data waiting and an allowed rate of 0, before
/// its first cell.
fn stopped(params: &Params) -> Engine {
    let mut engine = engine_with(params);
    engine.offer(at(32), 9).unwrap();
    assert_eq!(rate_after(&mut engine, 0), 0);
    engine
}

/// Asserts that no slot goes to the connection, however late, and leaves the engine
/// as it was.
fn never_ready(engine: &Engine) {
    for time in [1_000_000 * MS, TIME_MAX] {
        assert_eq!(kind(&mut engine.clone(), time), None);
    }
    assert_eq!(engine.top(), None);
}

#[test]
fn the_code_of_a_minimum_of_0_is_0x0000_whatever_the_open_gave() {
    for mcr in [0x0000, 0x0001, 0x01FF, 0x3FFF] {
        let mut engine = engine_with(&Params::house(THOUSAND, mcr, THOUSAND));
        engine.offer(at(32), 1).unwrap();
        let (_, rm) = slot_rm(&mut engine, 0);
        assert_eq!((rm.er, rm.ccr, rm.mcr), (THOUSAND, THOUSAND, 0));
    }
}

#[test]
fn at_rate_0_nothing_is_ready_before_the_first_cell() {
    let mut engine = stopped(&params());
    never_ready(&engine);
    engine.receive(&octets(&forward(32))).unwrap();
    never_ready(&engine);
    engine.set_level(2).unwrap();
    engine.make(at(32), 0).unwrap();
    never_ready(&engine);
    assert_eq!(rate_after(&mut engine, 0x7FFF), RATE / 16);
    let (sent, rm) = slot_rm(&mut engine, 0); // ready from its opening on
    assert_eq!((sent.kind, sent.acr), (Kind::Forward, RATE / 16));
    assert_eq!(rm.mcr, 0);
}

#[test]
fn at_rate_0_nothing_is_ready_later() {
    let mut engine = engine_with(&params());
    engine.offer(at(32), 2).unwrap();
    assert_eq!(kind(&mut engine, 0), Some(Kind::Forward));
    assert_eq!(kind(&mut engine, MS), Some(Kind::Data));
    assert_eq!(rate_after(&mut engine, 0), 0);
    never_ready(&engine); // data waits
    assert_eq!(rate_after(&mut engine, THOUSAND), RATE / 16);
    // Due sixteen gaps of the full rate after the last send.
    assert_eq!(kind(&mut engine, 17 * MS - 1), None);
    assert_eq!(kind(&mut engine, 17 * MS), Some(Kind::Data));
}

#[test]
fn at_rate_0_no_forward_cell_is_due_at_nrm_less_1() {
    let mut engine = engine_with(&Params { n: 1, ..params() });
    engine.offer(at(32), 1).unwrap();
    assert_eq!(kind(&mut engine, 0), Some(Kind::Forward));
    assert_eq!(kind(&mut engine, MS), Some(Kind::Data));
    assert_eq!(kind(&mut engine.clone(), 2 * MS), Some(Kind::Forward)); // k is 1
    assert_eq!(rate_after(&mut engine, 0), 0);
    never_ready(&engine);
    assert_eq!(rate_after(&mut engine, THOUSAND), RATE / 16);
    assert_eq!(kind(&mut engine, 17 * MS - 1), None);
    assert_eq!(kind(&mut engine, 17 * MS), Some(Kind::Forward));
}

#[test]
fn at_rate_0_no_forward_cell_is_due_after_trm() {
    let mut engine = engine_with(&Params { trm: 0, ..params() });
    engine.offer(at(32), 2).unwrap();
    let kinds = [0, 1, 2].map(|time| kind(&mut engine, time * MS));
    assert_eq!(kinds, [Kind::Forward, Kind::Data, Kind::Data].map(Some));
    assert_eq!(kind(&mut engine.clone(), 3 * MS), Some(Kind::Forward)); // k is 2
    assert_eq!(rate_after(&mut engine, 0), 0);
    never_ready(&engine);
}

#[test]
fn an_initial_rate_of_0_needs_a_backward_cell_and_limits_the_first_cell() {
    let mut engine = engine_with(&Params::house(THOUSAND, 0, 0));
    assert_eq!(engine.acr(at(32)), Ok(0));
    engine.offer(at(32), 1).unwrap();
    never_ready(&engine);
    assert_eq!(rate_after(&mut engine, 0x7FFF), RATE / 16);
    let (sent, rm) = slot_rm(&mut engine, 5);
    assert_eq!((sent.kind, sent.acr, rm.ccr), (Kind::Forward, 0, 0)); // min(ACR, ICR)
    never_ready(&engine);
    assert_eq!(rate_after(&mut engine, 0x7FFF), RATE / 16);
    assert_eq!(kind(&mut engine, 5 + 16 * MS), Some(Kind::Data)); // not a first cell again
}

#[test]
fn an_idle_connection_falls_to_an_initial_rate_of_0() {
    let params = Params {
        n: 1,
        adtf: 1,
        ..Params::house(THOUSAND, 0, 0)
    };
    let mut engine = engine_with(&params);
    engine.offer(at(32), 1).unwrap();
    rate_after(&mut engine, 0x7FFF);
    assert_eq!(kind(&mut engine, 0), Some(Kind::Forward));
    rate_after(&mut engine, 0x7FFF);
    assert_eq!(kind(&mut engine, 16 * MS), Some(Kind::Data));
    let (sent, rm) = slot_rm(&mut engine, 32 * MS);
    assert_eq!((sent.kind, sent.acr, rm.ccr), (Kind::Forward, 0, 0));
    never_ready(&engine);
}

#[test]
fn unanswered_cells_bring_the_rate_to_0() {
    let params = Params {
        n: 1,
        c: 0,
        tbe: 2, // CRM 1
        ..params()
    };
    let mut engine = engine_with(&params);
    engine.offer(at(32), 9).unwrap();
    let kinds = [0, 1].map(|time| kind(&mut engine, time * MS));
    assert_eq!(kinds, [Kind::Forward, Kind::Data].map(Some));
    let (sent, rm) = slot_rm(&mut engine, 2 * MS);
    assert_eq!((sent.kind, sent.acr, rm.ccr), (Kind::Forward, 0, 0));
    never_ready(&engine);
}

#[test]
fn rates_below_one_cell_per_second() {
    let params = Params {
        r: 9,
        d: 1,
        ..Params::house(0x4000, 0, 0)
    };
    let mut engine = engine_with(&params);
    engine.offer(at(32), 9).unwrap();
    let rates = [1, 2, 3].map(|_| rate_after(&mut engine, 0x4000));
    assert_eq!(rates, [1, 2, 3]); // PCR / 2^r is one unit
    let (sent, rm) = slot_rm(&mut engine, 0);
    assert_eq!((sent.acr, rm.ccr), (0, 0)); // the first cell, ICR being 0
    assert_eq!(rate_after(&mut engine, 0x4000), 1);
    assert_eq!(kind(&mut engine, 512_000 * MS - 1), None);
    assert_eq!(kind(&mut engine, 512_000 * MS), Some(Kind::Data));
    let cut = Rm {
        ci: 1,
        ..explicit(0x4000)
    };
    engine.receive(&octets(&cut)).unwrap();
    assert_eq!(engine.acr(at(32)), Ok(0)); // half of one unit
    never_ready(&engine);
}

#[test]
fn the_code_of_a_rate_below_one_cell_per_second_is_0x0000() {
    let params = Params {
        r: 1,
        ..Params::house(0x4000, 0, 0x4000)
    };
    let mut engine = stopped(&params);
    assert_eq!(rate_after(&mut engine, 0x4000), 256);
    let (sent, rm) = slot_rm(&mut engine, 0);
    assert_eq!((sent.acr, rm.ccr), (256, 0));
}

#[test]
fn nothing_raises_the_rate_when_the_increase_is_0() {
    let params = Params {
        r: 10,
        ..Params::house(0x4000, 0, 0)
    };
    let mut engine = stopped(&params);
    assert_eq!(rate_after(&mut engine, 0x7FFF), 0); // PCR / 2^r is half a unit
    never_ready(&engine);
}

#[test]
fn only_a_cell_without_marks_raises_a_rate_of_0() {
    for (ci, ni) in [(0, 1), (1, 0), (1, 1)] {
        let mut engine = stopped(&params());
        let marked = Rm {
            ci,
            ni,
            ..explicit(0x7FFF)
        };
        engine.receive(&octets(&marked)).unwrap();
        assert_eq!(engine.acr(at(32)), Ok(0));
        never_ready(&engine);
    }
    for bn in [0, 1] {
        let mut engine = stopped(&params());
        let rm = Rm {
            bn,
            ..explicit(0x4000)
        };
        engine.receive(&octets(&rm)).unwrap();
        assert_eq!(engine.acr(at(32)), Ok(512)); // as far as the explicit rate
        assert_eq!(kind(&mut engine, 0), Some(Kind::Forward));
    }
}

#[test]
fn the_others_go_on() {
    let mut engine = stopped(&params());
    engine.open(at(33), 0, &params()).unwrap();
    engine.offer(at(33), 1).unwrap();
    let sent = engine.slot(0, &mut [0; LENGTH]).unwrap().unwrap();
    assert_eq!((sent.vci, sent.kind), (33, Kind::Forward));
    assert_eq!(kind(&mut engine, 0), None);
}

#[test]
fn a_leaf_at_rate_0_wins_no_match() {
    let mut engine = engine_with(&params());
    engine.open(at(33), 0, &params()).unwrap();
    assert_eq!(engine.offer(at(32), 1), Ok(COMPARISONS_MAX));
    assert_eq!(engine.offer(at(33), 1), Ok(1));
    let stop = octets(&explicit(0));
    assert_eq!(receive(&mut engine, &stop), Ok(COMPARISONS_MAX)); // leaf 1 wins at every level
    assert_eq!(receive(&mut engine, &stop), Ok(1));
    assert_eq!(engine.offer(at(32), 1), Ok(1));
    let closed = engine.close(at(33)).unwrap();
    assert_eq!(closed.comparisons, COMPARISONS_MAX); // nobody is left
    assert_eq!(receive(&mut engine, &stop), Ok(1));
    assert_eq!(
        receive(&mut engine, &octets(&explicit(0x7FFF))),
        Ok(COMPARISONS_MAX)
    );
    assert_eq!(engine.top(), Some((0, 32)));
}

#[test]
fn a_contract_with_a_minimum_never_falls_below_it() {
    let mut engine = engine_with(&Params::house(THOUSAND, 0x4000, THOUSAND));
    engine.offer(at(32), 1).unwrap();
    assert_eq!(rate_after(&mut engine, 0), 512);
    assert_eq!(kind(&mut engine, 0), Some(Kind::Forward));
}

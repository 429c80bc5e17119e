//! Tests of what the last feedback did, read with the allowed rate (document 02, L9).

use crate::cell::LENGTH;
use crate::engine::Engine;
use crate::engine_tests::{
    at, backward, data, engine_with, forward, octets, params, refused, with_crc, MS, RATE, THOUSAND,
};
use crate::{Address, Allowed, Params, Refusal, Rm};

/// The change that is read of the connection.
fn change(engine: &Engine) -> i64 {
    engine.allowed(at(32)).unwrap().change
}

/// The change after a backward cell with these fields.
fn after(engine: &mut Engine, rm: Rm) -> i64 {
    engine.receive(&octets(&rm)).unwrap();
    change(engine)
}

/// A backward cell with CI, one that raises the rate, and one with an explicit rate.
fn falling() -> Rm {
    Rm {
        ci: 1,
        ..backward(32)
    }
}

fn rising() -> Rm {
    Rm {
        ni: 0,
        ..backward(32)
    }
}

fn explicit(er: u32) -> Rm {
    Rm { er, ..rising() }
}

/// A connection that was cut from 1,000 cells per second by a sixteenth.
fn fallen(params: &Params) -> Engine {
    let mut engine = engine_with(params);
    assert_eq!(after(&mut engine, falling()), -32_000);
    engine
}

#[test]
fn nothing_before_the_first_backward_cell() {
    let mut engine = engine_with(&params());
    let allowed = Allowed {
        acr: RATE,
        change: 0,
    };
    assert_eq!(engine.allowed(at(32)), Ok(allowed));
    engine.receive(&data(32, true)).unwrap();
    engine.receive(&octets(&forward(32))).unwrap();
    assert_eq!(engine.allowed(at(32)), Ok(allowed));
}

#[test]
fn new_less_old() {
    let mut engine = engine_with(&Params::house(THOUSAND, 0x4000, THOUSAND));
    assert_eq!(after(&mut engine, falling()), -32_000); // 512,000 to 480,000
    assert_eq!(after(&mut engine, falling()), -30_000);
    assert_eq!(after(&mut engine, rising()), 32_000); // a sixteenth of the peak
    assert_eq!(after(&mut engine, rising()), 30_000); // up to the peak
    assert_eq!(engine.acr(at(32)), Ok(RATE));
    assert_eq!(after(&mut engine, explicit(0x5120)), 204_800 - 512_000);
}

#[test]
fn a_cell_that_changes_nothing_counts() {
    let mut engine = fallen(&params());
    assert_eq!(after(&mut engine, backward(32)), 0);
    let mut engine = fallen(&Params::house(THOUSAND, 0x4000, THOUSAND));
    assert_eq!(after(&mut engine, rising()), 32_000);
    assert_eq!(after(&mut engine, rising()), 0); // at the peak
}

#[test]
fn a_cell_with_bn_1_counts() {
    let mut engine = engine_with(&params());
    let bn = Rm { bn: 1, ..falling() };
    assert_eq!(after(&mut engine, bn), -32_000);
    assert_eq!(
        after(
            &mut engine,
            Rm {
                bn: 1,
                ..backward(32)
            }
        ),
        0
    );
}

/// From the peak to the minimum and back, with an RIF of 1.
#[test]
fn both_bounds_are_reached() {
    let largest = 2_196_875_771_904_i64;
    for (mcr, minimum) in [(0x4000, 512), (0x0000, 0)] {
        let params = Params {
            r: 0,
            ..Params::house(0x7FFF, mcr, 0x7FFF)
        };
        let mut engine = engine_with(&params);
        assert_eq!(after(&mut engine, explicit(0)), minimum - largest);
        assert_eq!(after(&mut engine, rising()), largest - minimum);
    }
}

#[test]
fn moves_before_a_forward_cell_do_not_touch_it() {
    let params = Params {
        n: 1,
        tbe: 1, // CRM 1
        ..Params::house(0x7FFF, 0x4000, THOUSAND)
    };
    let mut engine = engine_with(&params);
    engine.offer(at(32), 100).unwrap();
    let raised = after(&mut engine, rising());
    let mut acrs = Vec::new();
    for time in [0, MS, 700 * MS, 702 * MS, 704 * MS] {
        engine.slot(time, &mut [0; LENGTH]).unwrap().unwrap();
        acrs.push(engine.acr(at(32)).unwrap());
        assert_eq!(change(&engine), raised);
        if time == MS {
            let again = after(&mut engine, Rm { bn: 1, ..rising() });
            assert_eq!(again, raised);
        }
    }
    // First cell, data, idle and unanswered, data, unanswered.
    assert_eq!(acrs, [RATE, RATE, 480_000, 480_000, 450_000]);
}

#[test]
fn no_other_call_touches_it() {
    let mut engine = fallen(&params());
    engine.open(at(33), 0, &params()).unwrap();
    engine.set_level(2).unwrap();
    engine.make(at(32), 0).unwrap();
    engine.out_of_rate(at(32), 0, &mut [0; LENGTH]).unwrap();
    engine.offer(at(32), 5).unwrap();
    engine.receive(&data(32, true)).unwrap();
    engine.receive(&octets(&forward(32))).unwrap();
    for vci in [33, 33] {
        engine.receive(&octets(&Rm { vci, ..rising() })).unwrap();
    }
    engine.close(at(33)).unwrap();
    assert_eq!(change(&engine), -32_000);
}

#[test]
fn a_refused_cell_does_not_touch_it() {
    let engine = fallen(&params());
    let mut cell = octets(&rising());
    cell[20] ^= 1;
    refused(&engine, Refusal::Crc, |engine| engine.receive(&cell));
    cell[9] |= 0x80;
    refused(&engine, Refusal::ReservedBit, |engine| {
        engine.receive(&with_crc(cell))
    });
}

#[test]
fn a_new_open_starts_at_0() {
    let mut engine = fallen(&params());
    engine.close(at(32)).unwrap();
    refused(&engine, Refusal::NotOpen, |engine| engine.allowed(at(32)));
    engine.open(at(32), 0, &params()).unwrap();
    assert_eq!(change(&engine), 0);
}

#[test]
fn a_pair_that_is_not_open_is_refused_with_11() {
    let engine = fallen(&params());
    for (vpi, vci) in [(0, 33), (1, 32), (256, 32), (0, 65_568)] {
        let at = Address::new(vpi, vci);
        refused(&engine, Refusal::NotOpen, |engine| engine.allowed(at));
    }
}

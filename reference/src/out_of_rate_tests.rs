//! Tests of out-of-rate cells through the calls of an engine (document 02, L5).

use crate::cell::{header_check, Octets, LENGTH};
use crate::engine::{Engine, TIME_MAX};
use crate::engine_tests::{
    at, backward, engine_with, forward, kind, octets, params, refused, MS, RATE, THOUSAND,
};
use crate::spacing::INTERVAL;
use crate::{code_of, read, Cell, Kind, Params, Refusal, Rm, Sent};

/// What fills a buffer before a call.
const FILL: u8 = 0xA5;

/// The cell of an accepted call.
fn cell(engine: &mut Engine, vci: u32, time: u64) -> Octets {
    let mut buffer = [FILL; LENGTH];
    engine.out_of_rate(at(vci), time, &mut buffer).unwrap();
    buffer
}

/// Asserts that a call is refused for a reason and changes neither the engine nor
/// the buffer.
fn refuses(engine: &Engine, refusal: Refusal, vci: u32, time: u64, length: usize) {
    let mut buffer = vec![FILL; length];
    refused(engine, refusal, |engine| {
        engine.out_of_rate(at(vci), time, &mut buffer)
    });
    assert_eq!(buffer, vec![FILL; length]);
}

#[test]
fn the_cell_is_a_forward_one_with_clp_1() {
    let mut engine = engine_with(&Params::house(0x5A00, 0x4000, THOUSAND));
    let written = cell(&mut engine, 32, 0);
    assert_eq!(written[..4], [0x00, 0x00, 0x02, 0x0D]); // payload type 6, CLP 1
    assert_eq!(written[4], header_check(&[0x00, 0x00, 0x02, 0x0D]));
    let rm = Rm {
        vci: 32,
        er: 0x5A00,
        ccr: THOUSAND,
        mcr: 0x4000,
        ..Rm::default()
    };
    assert_eq!(written[5..], octets(&rm)[5..]);
    assert_eq!(read(&written), Ok(Cell::Rm(rm)));
}

#[test]
fn it_differs_from_a_slots_forward_cell_in_clp_and_header_check_only() {
    let mut engine = engine_with(&params());
    engine.offer(at(32), 1).unwrap();
    let outside = cell(&mut engine, 32, 0);
    let mut inside = [0; LENGTH];
    engine.slot(0, &mut inside).unwrap();
    assert_eq!(outside[..3], inside[..3]);
    assert_eq!(outside[3], inside[3] | 1);
    assert_eq!(outside[4], inside[4] ^ 0x07); // x^8 has the remainder x^2+x+1
    assert_eq!(outside[5..], inside[5..]);
}

#[test]
fn ccr_is_the_code_of_any_rate_as_it_stands() {
    let params = Params {
        r: 0,
        ..Params::house(THOUSAND, 0x01FF, 0)
    };
    let mut engine = engine_with(&params);
    for (place, er) in [0x0000, 0x4000, 0x4001, THOUSAND].into_iter().enumerate() {
        let rm = Rm {
            ni: 0,
            er,
            ..backward(32)
        };
        engine.receive(&octets(&rm)).unwrap();
        let acr = engine.acr(at(32)).unwrap();
        let written = cell(&mut engine, 32, place as u64 * INTERVAL);
        let expected = Rm {
            vci: 32,
            er: THOUSAND,
            ccr: code_of(acr).unwrap(),
            ..Rm::default()
        };
        assert_eq!((read(&written), expected.ccr), (Ok(Cell::Rm(expected)), er));
    }
}

#[test]
fn ccr_below_one_cell_per_second_is_0x0000() {
    for (r, acr) in [(9, 1), (1, 256)] {
        let mut engine = engine_with(&Params {
            r,
            ..Params::house(0x4000, 0, 0)
        });
        let rise = Rm {
            ni: 0,
            ..backward(32)
        };
        engine.receive(&octets(&rise)).unwrap();
        assert_eq!(engine.acr(at(32)), Ok(acr));
        assert_eq!(cell(&mut engine, 32, 0)[9..11], [0, 0]);
    }
}

#[test]
fn a_minimum_of_0_is_carried_as_0x0000() {
    for mcr in [0x0000, 0x0001, 0x01FF, 0x3FFF] {
        let mut engine = engine_with(&Params::house(THOUSAND, mcr, 0));
        assert_eq!(cell(&mut engine, 32, 0)[7..13], [0x53, 0xE8, 0, 0, 0, 0]);
    }
}

#[test]
fn the_order_of_refusals() {
    let mut engine = engine_with(&params());
    engine.open(at(33), 9, &params()).unwrap();
    cell(&mut engine, 33, 9);
    let late = TIME_MAX + 1;
    for length in [0, 52, 54] {
        refuses(&engine, Refusal::Length, 34, late, length); // before 8 and 11
        refuses(&engine, Refusal::Length, 33, 8, length); // before 14
        refuses(&engine, Refusal::Length, 33, 9, length); // before 18
    }
    refuses(&engine, Refusal::Time, 34, late, LENGTH); // before 11
    refuses(&engine, Refusal::Time, 33, late, LENGTH);
    for vci in [0, 31, 34, 65_535, 65_536, 65_568, u32::MAX] {
        refuses(&engine, Refusal::NotOpen, vci, 8, LENGTH); // before 14
        refuses(&engine, Refusal::NotOpen, vci, 9, LENGTH);
    }
    refuses(&engine, Refusal::TimeBackward, 33, 8, LENGTH); // before 18
    refuses(&engine, Refusal::TimeBackward, 32, 8, LENGTH);
    refuses(&engine, Refusal::OutOfRateTooSoon, 33, 9, LENGTH);
    cell(&mut engine, 32, 9); // another connection
}

#[test]
fn exactly_100_ms_later_the_next_is_accepted() {
    let mut engine = engine_with(&params());
    cell(&mut engine, 32, 7);
    refuses(&engine, Refusal::OutOfRateTooSoon, 32, 7, LENGTH);
    refuses(
        &engine,
        Refusal::OutOfRateTooSoon,
        32,
        7 + INTERVAL - 1,
        LENGTH,
    );
    cell(&mut engine, 32, 7 + INTERVAL);
    refuses(
        &engine,
        Refusal::OutOfRateTooSoon,
        32,
        6 + 2 * INTERVAL,
        LENGTH,
    );
    cell(&mut engine, 32, TIME_MAX);
    refuses(&engine, Refusal::OutOfRateTooSoon, 32, TIME_MAX, LENGTH);
    refuses(&engine, Refusal::Time, 32, TIME_MAX + 1, LENGTH);
}

#[test]
fn a_new_open_starts_without_one() {
    let mut engine = engine_with(&params());
    cell(&mut engine, 32, 0);
    engine.close(at(32)).unwrap();
    refuses(&engine, Refusal::NotOpen, 32, 0, LENGTH);
    engine.open(at(32), 0, &params()).unwrap();
    assert_eq!(engine, engine_with(&params()));
    cell(&mut engine, 32, 0);
}

#[test]
fn each_connection_has_its_own_interval_and_made_cells_another() {
    let mut engine = engine_with(&params());
    engine.open(at(33), 0, &params()).unwrap();
    engine.set_level(1).unwrap();
    cell(&mut engine, 32, 0);
    engine.make(at(32), 0).unwrap();
    cell(&mut engine, 33, MS);
    engine.make(at(33), 2 * MS).unwrap();
    refuses(&engine, Refusal::OutOfRateTooSoon, 33, INTERVAL, LENGTH);
    cell(&mut engine, 32, INTERVAL);
    engine.make(at(32), INTERVAL).unwrap();
    cell(&mut engine, 33, INTERVAL + MS);
    refused(&engine, Refusal::MadeTooSoon, |engine| {
        engine.make(at(33), INTERVAL + MS)
    });
}

#[test]
fn its_time_counts_for_14_and_a_refused_ones_does_not() {
    let mut engine = engine_with(&params());
    engine.open(at(33), 0, &params()).unwrap();
    engine.set_level(2).unwrap();
    cell(&mut engine, 32, 10);
    refuses(&engine, Refusal::OutOfRateTooSoon, 32, 20, LENGTH);
    refuses(&engine, Refusal::NotOpen, 34, 20, LENGTH);
    refuses(&engine, Refusal::Length, 33, 20, 0);
    refused(&engine, Refusal::TimeBackward, |engine| {
        engine.slot(9, &mut [0; LENGTH])
    });
    refused(&engine, Refusal::TimeBackward, |engine| {
        engine.open(at(34), 9, &params())
    });
    refused(&engine, Refusal::TimeBackward, |engine| {
        engine.make(at(33), 9)
    });
    refuses(&engine, Refusal::TimeBackward, 33, 9, LENGTH);
    assert_eq!(kind(&mut engine, 10), None);
    assert!(engine.make(at(33), 10).is_ok());
    assert!(engine.open(at(34), 10, &params()).is_ok());
    cell(&mut engine, 33, 10);
}

#[test]
fn times_of_opens_slots_and_makings_count_for_it() {
    let mut engine = engine_with(&params());
    engine.open(at(33), 5, &params()).unwrap();
    refuses(&engine, Refusal::TimeBackward, 32, 4, LENGTH);
    assert_eq!(kind(&mut engine, 6), None);
    refuses(&engine, Refusal::TimeBackward, 32, 5, LENGTH);
    engine.set_level(1).unwrap();
    engine.make(at(33), 7).unwrap();
    refuses(&engine, Refusal::TimeBackward, 32, 6, LENGTH);
    cell(&mut engine, 32, 7);
}

/// The slots of a list with data, a turned cell, feedback and pauses; with cells
/// outside the rate wherever they are allowed, or without.
fn slots(outside: bool) -> (Vec<Option<Sent>>, Vec<Octets>) {
    let small = Params {
        n: 2,
        c: 1,
        tbe: 8, // CRM 2
        adtf: 1,
        trm: 0,
        ..params()
    };
    let mut engine = engine_with(&small);
    let (mut sent, mut written) = (Vec::new(), Vec::new());
    for round in 0..400 {
        let time = round * MS * 7 / 8;
        if round % 5 == 0 {
            engine.offer(at(32), 3).unwrap();
        }
        let arriving = match round % 31 {
            3 => Some(forward(32)),
            7 => Some(Rm {
                ni: 0,
                ..backward(32)
            }),
            _ => None,
        };
        if let Some(rm) = arriving {
            engine.receive(&octets(&rm)).unwrap();
        }
        if outside {
            let answer = engine.out_of_rate(at(32), time, &mut [0; LENGTH]);
            assert!(matches!(answer, Ok(()) | Err(Refusal::OutOfRateTooSoon)));
        }
        let mut buffer = [FILL; LENGTH];
        sent.push(engine.slot(time, &mut buffer).unwrap());
        written.push(buffer);
    }
    (sent, written)
}

#[test]
fn it_changes_nothing_that_a_slot_shows() {
    let (sent, written) = slots(false);
    assert_eq!(slots(true), (sent.clone(), written));
    for kind in [Kind::Forward, Kind::Turned, Kind::Data] {
        assert!(sent.iter().flatten().any(|sent| sent.kind == kind));
    }
}

#[test]
fn it_is_no_first_cell_and_moves_no_rate() {
    let mut engine = engine_with(&params());
    let rise = Rm {
        ni: 0,
        ..backward(32)
    };
    engine.receive(&octets(&rise)).unwrap();
    let risen = engine.acr(at(32)).unwrap();
    assert!(risen > RATE);
    let written = cell(&mut engine, 32, 0);
    assert_eq!(
        written[9..11],
        (code_of(risen).unwrap() as u16).to_be_bytes()
    );
    assert_eq!(engine.acr(at(32)), Ok(risen));
    assert_eq!(engine.top(), None); // nothing waits
    engine.offer(at(32), 1).unwrap();
    let sent = engine.slot(0, &mut [0; LENGTH]).unwrap().unwrap();
    assert_eq!((sent.kind, sent.acr), (Kind::Forward, RATE)); // the first cell
}

#[test]
fn it_is_not_counted_as_unanswered_and_answers_nothing() {
    let params = Params {
        n: 1,
        c: 1,
        tbe: 4, // CRM 2
        ..params()
    };
    let mut engine = engine_with(&params);
    engine.offer(at(32), 9).unwrap();
    let mut rates = Vec::new();
    for slot in 0..6 {
        let time = slot * INTERVAL;
        cell(&mut engine, 32, time);
        rates.push(engine.slot(time, &mut [0; LENGTH]).unwrap().unwrap().acr);
    }
    // Forward cells in slots 0, 2 and 4; before the third two are unanswered.
    assert_eq!(rates, [RATE, RATE, RATE, RATE, RATE / 2, RATE / 2]);
}

//! Tests of TBE and FRTT: CRM and the initial rate that is used (document 02, L14).

use crate::engine::{Engine, TIME_MAX};
use crate::engine_tests::{at, backward, engine_with, kind, octets, refused, slot_rm, MS, RATE};
use crate::params::Contract;
use crate::{Address, Kind, Params, Refusal, Rm};

/// Peak and initial rate 1,000 cells per second, minimum one, with this setup.
fn params(tbe: u32, frtt: u32) -> Params {
    Params {
        tbe,
        frtt,
        ..Params::house(0x53E8, 0x4000, 0x53E8)
    }
}

/// The initial rate that is used.
fn used(tbe: u32, frtt: u32) -> u64 {
    params(tbe, frtt).contract().unwrap().icr_used
}

#[test]
fn crm_is_tbe_over_nrm_rounded_up() {
    let crm = |n, tbe| {
        let contract = Params {
            n,
            ..params(tbe, 0)
        };
        contract.contract().unwrap().crm
    };
    assert_eq!(
        [1, 31, 32, 33, 64, 65].map(|tbe| crm(5, tbe)),
        [1, 1, 1, 2, 2, 3]
    );
    assert_eq!([1, 2, 3].map(|tbe| crm(1, tbe)), [1, 1, 2]);
    assert_eq!([256, 257].map(|tbe| crm(8, tbe)), [1, 2]);
    assert_eq!(crm(1, 16_777_215), 8_388_608);
    assert_eq!(crm(5, 16_777_215), 524_288);
}

#[test]
fn without_a_round_trip_nothing_is_lowered() {
    assert_eq!(used(1, 0), RATE);
    let open = params(1, 0).contract().unwrap();
    let Contract { icr, icr_used, .. } = open;
    assert_eq!(icr, icr_used);
}

/// 512,000,000 x 1 / 1,000 is the given rate.
#[test]
fn lowered_to_the_cells_of_a_round_trip() {
    assert_eq!(used(1, 999), RATE);
    assert_eq!(used(1, 1_000), RATE);
    assert_eq!(used(1, 1_001), 511_488); // 511,488.5..
    assert_eq!(used(1, 3_000), 170_666); // 170,666.6..
    assert_eq!(used(7, 1_000_000), 3_584);
    assert_eq!(used(16_777_215, 16_700_000), RATE);
}

#[test]
fn never_under_the_minimum() {
    assert_eq!(used(1, 1_000_000), 512); // exactly the minimum
    assert_eq!(used(1, 1_000_001), 512); // 511.9..
    assert_eq!(used(1, 16_700_000), 512);
    let no_minimum = Params {
        mcr: 0,
        ..params(1, 16_700_000)
    };
    assert_eq!(no_minimum.contract().unwrap().icr_used, 30);
}

#[test]
fn longer_round_trips_never_raise_it_and_more_cells_never_lower_it() {
    let trips = [0, 1, 2, 999, 1_000, 1_001, 5_000, 1_000_000, 16_700_000];
    let cells = [1, 2, 3, 1_000, 16_777_215];
    for tbe in cells {
        let rates = trips.map(|frtt| used(tbe, frtt));
        assert!(rates.is_sorted_by(|a, b| a >= b), "{rates:?}");
    }
    for frtt in trips {
        assert!(cells.map(|tbe| used(tbe, frtt)).is_sorted());
    }
}

#[test]
fn a_connection_starts_at_the_rate_that_is_used() {
    let mut engine = engine_with(&params(1, 2_000));
    assert_eq!(engine.acr(at(32)), Ok(256_000));
    assert_eq!(engine.export(at(32)).unwrap().icr, 1_000.0); // as given
    engine.offer(at(32), 1).unwrap();
    let (sent, rm) = slot_rm(&mut engine, 0);
    assert_eq!((sent.acr, rm.ccr), (256_000, 0x51E8));
}

/// Raised before its first cell, and again before a cell after more than ADTF.
#[test]
fn first_cell_and_idle_bring_it_down_to_the_rate_that_is_used() {
    let mut engine = engine_with(&params(64, 64_000_000 / 500)); // 500 cells per second
    let rising = octets(&Rm {
        ni: 0,
        ..backward(32)
    });
    engine.offer(at(32), 9).unwrap();
    engine.receive(&rising).unwrap();
    assert_eq!(engine.acr(at(32)), Ok(288_000));
    assert_eq!(slot_rm(&mut engine, 0).0.acr, 256_000);
    for ms in [2, 4] {
        assert_eq!(kind(&mut engine, ms * MS), Some(Kind::Data));
    }
    engine.receive(&rising).unwrap();
    let (sent, _) = slot_rm(&mut engine, 501 * MS);
    assert_eq!((sent.kind, sent.acr), (Kind::Forward, 256_000));
}

#[test]
fn the_refusals_of_an_open_in_their_order() {
    let mut engine = Engine::new();
    let late = TIME_MAX + 1;
    let (both, trip) = (params(0, 16_700_001), params(1, u32::MAX));
    let reserved = Params {
        pcr: 0xD3E8,
        ..both
    };
    let beyond = Address::new(256, 32);
    for (refusal, at, params) in [
        (Refusal::LowVci, at(31), both),
        (Refusal::ReservedBit, beyond, reserved),
        (Refusal::Range, beyond, both),
        (Refusal::Range, at(65_536), both),
        (Refusal::Range, at(32), Params { n: 0, ..both }),
        (Refusal::Tbe, at(32), both),
        (Refusal::Tbe, at(32), params(16_777_216, 16_700_001)),
        (Refusal::Frtt, at(32), params(1, 16_700_001)),
        (Refusal::Time, at(32), params(1, 16_700_000)),
    ] {
        refused(&engine, refusal, |engine| engine.open(at, late, &params));
    }
    for (refusal, vpi, params) in [
        (Refusal::Range, 256, both),
        (Refusal::Tbe, 1, both),
        (Refusal::Frtt, 1, trip),
    ] {
        refused(&engine, refusal, |engine| {
            engine.open_path(vpi, late, &params)
        });
    }
    engine.open(at(32), 9, &params(1, 1)).unwrap();
    for (refusal, params) in [(Refusal::Tbe, both), (Refusal::Frtt, trip)] {
        refused(&engine, refusal, |engine| engine.open(at(32), 0, &params));
    }
}

/// 7 judges the given initial rate, whatever is used.
#[test]
fn the_given_rate_is_judged() {
    let above = Params {
        icr: 0x53E9,
        ..params(1, 16_700_000)
    };
    let engine = Engine::new();
    refused(&engine, Refusal::Range, |engine| {
        engine.open(at(32), 0, &above)
    });
}

/// At the rate that is used no more than TBE cells go in a round trip before any feedback,
/// where the minimum does not raise it.
#[test]
fn the_first_round_trip() {
    for (tbe, frtt) in [(1, 1_500), (5, 40_000), (40, 100_000), (9, 9_001)] {
        let mut engine = engine_with(&params(tbe, frtt));
        engine.offer(at(32), 1_000).unwrap();
        let trip = u64::from(frtt) * 1_000;
        let slots = (0..trip).step_by(10_000);
        let sent = slots.filter(|time| kind(&mut engine, *time).is_some());
        assert_eq!(sent.count(), tbe as usize, "{tbe} {frtt}");
    }
}

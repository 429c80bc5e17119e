//! Tests of what a close answers, and that no data cell is unaccounted (document 02, L12).

use std::collections::BTreeMap;

use crate::cell::LENGTH;
use crate::engine::{Closed, Engine};
use crate::engine_tests::{
    at, backward, draws, engine_with, forward, kind, octets, params, refused, waiting, MS,
};
use crate::{Address, Kind, Refusal};

/// The data cells of a close.
fn closed(engine: &mut Engine, vci: u32) -> u64 {
    engine.close(at(vci)).unwrap().cells
}

#[test]
fn nothing_waits() {
    let mut engine = engine_with(&params());
    let nothing = Closed {
        cells: 0,
        comparisons: 1,
    };
    assert_eq!(engine.close(at(32)), Ok(nothing));
    refused(&engine, Refusal::NotOpen, |engine| engine.close(at(32)));
}

#[test]
fn accepted_offers_less_data_slots() {
    let mut engine = engine_with(&params());
    for cells in [3, 0, 4] {
        engine.offer(at(32), cells).unwrap();
    }
    refused(&engine, Refusal::TooMuchData, |engine| {
        engine.offer(at(32), 65_529)
    });
    assert_eq!(kind(&mut engine, 0), Some(Kind::Forward)); // no data cell
    assert_eq!(waiting(&engine, at(32)), 7);
    assert_eq!(kind(&mut engine, MS), Some(Kind::Data));
    engine.receive(&octets(&forward(32))).unwrap();
    assert_eq!(kind(&mut engine, 2 * MS), Some(Kind::Turned)); // nor is this
    assert_eq!(kind(&mut engine, 3 * MS), Some(Kind::Data));
    assert_eq!(waiting(&engine, at(32)), 5);
    assert_eq!(closed(&mut engine, 32), 5);
    assert_eq!(waiting(&engine, at(32)), 0);
}

#[test]
fn turned_and_made_cells_are_not_counted() {
    let mut engine = engine_with(&params());
    engine.set_level(1).unwrap();
    engine.receive(&octets(&forward(32))).unwrap();
    engine.make(at(32), 0).unwrap();
    engine.receive(&octets(&backward(32))).unwrap();
    assert_eq!(closed(&mut engine, 32), 0);
}

#[test]
fn all_that_may_wait() {
    let mut engine = engine_with(&params());
    engine.open(at(33), 0, &params()).unwrap();
    engine.offer(at(32), 65_535).unwrap();
    engine.offer(at(33), 1).unwrap();
    assert_eq!(closed(&mut engine, 32), 65_535);
    assert_eq!(closed(&mut engine, 33), 1); // its own alone
}

#[test]
fn an_address_that_is_opened_anew_starts_without() {
    let mut engine = engine_with(&params());
    engine.offer(at(32), 9).unwrap();
    assert_eq!(closed(&mut engine, 32), 9);
    engine.open(at(32), 0, &params()).unwrap();
    assert_eq!(closed(&mut engine, 32), 0);
}

/// Whatever is called: offered is sent, closed and waiting together, under each name.
#[test]
fn every_cell_is_accounted_for_in_long_lists() {
    let mut engine = Engine::new();
    let (mut draw, mut time) = (draws(7), 0);
    let mut rest: BTreeMap<Address, i64> = BTreeMap::new();
    for _ in 0..100_000 {
        let address = Address::new(draw(2), 33);
        let cells = u64::from(draw(30_000));
        match draw(6) {
            0 if engine.offer(address, cells).is_ok() => {
                *rest.entry(address).or_default() += cells as i64;
            }
            1 if draw(40) == 0 => {
                let cells = engine.close(address).map_or(0, |closed| closed.cells);
                *rest.entry(address).or_default() -= cells as i64;
            }
            2 => {
                let _ = engine.open(address, time, &params());
            }
            _ => {
                time += MS;
                let sent = engine.slot(time, &mut [0; LENGTH]).unwrap();
                if let Some(sent) = sent.filter(|sent| sent.kind == Kind::Data) {
                    *rest.entry(Address::new(sent.vpi, sent.vci)).or_default() -= 1;
                }
            }
        }
        for (address, cells) in &rest {
            assert_eq!(waiting(&engine, *address) as i64, *cells);
        }
    }
    assert!(rest.len() == 2);
}

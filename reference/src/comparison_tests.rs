//! Tests of the comparisons that the calls answer (document 02, L4).

use crate::cell::LENGTH;
use crate::engine::Engine;
use crate::engine_tests::{
    at, backward, data, engine_with, forward, octets, opened, params, receive, refused, MS,
};
use crate::{Params, Refusal, Rm, COMPARISONS_MAX, CONNECTIONS_MAX};

/// An engine with VCIs 32, 33, .. opened at these times, on leaves 0, 1, ..; one
/// data cell waits on each.
fn waiting(times: &[u64]) -> Engine {
    let mut engine = Engine::new();
    for (vci, time) in (32..).zip(times) {
        engine.open(at(vci), *time, &params()).unwrap();
        engine.offer(at(vci), 1).unwrap();
    }
    engine
}

/// The VCI and the comparisons of a slot; nothing when it is idle.
fn slot(engine: &mut Engine, time: u64) -> Option<(u32, u32)> {
    let sent = engine.slot(time, &mut [0; LENGTH]).unwrap();
    sent.map(|sent| (sent.vci, sent.comparisons))
}

/// The comparisons of a close.
fn close(engine: &mut Engine, vci: u32) -> u32 {
    engine.close(at(vci)).unwrap().comparisons
}

#[test]
fn one_connection() {
    let mut engine = Engine::new();
    assert_eq!(engine.open(at(32), 0, &params()), opened(0)); // never ready: no winner, as before
    assert_eq!(receive(&mut engine, &data(32, true)), Ok(1));
    assert_eq!(receive(&mut engine, &octets(&backward(32))), Ok(1));
    assert_eq!(engine.offer(at(32), 0), Ok(1));
    assert_eq!(slot(&mut engine, 0), None);
    assert_eq!(engine.offer(at(32), 1), Ok(COMPARISONS_MAX)); // ready: it wins at every level
    assert_eq!(engine.offer(at(32), 0), Ok(COMPARISONS_MAX)); // as before, but that leaf
    assert_eq!(receive(&mut engine, &data(32, true)), Ok(COMPARISONS_MAX));
    assert_eq!(slot(&mut engine, 0), Some((32, COMPARISONS_MAX)));
    assert_eq!(slot(&mut engine, MS - 1), None);
    assert_eq!(slot(&mut engine, MS), Some((32, COMPARISONS_MAX)));
    assert_eq!(engine.offer(at(32), 0), Ok(1)); // k is 1 and nothing waits
    assert_eq!(
        receive(&mut engine, &octets(&forward(32))),
        Ok(COMPARISONS_MAX)
    );
    assert_eq!(close(&mut engine, 32), COMPARISONS_MAX);
    assert_eq!(engine.open(at(32), MS, &params()), opened(0));
    assert_eq!(close(&mut engine, 32), 1);
}

#[test]
fn a_made_cell_replays_as_an_offer_does() {
    let mut engine = engine_with(&params());
    engine.set_level(1).unwrap();
    assert_eq!(engine.make(at(32), 0), Ok(COMPARISONS_MAX));
    engine.open(at(33), 0, &params()).unwrap();
    assert_eq!(engine.make(at(33), 0), Ok(1)); // VCI 32 wins as before
    refused(&engine, Refusal::MadeTooSoon, |engine| {
        engine.make(at(33), 0)
    });
}

#[test]
fn a_cell_for_a_leaf_that_leads_some_levels() {
    // Leaf 4 is the earliest of leaves 4 to 7; leaf 0 is the earliest of all.
    let mut engine = waiting(&[0, 1, 2, 3, 4, 5, 6, 7]);
    assert_eq!(receive(&mut engine, &data(36, false)), Ok(3));
    assert_eq!(receive(&mut engine, &data(37, false)), Ok(1));
    assert_eq!(receive(&mut engine, &data(38, false)), Ok(2));
    assert_eq!(receive(&mut engine, &data(32, false)), Ok(COMPARISONS_MAX));
    assert_eq!(close(&mut engine, 36), 3); // leaf 5 at levels 1 and 2, leaf 0 at level 3
    assert_eq!(close(&mut engine, 32), COMPARISONS_MAX); // leaf 1 at every level
    assert_eq!(slot(&mut engine, 7), Some((33, COMPARISONS_MAX)));
}

#[test]
fn feedback_moves_a_ready_instant_and_with_it_the_winners() {
    let mut engine = waiting(&[0, 0, 0]);
    for vci in [32, 33, 34] {
        engine.offer(at(vci), 9).unwrap();
        assert_eq!(slot(&mut engine, 0), Some((vci, COMPARISONS_MAX)));
    }
    let slowest = Rm {
        er: 0x4000,
        ..backward(34)
    };
    assert_eq!(receive(&mut engine, &octets(&slowest)), Ok(2)); // later, and still the only one at level 1
    let faster = Rm {
        ni: 0,
        ..backward(34)
    };
    assert_eq!(receive(&mut engine, &octets(&faster)), Ok(COMPARISONS_MAX)); // now before VCI 32
    assert_eq!(slot(&mut engine, MS), Some((34, COMPARISONS_MAX)));
    assert_eq!(slot(&mut engine, MS), Some((32, COMPARISONS_MAX)));
}

#[test]
fn ties_go_to_the_lower_vci_whatever_the_leaves() {
    let mut engine = Engine::new();
    let all = COMPARISONS_MAX;
    let offers = [(50, all), (60, 1), (40, all), (41, 1), (45, 3)];
    for (leaf, (vci, comparisons)) in (0..).zip(offers) {
        assert_eq!(engine.open(at(vci), 0, &params()), opened(leaf));
        assert_eq!(engine.offer(at(vci), 1), Ok(comparisons));
    }
    let served = [0; 5].map(|_| slot(&mut engine, 0));
    assert_eq!(served, [40, 41, 45, 50, 60].map(|vci| Some((vci, all))));
}

#[test]
fn an_open_takes_the_lowest_free_leaf() {
    let mut engine = waiting(&[0, 1, 2, 3, 4, 5, 6]); // leaf 7 is free
    for vci in [38, 34] {
        engine.close(at(vci)).unwrap(); // leaf 6, then leaf 2
    }
    // On leaf 2 against leaf 3, which is earlier; on leaf 6 against nobody, then
    // leaf 4; on leaf 7 against leaf 6 with a higher VCI, then leaf 4.
    for (vci, leaf, comparisons) in [(99, 2, 1), (98, 6, 2), (97, 7, 2)] {
        assert_eq!(engine.open(at(vci), 7, &params()), opened(leaf));
        assert_eq!(engine.offer(at(vci), 1), Ok(comparisons));
    }
}

#[test]
fn the_table_filled_and_emptied() {
    let mut engine = Engine::new();
    let vcis = 32..32 + CONNECTIONS_MAX as u32;
    for (leaf, vci) in (0..).zip(vcis.clone()) {
        assert_eq!(engine.open(at(vci), 0, &params()), opened(leaf));
    }
    refused(&engine, Refusal::Full, |engine| {
        engine.open(at(5_000), 0, &params())
    });
    // Leaf x is later than all before it in its block: it wins as many levels as
    // x has zeros at its end, and loses the next match.
    for (leaf, vci) in vcis.clone().enumerate() {
        let lost = (leaf.trailing_zeros() + 1).min(COMPARISONS_MAX);
        assert_eq!(engine.offer(at(vci), 1), Ok(lost));
    }
    for vci in vcis.clone() {
        assert_eq!(slot(&mut engine, 0), Some((vci, COMPARISONS_MAX)));
    }
    assert_eq!(slot(&mut engine, 0), None);
    for vci in vcis {
        assert_eq!(close(&mut engine, vci), COMPARISONS_MAX); // the first of those that are left
    }
    assert_eq!(engine.open(at(32), 0, &params()), opened(0));
}

#[test]
fn refused_calls_replay_nothing() {
    let engine = waiting(&[0, 0]);
    refused(&engine, Refusal::AlreadyOpen, |engine| {
        engine.open(at(32), 0, &params())
    });
    refused(&engine, Refusal::Range, |engine| {
        engine.open(at(40), 0, &Params { n: 0, ..params() })
    });
    refused(&engine, Refusal::TooMuchData, |engine| {
        engine.offer(at(33), 65_535)
    });
    refused(&engine, Refusal::NotOpen, |engine| engine.close(at(34)));
    refused(&engine, Refusal::NotCongested, |engine| {
        engine.make(at(33), 0)
    });
    refused(&engine, Refusal::NotOpen, |engine| {
        engine.receive(&data(34, true))
    });
}

//! Tests of full addresses through the calls of an engine (document 02, L6).

use crate::cell::{header_check, Octets, LENGTH};
use crate::engine::{Engine, TIME_MAX};
use crate::engine_tests::{at, backward, data, forward, octets, params, refused, slot_rm, MS};
use crate::{read, Address, Cell, Kind, Params, Refusal, Rm, COMPARISONS_MAX, CONNECTIONS_MAX};

/// The address of these two numbers.
fn address(vpi: u32, vci: u32) -> Address {
    Address::new(vpi, vci)
}

/// A cell with another VPI and GFC, and a right header check.
pub(crate) fn on(mut cell: Octets, gfc: u32, vpi: u32) -> Octets {
    let word = u32::from_be_bytes([cell[0], cell[1], cell[2], cell[3]]);
    let header = gfc << 28 | vpi << 20 | word & 0x000F_FFFF;
    cell[..4].copy_from_slice(&header.to_be_bytes());
    cell[4] = header_check(&cell[..4]);
    cell
}

/// An engine with these connections, opened at time 0 in this order.
fn engine_of(addresses: &[(u32, u32)]) -> Engine {
    let mut engine = Engine::new();
    for (vpi, vci) in addresses {
        engine.open(address(*vpi, *vci), 0, &params()).unwrap();
    }
    engine
}

/// The address that a slot goes to; nothing when it is idle.
fn served(engine: &mut Engine, time: u64) -> Option<(u32, u32)> {
    let sent = engine.slot(time, &mut [0; LENGTH]).unwrap();
    sent.map(|sent| (sent.vpi, sent.vci))
}

/// Pairs of which a number is out of its range. 256 and 0 would be 1 and 0 if the two
/// were added, which no open takes; with 0 and 32, 1 and 32 and 255 and 65,535 open each
/// other would be the address of one of them if a number were cut or the two added.
const OUT_OF_RANGE: [(u32, u32); 10] = [
    (256, 0),
    (256, 32),
    (257, 32),
    (0, 65_568),
    (0, 65_536 + 65_568),
    (1, 65_568),
    (254, 131_071),
    (511, 65_535),
    (65_536, 32),
    (u32::MAX, u32::MAX),
];

#[test]
fn both_numbers_at_their_ends() {
    let mut engine = Engine::new();
    for (vpi, vci) in [(0, 32), (0, 65_535), (255, 32), (255, 65_535)] {
        assert!(engine.open(address(vpi, vci), 0, &params()).is_ok());
        assert!(engine.acr(address(vpi, vci)).is_ok());
    }
    for (vpi, vci) in [(256, 32), (u32::MAX, 32), (0, 65_536), (255, u32::MAX)] {
        refused(&engine, Refusal::Range, |engine| {
            engine.open(address(vpi, vci), 0, &params())
        });
    }
}

#[test]
fn refusal_10_looks_at_the_vci_alone_and_comes_first() {
    let engine = Engine::new();
    let bad = Params { n: 0, ..params() };
    for vpi in [0, 1, 255, 256, u32::MAX] {
        for vci in [0, 31] {
            refused(&engine, Refusal::LowVci, |engine| {
                engine.open(address(vpi, vci), TIME_MAX + 1, &bad)
            });
        }
    }
    for (vpi, vci) in [(256, 32), (256, 65_536), (0, 65_536)] {
        refused(&engine, Refusal::Range, |engine| {
            engine.open(address(vpi, vci), TIME_MAX + 1, &params()) // before 8
        });
    }
    assert!(engine.clone().open(address(255, 32), 0, &params()).is_ok());
}

#[test]
fn a_pair_out_of_range_is_refused_with_7_in_an_open_and_11_elsewhere() {
    let mut engine = engine_of(&[(0, 32), (1, 32), (255, 65_535)]);
    engine.set_level(2).unwrap();
    for (vpi, vci) in OUT_OF_RANGE {
        let at = address(vpi, vci);
        let refusal = if vci < 32 {
            Refusal::LowVci
        } else {
            Refusal::Range
        };
        refused(&engine, refusal, |engine| engine.open(at, 0, &params()));
        refused(&engine, Refusal::NotOpen, |engine| engine.close(at));
        refused(&engine, Refusal::NotOpen, |engine| engine.offer(at, 1));
        refused(&engine, Refusal::NotOpen, |engine| engine.make(at, 0));
        refused(&engine, Refusal::NotOpen, |engine| {
            engine.out_of_rate(at, 0, &mut [0; LENGTH])
        });
        refused(&engine, Refusal::NotOpen, |engine| engine.acr(at));
    }
}

#[test]
fn the_same_vci_on_another_path_is_another_connection() {
    let mut engine = engine_of(&[(7, 40)]);
    engine.set_level(1).unwrap();
    for vpi in [0, 6, 8, 0x17, 0x87] {
        let at = address(vpi, 40);
        refused(&engine, Refusal::NotOpen, |engine| engine.close(at));
        refused(&engine, Refusal::NotOpen, |engine| engine.offer(at, 0));
        refused(&engine, Refusal::NotOpen, |engine| engine.make(at, 0));
        refused(&engine, Refusal::NotOpen, |engine| engine.acr(at));
        refused(&engine, Refusal::NotOpen, |engine| {
            engine.out_of_rate(at, 0, &mut [0; LENGTH])
        });
        for cell in [data(40, true), octets(&forward(40)), octets(&backward(40))] {
            refused(&engine, Refusal::NotOpen, |engine| {
                engine.receive(&on(cell, 0, vpi))
            });
        }
        assert!(engine.clone().open(at, 0, &params()).is_ok());
    }
    refused(&engine, Refusal::AlreadyOpen, |engine| {
        engine.open(address(7, 40), 0, &params())
    });
}

#[test]
fn each_path_has_its_own_rate_data_and_marks() {
    let mut engine = engine_of(&[(0, 32), (1, 32)]);
    let cut = Rm {
        vpi: 1,
        ci: 1,
        ..backward(32)
    };
    engine.receive(&octets(&cut)).unwrap();
    assert_eq!(engine.acr(at(32)), Ok(512_000));
    assert_eq!(engine.acr(address(1, 32)), Ok(480_000));
    engine.receive(&on(data(32, true), 0, 1)).unwrap();
    for vpi in [0, 1] {
        let cell = on(octets(&forward(32)), 0, vpi);
        engine.receive(&cell).unwrap();
        assert_eq!(served(&mut engine, 0), Some((vpi, 32)));
    }
    for (vpi, ci) in [(0, 0), (1, 1)] {
        let (sent, rm) = slot_rm(&mut engine, 2 * MS);
        assert_eq!((sent.vpi, rm.vpi, rm.ci), (vpi, vpi, ci));
    }
    engine.close(at(32)).unwrap();
    assert_eq!(engine.acr(address(1, 32)), Ok(480_000));
}

#[test]
fn ties_go_to_the_lower_name() {
    let rising = [(0, 60), (0, 65_535), (1, 33), (1, 50), (2, 32), (255, 32)];
    let mut falling = rising;
    falling.reverse();
    for order in [rising, falling] {
        let mut engine = engine_of(&order);
        for (vpi, vci) in order {
            engine.offer(address(vpi, vci), 1).unwrap();
        }
        assert_eq!([0; 6].map(|_| served(&mut engine, 0)), rising.map(Some));
        assert_eq!(served(&mut engine, 0), None);
        assert_eq!([0; 6].map(|_| served(&mut engine, MS)), rising.map(Some));
    }
}

#[test]
fn a_tie_across_paths_counts_in_the_tournament() {
    let mut engine = engine_of(&[(1, 32), (0, 40)]);
    assert_eq!(engine.offer(address(1, 32), 1), Ok(COMPARISONS_MAX));
    assert_eq!(engine.offer(at(40), 1), Ok(COMPARISONS_MAX)); // the lower name, the higher VCI
    assert_eq!(engine.top(), Some((0, 40)));
    engine.close(at(40)).unwrap();
    assert_eq!(engine.top(), Some((0, 65_536 + 32)));
}

/// The header of an RM cell with VPI 0xA5 and VCI 0x1234, GFC 0, and this CLP.
fn header(clp: u8) -> [u8; 4] {
    [0x0A, 0x51, 0x23, 0x4C | clp]
}

#[test]
fn every_cell_written_carries_the_path_and_no_gfc() {
    let mut engine = engine_of(&[(0xA5, 0x1234)]);
    engine.set_level(1).unwrap();
    let at = address(0xA5, 0x1234);
    let received = on(octets(&forward(0x1234)), 0xF, 0xA5);
    engine.receive(&received).unwrap();
    engine.make(at, 0).unwrap();
    let mut outside = [0; LENGTH];
    engine.out_of_rate(at, 0, &mut outside).unwrap();
    assert_eq!(outside[..4], header(1));
    for (time, kind, bn) in [
        (0, Kind::Forward, 0),
        (1, Kind::Turned, 0),
        (2, Kind::Turned, 1),
    ] {
        let mut cell = [0; LENGTH];
        let sent = engine.slot(time * MS, &mut cell).unwrap().unwrap();
        assert_eq!((sent.vpi, sent.vci, sent.kind), (0xA5, 0x1234, kind));
        assert_eq!(cell[..4], header(0));
        let Ok(Cell::Rm(rm)) = read(&cell) else {
            panic!("no RM cell: {cell:x?}");
        };
        assert_eq!((rm.address(), rm.bn), (at, bn));
    }
}

#[test]
fn gfc_makes_no_other_connection() {
    let mut engine = engine_of(&[(0x10, 32)]);
    for gfc in 0..16 {
        let cell = on(data(32, gfc % 2 == 1), gfc, 0x10);
        assert!(engine.receive(&cell).is_ok());
    }
    refused(&engine, Refusal::NotOpen, |engine| {
        engine.receive(&on(data(32, true), 1, 0))
    });
}

#[test]
fn a_full_table_over_all_paths() {
    let numbers = 0..CONNECTIONS_MAX as u32;
    let places: Vec<Address> = numbers.map(|i| address(i % 256, 32 + i / 256)).collect();
    let mut engine = Engine::new();
    for at in &places {
        engine.open(*at, 0, &params()).unwrap();
        engine.offer(*at, 1).unwrap();
    }
    refused(&engine, Refusal::Full, |engine| {
        engine.open(address(0, 40), 0, &params())
    });
    let mut rising = places;
    rising.sort_by_key(|at| at.name());
    for at in rising {
        assert_eq!(served(&mut engine, 0), Some((at.vpi, at.vci)));
    }
    assert_eq!(served(&mut engine, 0), None);
}

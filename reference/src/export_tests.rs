//! Tests of a contract exported through the calls of an engine (document 02, L8).

use crate::engine::Engine;
use crate::engine_tests::{at, backward, engine_with, octets, params, refused, THOUSAND};
use crate::{import, Address, Exported, Params, Refusal, Rm};

/// What an open with these codes exports.
fn exported(pcr: u32, mcr: u32, icr: u32) -> Exported {
    let engine = engine_with(&Params::house(pcr, mcr, icr));
    engine.export(at(32)).unwrap()
}

#[test]
fn the_three_rates_of_the_open() {
    let expected = Exported {
        pcr: 4_290_772_992.0,
        mcr: 1.0,
        icr: 1_000.0,
    };
    assert_eq!(exported(0x7FFF, 0x4000, THOUSAND), expected);
    let expected = Exported {
        pcr: 3.5,
        mcr: 1.001_953_125,
        icr: 2.0,
    };
    assert_eq!(exported(0x4380, 0x4001, 0x4200), expected);
}

#[test]
fn no_minimum_is_a_positive_zero() {
    for zero in [0x0000, 0x0001, 0x3FFF] {
        let Exported { mcr, icr, .. } = exported(0x4000, zero, zero);
        assert_eq!((mcr.to_bits(), icr.to_bits()), (0, 0));
    }
}

/// Codes of rate 0 that have other bits set come back as 0x0000, all others as given.
#[test]
fn exported_then_imported_is_the_canonical_code() {
    for (code, canonical) in [(0x0000, 0), (0x3FFF, 0), (0x4000, 0x4000), (0x53E8, 0x53E8)] {
        let Exported { pcr, mcr, icr } = exported(0x7FFF, code, code);
        for cells in [mcr, icr] {
            let imported = import(cells).unwrap();
            assert_eq!(
                (imported.code, imported.remainder.to_bits()),
                (canonical, 0)
            );
        }
        assert_eq!(import(pcr).unwrap().code, 0x7FFF);
    }
}

#[test]
fn the_allowed_rate_does_not_matter() {
    let mut engine = engine_with(&params());
    let before = engine.export(at(32));
    engine
        .receive(&octets(&Rm {
            er: 0x4200,
            ..backward(32)
        }))
        .unwrap();
    assert_eq!(engine.acr(at(32)), Ok(1_024));
    assert_eq!(engine.export(at(32)), before);
}

#[test]
fn a_new_open_has_its_own_rates() {
    let mut engine = engine_with(&params());
    engine.close(at(32)).unwrap();
    engine
        .open(at(32), 0, &Params::house(0x4200, 0, 0x4000))
        .unwrap();
    let expected = Exported {
        pcr: 2.0,
        mcr: 0.0,
        icr: 1.0,
    };
    assert_eq!(engine.export(at(32)), Ok(expected));
}

#[test]
fn a_pair_that_is_not_open_is_refused_with_11() {
    let mut engine = engine_with(&params());
    for (vpi, vci) in [(0, 33), (1, 32), (256, 32), (0, 65_568), (0, 0)] {
        let at = Address::new(vpi, vci);
        refused(&engine, Refusal::NotOpen, |engine| engine.export(at));
    }
    engine.close(at(32)).unwrap();
    refused(&engine, Refusal::NotOpen, |engine| engine.export(at(32)));
    refused(&Engine::new(), Refusal::NotOpen, |engine| {
        engine.export(at(32))
    });
}

//! Tests of the reserved bit of a rate code through the calls of an engine (document
//! 02, L7).

use crate::cell::{Octets, LENGTH};
use crate::engine::{Engine, TIME_MAX};
use crate::engine_tests::{
    at, backward, data, engine_with, fill, forward, octets, params, refused, slot_rm, with_crc, MS,
    RATE, THOUSAND,
};
use crate::{read, write_rm, Address, Kind, Params, Refusal, Rm};

/// The octets that the three codes of a cell begin with: ER, CCR and MCR.
const CODES: [usize; 3] = [7, 9, 11];

/// The reserved bit in such an octet.
const BIT: u8 = 0x80;

/// A cell with the reserved bit in the codes that begin with these octets, and a right
/// CRC-10.
fn reserved(rm: &Rm, codes: &[usize]) -> Octets {
    let mut cell = octets(rm);
    for octet in codes {
        cell[*octet] |= BIT;
    }
    with_crc(cell)
}

/// The house set with the bit in the codes of the open that are named by place: peak,
/// minimum and initial rate.
fn with_bit(places: &[usize]) -> Params {
    let mut codes = [0x7FFF, 0x4000, THOUSAND];
    for place in places {
        codes[*place] |= 0x8000;
    }
    Params::house(codes[0], codes[1], codes[2])
}

#[test]
fn each_code_of_a_cell_alone_is_refused_with_19() {
    let engine = engine_with(&params());
    for rm in [forward(32), backward(32)] {
        for code in CODES {
            let cell = reserved(&rm, &[code]);
            assert_eq!(read(&cell), Err(Refusal::ReservedBit));
            refused(&engine, Refusal::ReservedBit, |engine| {
                engine.receive(&cell)
            });
        }
        assert_eq!(read(&reserved(&rm, &CODES)), Err(Refusal::ReservedBit));
        assert!(read(&reserved(&rm, &[])).is_ok());
    }
}

/// In a code whose nz is 0, so that its rate is 0 whatever its other bits are, too.
#[test]
fn the_bit_is_refused_in_a_code_of_rate_0() {
    let engine = engine_with(&params());
    let rm = Rm {
        er: 0,
        ccr: 0,
        mcr: 0,
        ..backward(32)
    };
    for code in CODES {
        refused(&engine, Refusal::ReservedBit, |engine| {
            engine.receive(&reserved(&rm, &[code]))
        });
    }
}

#[test]
fn bit_14_alone_is_no_refusal() {
    let mut engine = engine_with(&Params::house(0x4000, 0x4000, 0x4000));
    let rm = Rm {
        er: 0x4000,
        ccr: 0x4000,
        mcr: 0x4000,
        ..backward(32)
    };
    assert!(engine.receive(&octets(&rm)).is_ok());
    assert_eq!(engine.acr(at(32)), Ok(512));
}

#[test]
fn receiving_tests_5_and_6_before_19_and_19_before_11() {
    let engine = engine_with(&params());
    let mut cell = reserved(&backward(33), &CODES);
    refused(&engine, Refusal::ReservedBit, |engine| {
        engine.receive(&cell)
    }); // VCI 33 is not open
    cell[5] = 2;
    refused(&engine, Refusal::Protocol, |engine| {
        engine.receive(&with_crc(cell))
    });
    refused(&engine, Refusal::Crc, |engine| engine.receive(&cell));
    assert_eq!(read(&with_crc(cell)), Err(Refusal::Protocol));
    assert_eq!(read(&cell), Err(Refusal::Crc));
    cell[4] ^= 1;
    refused(&engine, Refusal::HeaderCheck, |engine| {
        engine.receive(&cell)
    });
    refused(&engine, Refusal::Length, |engine| {
        engine.receive(&cell[..52])
    });
}

#[test]
fn a_data_cell_has_no_rate_codes() {
    let mut engine = engine_with(&params());
    let mut cell = data(32, true);
    cell[5..].fill(0xFF);
    assert!(read(&cell).is_ok());
    assert!(engine.receive(&cell).is_ok());
}

#[test]
fn each_code_of_an_open_alone_is_refused_with_19() {
    let engine = Engine::new();
    for place in 0..3 {
        let params = with_bit(&[place]);
        refused(&engine, Refusal::ReservedBit, |engine| {
            engine.open(at(32), 0, &params)
        });
    }
    assert!(engine.clone().open(at(32), 0, &with_bit(&[])).is_ok());
}

#[test]
fn opening_tests_10_before_19_and_19_before_7_8_12_and_14() {
    let mut engine = engine_with(&params());
    engine.slot(9, &mut [0; LENGTH]).unwrap();
    for place in 0..3 {
        let params = with_bit(&[place]);
        let open = |number, at, time, params: &Params| {
            refused(&engine, number, |engine| engine.open(at, time, params));
        };
        open(Refusal::LowVci, at(31), 9, &params);
        open(Refusal::ReservedBit, Address::new(256, 32), 9, &params); // before 7
        open(
            Refusal::ReservedBit,
            at(33),
            9,
            &Params { trm: 8, ..params },
        );
        open(Refusal::ReservedBit, at(33), TIME_MAX + 1, &params); // before 8
        open(Refusal::ReservedBit, at(32), 9, &params); // before 12
        open(Refusal::ReservedBit, at(33), 8, &params); // before 14
    }
}

#[test]
fn opening_tests_19_before_13() {
    let mut engine = Engine::new();
    fill(&mut engine, 0);
    refused(&engine, Refusal::Full, |engine| {
        engine.open(at(2000), 0, &params())
    });
    refused(&engine, Refusal::ReservedBit, |engine| {
        engine.open(at(2000), 0, &with_bit(&[1]))
    });
}

#[test]
fn a_code_over_16_bits_is_refused_with_7_whatever_its_bit_15_is() {
    let engine = Engine::new();
    for wide in [0x1_0000, 0x1_8000, 0xFFFF_8000] {
        for params in [
            Params::house(wide | 0x7FFF, 0x4000, THOUSAND),
            Params::house(0x7FFF, wide | 0x4000, THOUSAND),
            Params::house(0x7FFF, 0x4000, wide | THOUSAND),
        ] {
            refused(&engine, Refusal::Range, |engine| {
                engine.open(at(32), 0, &params)
            });
        }
        let beside = Params::house(wide, 0x4000, 0x8000 | THOUSAND);
        refused(&engine, Refusal::ReservedBit, |engine| {
            engine.open(at(32), 0, &beside)
        });
    }
}

/// A write takes codes of 15 bits: one bit more is a field out of range.
#[test]
fn a_code_to_write_with_the_bit_is_refused_with_7() {
    let rm = forward(32);
    for rm in [
        Rm { er: 0x8000, ..rm },
        Rm { ccr: 0xFFFF, ..rm },
        Rm { mcr: 0xC000, ..rm },
    ] {
        assert_eq!(write_rm(&rm, &mut [0; LENGTH]), Err(Refusal::Range));
    }
}

/// The one way by which a turned cell could have it is a received cell that has it,
/// which is refused; the cell that waits stays.
#[test]
fn a_turned_cell_never_has_the_bit() {
    let mut engine = engine_with(&params());
    engine.receive(&octets(&forward(32))).unwrap();
    for code in CODES {
        let other = Rm {
            er: 0x4001,
            ..forward(32)
        };
        refused(&engine, Refusal::ReservedBit, |engine| {
            engine.receive(&reserved(&other, &[code]))
        });
    }
    let (first, _) = slot_rm(&mut engine, 0);
    assert_eq!((first.kind, first.acr), (Kind::Forward, RATE));
    let (sent, rm) = slot_rm(&mut engine, MS);
    assert_eq!((sent.kind, rm.er), (Kind::Turned, THOUSAND));
}

//! Cells written, read and damaged, all rate codes, all parameters at the ends of
//! their ranges.

use abr::ffi::{abr_cell, abr_params, abr_rm};
use abr::{CELL_OCTETS, RATE_MAX};
use abr_convert::{library_cell, library_params, reference_rm};
use abr_differential::both::Both;
use abr_differential::call::{Answer, Call, Outcome};
use abr_differential::library::Library;
use abr_differential::lists;
use abr_differential::octets::{put_crc, put_header, Buffer, Header, Octets};
use abr_differential::rng::Rng;
use abr_reference::{Address, Opened, Refusal};

/// The connection that is open.
const AT: Address = Address::new(0xA5, 32);

/// Makes a call on both sides and gives their common outcome.
fn agree(both: &mut Both, call: &Call) -> Outcome {
    match both.call(call) {
        Ok(outcome) => outcome,
        Err(difference) => panic!("{call:x?}: {difference}"),
    }
}

/// The answer of an open in an empty table.
const FIRST: Answer = Answer::Opened(Opened {
    comparisons: 1,
    leaf: 0,
});

/// Both sides with that connection open.
fn with_connection() -> Both {
    let mut both = Both::default();
    let Ok(Answer::Params(params)) = agree(
        &mut both,
        &Call::House {
            pcr: 0x7FFF,
            mcr: 0x4000,
            icr: 0x53E8,
        },
    ) else {
        panic!("no house set");
    };
    let open = Call::Open {
        at: AT,
        time: 0,
        params,
    };
    assert_eq!(agree(&mut both, &open), Ok(FIRST));
    both
}

/// Random fields of an RM cell, all in range.
fn random_rm(rng: &mut Rng) -> abr_rm {
    let mut bit = || rng.next() as u32 & 1;
    let [dir, bn, ci, ni, ra] = [bit(), bit(), bit(), bit(), bit()];
    abr_rm {
        vpi: rng.within(0, 255),
        vci: rng.within(0, 65_535),
        dir,
        bn,
        ci,
        ni,
        ra,
        er: rng.within(0, 0x7FFF),
        ccr: rng.within(0, 0x7FFF),
        mcr: rng.within(0, 0x7FFF),
        ql: rng.next() as u32,
        sn: rng.next() as u32,
    }
}

/// What reading must give of a cell that was written.
fn as_read(rm: &abr_rm) -> abr_cell {
    library_cell(&abr_reference::Cell::Rm(reference_rm(rm)))
}

#[test]
fn what_is_written_is_read_back() {
    let mut rng = Rng::new(lists::seed());
    let mut library = Library::default();
    for _ in 0..3_000_000 {
        let rm = random_rm(&mut rng);
        let mut buffer = Buffer::new(rng.next() as u8);
        let len = CELL_OCTETS;
        let written = library.call(&Call::WriteRm { rm, len }, &mut buffer);
        assert_eq!(written, Ok(Ok(Answer::Done)), "{rm:?}");
        let octets: [u8; CELL_OCTETS] = buffer.octets(len).try_into().unwrap();
        let cell = Octets::cell(&octets);
        let read = library.call(&Call::Read { cell }, &mut buffer);
        assert_eq!(read, Ok(Ok(Answer::Cell(as_read(&rm)))), "{rm:?}");
    }
}

#[test]
fn both_sides_write_the_same_octets() {
    let mut rng = Rng::new(lists::seed() + 1);
    let mut both = Both::default();
    for _ in 0..1_000_000 {
        let rm = random_rm(&mut rng);
        let len = CELL_OCTETS;
        assert_eq!(
            agree(&mut both, &Call::WriteRm { rm, len }),
            Ok(Answer::Done)
        );
    }
}

#[test]
fn both_sides_read_random_octets_the_same() {
    let mut rng = Rng::new(lists::seed() + 2);
    let mut both = with_connection();
    for _ in 0..2_000_000 {
        let mut octets = [0; CELL_OCTETS];
        rng.fill(&mut octets);
        let header = Header {
            gfc: rng.within(0, 15),
            vpi: rng.pick(&[0xA5, 0xA5, 0xA5, 0xA4, 0x25]),
            vci: rng.pick(&[32, 33]),
            pt: rng.within(0, 7),
            clp: rng.within(0, 1),
        };
        put_header(&mut octets, &header);
        octets[5] = rng.pick(&[1, 1, 0, 255]);
        for place in CODES {
            octets[place] &= rng.pick(&[0x7F, 0x7F, 0x7F, 0xFF]);
        }
        if !rng.once_in(4) {
            put_crc(&mut octets);
        }
        let cell = Octets::cell(&octets);
        let _ = agree(&mut both, &Call::Read { cell });
        let _ = agree(&mut both, &Call::Receive { cell });
    }
}

/// The octets that the three rate codes of a cell begin with.
const CODES: [usize; 3] = [7, 9, 11];

/// The header of a cell of this payload type, GFC and CLP being 0.
fn header(at: Address, pt: u32) -> Header {
    Header {
        gfc: 0,
        vpi: at.vpi,
        vci: at.vci,
        pt,
        clp: 0,
    }
}

/// A good RM cell of the open connection.
fn good(dir: u8) -> [u8; CELL_OCTETS] {
    let mut octets = [0x6A; CELL_OCTETS];
    octets[5..21].copy_from_slice(&[
        1,
        dir << 7,
        0x53,
        0xE8,
        0x53,
        0xE8,
        0x40,
        0,
        0,
        0,
        0,
        0,
        0,
        0,
        0,
        0,
    ]);
    octets[51] = 0;
    put_header(&mut octets, &header(AT, 6));
    put_crc(&mut octets);
    octets
}

#[test]
fn one_or_two_damaged_bits_anywhere_are_refused() {
    let mut both = with_connection();
    let flip = |octets: &mut [u8; CELL_OCTETS], bit: usize| octets[bit / 8] ^= 0x80 >> (bit % 8);
    for dir in [0, 1] {
        for first in 0..8 * CELL_OCTETS {
            for second in [None, Some((first * 7 + 1) % (8 * CELL_OCTETS))] {
                let mut octets = good(dir);
                flip(&mut octets, first);
                if let Some(second) = second.filter(|second| *second != first) {
                    flip(&mut octets, second);
                }
                let cell = Octets::cell(&octets);
                let refused = agree(&mut both, &Call::Receive { cell });
                let header = first < 40 || second.is_some_and(|second| second < 40);
                let expected = match header {
                    true => Refusal::HeaderCheck,
                    false => Refusal::Crc,
                };
                assert_eq!(refused, Err(expected), "bits {first} and {second:?}");
                assert_eq!(agree(&mut both, &Call::Read { cell }), Err(expected));
            }
        }
    }
}

#[test]
fn every_length_but_53_is_refused() {
    let mut both = with_connection();
    for len in 0..=64 {
        let cell = Octets::cell(&good(1)).of_length(len);
        let expected = match len {
            CELL_OCTETS => Ok(()),
            _ => Err(Refusal::Length),
        };
        let rm = abr_rm::default();
        let calls = [
            Call::Receive { cell },
            Call::Read { cell },
            Call::WriteRm { rm, len },
            Call::Slot { time: 0, len },
            Call::OutOfRate {
                at: AT,
                time: 0,
                len,
            },
        ];
        for call in calls {
            let outcome = agree(&mut both, &call).map(|_| ());
            assert_eq!(outcome, expected, "{call:?}");
        }
    }
}

/// Why a rate code is refused, if it is (document 02, L7).
fn refused_code(code: u32) -> Option<Refusal> {
    match code {
        0..=0x7FFF => None,
        0x8000..=0xFFFF => Some(Refusal::ReservedBit),
        _ => Some(Refusal::Range),
    }
}

#[test]
fn every_rate_code_and_the_rates_beside_it() {
    let mut both = Both::default();
    for code in 0..=0x1_FFFF {
        let outcome = agree(&mut both, &Call::Rate { code });
        assert_eq!(outcome.err(), refused_code(code));
        let Ok(Answer::Number(rate)) = outcome else {
            continue;
        };
        for rate in [rate.saturating_sub(1), rate, rate + 1] {
            let coded = agree(&mut both, &Call::Code { rate });
            assert_eq!(coded.is_err(), rate > RATE_MAX);
        }
    }
    let mut rng = Rng::new(lists::seed() + 3);
    for _ in 0..2_000_000 {
        let shift = rng.below(64);
        let rate = rng.next() >> shift;
        let _ = agree(&mut both, &Call::Code { rate });
    }
}

/// Opens a connection with these codes of peak, minimum and initial rate, has an
/// out-of-rate cell, which carries all three, and closes it.
fn opens(both: &mut Both, pcr: u32, mcr: u32, icr: u32) -> Result<(), Refusal> {
    let (at, time, len) = (AT, 0, CELL_OCTETS);
    let params = library_params(&abr_reference::Params::house(pcr, mcr, icr));
    agree(both, &Call::Open { at, time, params })?;
    let cell = agree(both, &Call::OutOfRate { at, time, len });
    assert_eq!(cell, Ok(Answer::Done));
    agree(both, &Call::Close { at }).map(|_| ())
}

/// Every code as minimum, as initial rate and as peak (document 02, L5 and L7).
#[test]
fn every_code_of_the_three_rates() {
    let mut both = Both::default();
    for code in 0..=0x1_FFFF {
        for (pcr, mcr, icr) in [(0x5000, code, 0x5000), (0x5000, 0, code), (code, 0, 0)] {
            let [peak, minimum, initial] = [pcr, mcr, icr].map(abr_reference::rate_of);
            let in_order = minimum <= initial && initial <= peak && peak >= 512;
            let expected = match refused_code(code) {
                Some(refusal) => Err(refusal),
                None => in_order.then_some(()).ok_or(Refusal::Range),
            };
            let opened = opens(&mut both, pcr, mcr, icr);
            assert_eq!(opened, expected, "{pcr:x} {mcr:x} {icr:x}");
        }
    }
}

/// Every number of 16 bits as each of the three codes of a cell, forward and backward,
/// read and received (document 02, L7).
#[test]
fn every_code_in_a_cell() {
    let mut both = with_connection();
    for code in 0..=0xFFFF_u16 {
        for (place, dir) in CODES.into_iter().flat_map(|place| [(place, 0), (place, 1)]) {
            let mut octets = good(dir);
            octets[place..place + 2].copy_from_slice(&code.to_be_bytes());
            put_crc(&mut octets);
            let cell = Octets::cell(&octets);
            let expected = refused_code(code.into());
            for call in [Call::Read { cell }, Call::Receive { cell }] {
                assert_eq!(agree(&mut both, &call).err(), expected, "{call:x?}");
            }
        }
    }
}

/// The reserved bit in any of the three codes, of a connection that is open or not, with
/// checks and protocol that are right or not, and in a data cell, which has no codes.
#[test]
fn where_19_comes_in_the_order_of_refusals() {
    let mut both = with_connection();
    let mut answers = |octets: &[u8; CELL_OCTETS]| {
        let cell = Octets::cell(octets);
        let read = agree(&mut both, &Call::Read { cell }).err();
        [read, agree(&mut both, &Call::Receive { cell }).err()]
    };
    for bits in 1..8 {
        for at in [AT, Address::new(AT.vpi, AT.vci + 1)] {
            let mut octets = good(1);
            for (place, octet) in CODES.into_iter().enumerate() {
                octets[octet] |= (bits >> place & 1) << 7;
            }
            put_header(&mut octets, &header(at, 6));
            assert_eq!(answers(&octets), [Some(Refusal::Crc); 2]);
            put_crc(&mut octets);
            assert_eq!(answers(&octets), [Some(Refusal::ReservedBit); 2]); // before 11
            octets[5] = 0;
            put_crc(&mut octets);
            assert_eq!(answers(&octets), [Some(Refusal::Protocol); 2]);
            put_header(&mut octets, &header(at, 2));
            let unknown = (at != AT).then_some(Refusal::NotOpen);
            assert_eq!(answers(&octets), [None, unknown]);
        }
    }
}

#[test]
fn every_parameter_at_and_past_its_ends() {
    type Set = fn(&mut abr_params, u32);
    let ranges: [(Set, u32, u32, Refusal); 8] = [
        (|p, v| p.n = v, 1, 8, Refusal::Range),
        (|p, v| p.r = v, 0, 15, Refusal::Range),
        (|p, v| p.d = v, 0, 15, Refusal::Range),
        (|p, v| p.c = v, 0, 7, Refusal::Range),
        (|p, v| p.tbe = v, 1, 16_777_215, Refusal::Tbe),
        (|p, v| p.frtt = v, 0, 16_700_000, Refusal::Frtt),
        (|p, v| p.adtf = v, 1, 1_023, Refusal::Range),
        (|p, v| p.trm = v, 0, 7, Refusal::Range),
    ];
    for (set, low, high, refusal) in ranges {
        for value in [0, 1, low, high, high + 1, high + 256, 1 << 31, u32::MAX] {
            let house = abr_reference::Params::house(0x7FFF, 0x4000, 0x53E8);
            let mut params = library_params(&house);
            set(&mut params, value);
            let open = Call::Open {
                at: AT,
                time: 0,
                params,
            };
            let outcome = agree(&mut Both::default(), &open).map(|_| ());
            let inside = (low..=high).contains(&value);
            let expected = if inside { Ok(()) } else { Err(refusal) };
            assert_eq!(outcome, expected, "{params:?}");
        }
    }
}

/// Every VPI and every VCI of 16 bits on one, and the first past their ends, as an open
/// takes them and as every cell of the connection carries them (document 02, L6).
#[test]
fn every_vpi_and_every_vci() {
    let vpis = (0..=256).map(|vpi| Address::new(vpi, 0x1234));
    let vcis = (0..=65_536).map(|vci| Address::new(0xA5, vci));
    let mut both = Both::default();
    let params = library_params(&abr_reference::Params::house(0x7FFF, 0x4000, 0x53E8));
    for at in vpis.chain(vcis) {
        let (time, len) = (0, CELL_OCTETS);
        let opened = agree(&mut both, &Call::Open { at, time, params });
        let expected = match at {
            Address { vci: 0..=31, .. } => Err(Refusal::LowVci),
            _ if at.fits() => Ok(FIRST),
            _ => Err(Refusal::Range),
        };
        assert_eq!(opened, expected, "{at:?}");
        let outside = agree(&mut both, &Call::OutOfRate { at, time, len });
        assert_eq!(outside.is_ok(), opened.is_ok(), "{at:?}");
        let closed = agree(&mut both, &Call::Close { at });
        assert_eq!(closed.is_ok(), opened.is_ok(), "{at:?}");
        let rm = abr_rm {
            vpi: at.vpi,
            vci: at.vci,
            ..abr_rm::default()
        };
        let written = agree(&mut both, &Call::WriteRm { rm, len });
        assert_eq!(written.is_ok(), at.fits(), "{at:?}");
    }
}

/// Pairs of which a number is out of its range. 256 and 0, and 0 and 65,536, would be 1
/// and 0 if their numbers were added; each other would be 0 and 32, 1 and 32, or 255 and
/// 65,535 if its numbers were cut or added.
const OUT_OF_RANGE: [(u32, u32); 9] = [
    (256, 0),
    (256, 32),
    (257, 32),
    (0, 65_536),
    (0, 65_568),
    (1, 65_568),
    (254, 131_071),
    (65_536, 32),
    (u32::MAX, 65_568),
];

/// The pairs that they would be taken for, open, and level 1.
fn with_pairs(params: abr_params) -> Both {
    let mut both = Both::default();
    for (vpi, vci) in [(0, 32), (1, 32), (255, 65_535)] {
        let at = Address::new(vpi, vci);
        let open = Call::Open {
            at,
            time: 0,
            params,
        };
        assert!(agree(&mut both, &open).is_ok());
    }
    assert!(agree(&mut both, &Call::SetLevel { level: 1 }).is_ok());
    both
}

/// Every call that names a connection, with each of them (document 02, L6).
#[test]
fn a_pair_out_of_range_is_never_another_pair() {
    let params = library_params(&abr_reference::Params::house(0x7FFF, 0x4000, 0x53E8));
    let (time, len, cells) = (0, CELL_OCTETS, 1);
    let mut both = with_pairs(params);
    for (vpi, vci) in OUT_OF_RANGE {
        let at = Address::new(vpi, vci);
        let opened = agree(&mut both, &Call::Open { at, time, params });
        let expected = match vci {
            0..32 => Refusal::LowVci,
            _ => Refusal::Range,
        };
        assert_eq!(opened, Err(expected), "{at:?}");
        let calls = [
            Call::Close { at },
            Call::Offer { at, cells },
            Call::Make { at, time },
            Call::OutOfRate { at, time, len },
            Call::Acr { at },
            Call::Export { at },
        ];
        for call in calls {
            assert_eq!(agree(&mut both, &call), Err(Refusal::NotOpen), "{call:?}");
        }
        let rm = abr_rm {
            vpi,
            vci,
            ..abr_rm::default()
        };
        assert_eq!(
            agree(&mut both, &Call::WriteRm { rm, len }),
            Err(Refusal::Range),
            "{at:?}"
        );
    }
}

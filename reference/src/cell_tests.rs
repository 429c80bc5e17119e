//! Tests of the header check, the CRC-10, writing, reading and turning.

use super::*;

/// A change to the fields of an RM cell.
type Change = fn(&mut Rm);

/// Sets one field of an RM cell.
type Setter = fn(&mut Rm, u32);

/// A small generator of numbers that look random, the same in every run.
struct Numbers(u64);

impl Numbers {
    fn next(&mut self) -> u64 {
        self.0 = self.0.wrapping_mul(6_364_136_223_846_793_005);
        self.0 = self.0.wrapping_add(1_442_695_040_888_963_407);
        self.0 >> 32
    }
}

/// An RM cell with a different value in each field.
fn sample() -> Rm {
    Rm {
        vpi: 0xA5,
        vci: 0x1234,
        dir: 1,
        bn: 0,
        ci: 1,
        ni: 0,
        ra: 1,
        er: 0x7FFF,
        ccr: 0x53E8,
        mcr: 0x4001,
        ql: 0x0102_0304,
        sn: 0xF1F2_F3F4,
    }
}

/// A data cell with these header fields and a right check.
fn header(gfc: u32, vpi: u32, vci: u32, payload_type: u32, clp: u32) -> Octets {
    let mut cell = [0; LENGTH];
    let word = gfc << 28 | vpi << 20 | vci << 4 | payload_type << 1 | clp;
    cell[..4].copy_from_slice(&word.to_be_bytes());
    cell[4] = header_check(&cell[..4]);
    cell
}

/// The sample cell after a change, with right checks.
fn changed(change: fn(&mut Octets)) -> Octets {
    let mut cell = rm_octets(&sample());
    change(&mut cell);
    cell[4] = header_check(&cell[..4]);
    put_crc(&mut cell);
    cell
}

/// Long division, bit by bit, of the 374 bits before the CRC-10.
fn divided(cell: &Octets) -> u16 {
    let bits = (0..374).map(|i| (cell[5 + i / 8] >> (7 - i % 8)) & 1);
    let mut rest = 0u16;
    for bit in bits.chain(std::iter::repeat_n(0, 10)) {
        rest = rest << 1 | u16::from(bit);
        if rest & 0x400 != 0 {
            rest ^= 0x633;
        }
    }
    rest
}

#[test]
fn published_check_values() {
    assert_eq!(crc10(b"123456789"), 0x199);
    assert_eq!(crc8(b"123456789"), 0xF4);
    assert_eq!(header_check(b"123456789"), 0xA1);
    assert_eq!(crc10(&[]), 0);
    assert_eq!(crc8(&[]), 0);
}

#[test]
fn headers_of_i_432() {
    let check = |last| header_check(&[0, 0, 0, last]);
    assert_eq!(check(0x01), 0x52); // idle cell, starred
    assert_eq!(check(0x00), 0x55); // unassigned cell
    assert_eq!(check(0x03), 0x5C); // physical layer OAM, F1
    assert_eq!(check(0x05), 0x4E); // physical layer OAM, F2
    assert_eq!(check(0x09), 0x6A); // physical layer OAM, F3
}

#[test]
fn header_check_by_long_division() {
    let mut numbers = Numbers(1);
    for _ in 0..2_000 {
        let word = numbers.next() as u32;
        let mut rest = u64::from(word) << 8;
        for bit in (8..40).rev() {
            if rest & (1 << bit) != 0 {
                rest ^= 0x107 << (bit - 8);
            }
        }
        assert_eq!(header_check(&word.to_be_bytes()), rest as u8 ^ 0x55);
    }
}

#[test]
fn crc_by_long_division() {
    let mut numbers = Numbers(2);
    for _ in 0..2_000 {
        let mut cell = [0; LENGTH];
        cell.fill_with(|| numbers.next() as u8);
        assert_eq!(payload_crc(&cell), divided(&cell));
        put_crc(&mut cell);
        assert_eq!(carried_crc(&cell), divided(&cell));
        assert_eq!(crc10(&cell[5..]), 0); // the remainder of a whole payload is 0
    }
}

#[test]
fn the_place_of_each_field() {
    let mut cell = [0; LENGTH];
    assert_eq!(write_rm(&sample(), &mut cell), Ok(()));
    assert_eq!(cell[..4], [0x0A, 0x51, 0x23, 0x4C]);
    assert_eq!(cell[4], header_check(&cell[..4]));
    assert_eq!(cell[5], 1);
    assert_eq!(cell[6], 0b1010_1000);
    assert_eq!(cell[7..13], [0x7F, 0xFF, 0x53, 0xE8, 0x40, 0x01]);
    assert_eq!(cell[13..17], [1, 2, 3, 4]);
    assert_eq!(cell[17..21], [0xF1, 0xF2, 0xF3, 0xF4]);
    assert_eq!(cell[21..51], [0x6A; 30]);
    assert_eq!(cell[51] >> 2, 0);
    assert_eq!(carried_crc(&cell), divided(&cell));
}

#[test]
fn each_bit_alone() {
    let cases: [(Change, u8); 5] = [
        (|rm| rm.dir = 1, 0x80),
        (|rm| rm.bn = 1, 0x40),
        (|rm| rm.ci = 1, 0x20),
        (|rm| rm.ni = 1, 0x10),
        (|rm| rm.ra = 1, 0x08),
    ];
    for (set, octet) in cases {
        let mut rm = Rm::default();
        set(&mut rm);
        let mut cell = [0; LENGTH];
        write_rm(&rm, &mut cell).unwrap();
        assert_eq!(cell[6], octet);
        assert_eq!(read(&cell), Ok(Cell::Rm(rm)));
    }
}

#[test]
fn what_is_written_is_read() {
    let mut numbers = Numbers(3);
    for _ in 0..2_000 {
        let mut below = |limit: u64| (numbers.next() % limit) as u32;
        let rm = Rm {
            vpi: below(256),
            vci: below(65_536),
            dir: below(2),
            bn: below(2),
            ci: below(2),
            ni: below(2),
            ra: below(2),
            er: below(32_768),
            ccr: below(32_768),
            mcr: below(32_768),
            ql: below(1 << 32),
            sn: below(1 << 32),
        };
        let mut cell = [0xFF; LENGTH];
        write_rm(&rm, &mut cell).unwrap();
        assert_eq!(read(&cell), Ok(Cell::Rm(rm)));
    }
}

#[test]
fn fields_too_large_to_write_are_refused_with_7() {
    let cases: [(Setter, u32); 10] = [
        (|rm, v| rm.vpi = v, 255),
        (|rm, v| rm.vci = v, 65_535),
        (|rm, v| rm.dir = v, 1),
        (|rm, v| rm.bn = v, 1),
        (|rm, v| rm.ci = v, 1),
        (|rm, v| rm.ni = v, 1),
        (|rm, v| rm.ra = v, 1),
        (|rm, v| rm.er = v, 0x7FFF),
        (|rm, v| rm.ccr = v, 0x7FFF),
        (|rm, v| rm.mcr = v, 0x7FFF),
    ];
    for (set, largest) in cases {
        let answer = |value| {
            let mut rm = sample();
            set(&mut rm, value);
            let mut cell = [0xA5; LENGTH];
            let answer = write_rm(&rm, &mut cell);
            assert_eq!(answer.is_err(), cell == [0xA5; LENGTH]);
            answer
        };
        assert_eq!(answer(0), Ok(()));
        assert_eq!(answer(largest), Ok(()));
        assert_eq!(answer(largest + 1), Err(Refusal::Range));
        assert_eq!(answer(u32::MAX), Err(Refusal::Range));
    }
}

#[test]
fn writing_tests_1_before_7() {
    let bad = Rm { ci: 2, ..sample() };
    for length in [0, 52, 54] {
        let mut buffer = vec![0xA5; length];
        assert_eq!(write_rm(&bad, &mut buffer), Err(Refusal::Length));
        assert_eq!(write_rm(&sample(), &mut buffer), Err(Refusal::Length));
        assert!(buffer.iter().all(|octet| *octet == 0xA5));
    }
    assert_eq!(write_rm(&bad, &mut [0; LENGTH]), Err(Refusal::Range));
}

#[test]
fn low_vcis_are_written_and_read() {
    let rm = Rm { vci: 5, ..sample() };
    assert_eq!(read(&rm_octets(&rm)), Ok(Cell::Rm(rm)));
}

#[test]
fn data_cells_and_other_payload_types() {
    let vpis = [0, 1, 0x80, 0xFF].into_iter();
    for (payload_type, vpi) in (0..8).flat_map(|pt| vpis.clone().map(move |vpi| (pt, vpi))) {
        let expected = match payload_type {
            0 | 1 => Ok(Cell::Data {
                vpi,
                vci: 77,
                efci: false,
            }),
            2 | 3 => Ok(Cell::Data {
                vpi,
                vci: 77,
                efci: true,
            }),
            6 => Err(Refusal::Protocol), // CRC right, since all is 0, but the protocol is not 1
            _ => Err(Refusal::PayloadType),
        };
        assert_eq!(read(&header(0, vpi, 77, payload_type, 0)), expected);
        assert_eq!(read(&header(15, vpi, 77, payload_type, 1)), expected);
    }
}

#[test]
fn the_payload_of_data_is_not_checked() {
    let mut cell = header(0, 9, 32, 2, 0);
    cell[5..].fill(0xEE);
    assert_eq!(
        read(&cell),
        Ok(Cell::Data {
            vpi: 9,
            vci: 32,
            efci: true
        })
    );
}

#[test]
fn gfc_clp_and_reserved_bits_are_ignored() {
    let cell = changed(|cell| {
        cell[0] |= 0xF0;
        cell[3] |= 1;
        cell[6] |= 7;
        cell[21..51].fill(0x99);
        cell[51] |= 0xFC;
    });
    assert_eq!(read(&cell), Ok(Cell::Rm(sample())));
}

#[test]
fn the_order_of_refusals_when_reading() {
    let mut cell = rm_octets(&sample());
    cell[5] = 2; // 6, and 5 as the CRC is unchanged
    assert_eq!(read(&cell), Err(Refusal::Crc));
    put_crc(&mut cell);
    assert_eq!(read(&cell), Err(Refusal::Protocol));
    cell[52] ^= 1;
    let mut other = header(0, 0, 0x1234, 5, 0);
    other[5..].copy_from_slice(&cell[5..]);
    assert_eq!(read(&other), Err(Refusal::PayloadType));
    for vpi in [1, 0x10, 0x80, 0xFF] {
        other[..5].copy_from_slice(&header(0, vpi, 0x1234, 5, 0)[..5]);
        assert_eq!(read(&other), Err(Refusal::PayloadType)); // 3 is withdrawn
    }
    other[4] ^= 0x80;
    assert_eq!(read(&other), Err(Refusal::HeaderCheck));
    assert_eq!(read(&other[..52]), Err(Refusal::Length));
    assert_eq!(read(&[]), Err(Refusal::Length));
    assert_eq!(read(&[0; 54]), Err(Refusal::Length));
}

#[test]
fn every_single_wrong_bit_is_refused() {
    for bit in 0..LENGTH * 8 {
        let mut cell = rm_octets(&sample());
        cell[bit / 8] ^= 0x80 >> (bit % 8);
        let expected = if bit < 40 {
            Refusal::HeaderCheck
        } else {
            Refusal::Crc
        };
        assert_eq!(read(&cell), Err(expected));
    }
}

#[test]
fn turning_keeps_marks_and_every_other_bit() {
    let cell = changed(|cell| {
        cell[0] |= 0xF0;
        cell[3] |= 1;
        cell[6] = 0b0111_1101;
        cell[21..51].fill(0x99);
        cell[51] |= 0xFC;
    });
    let turned = turn(&cell, sample().address(), false, false);
    assert_eq!(turned[..5], rm_octets(&sample())[..5]);
    assert_eq!(turned[5], 1);
    assert_eq!(turned[6], 0b1011_1101);
    assert_eq!(turned[7..51], cell[7..51]);
    assert_eq!(turned[51] >> 2, 0x3F);
    assert_eq!(carried_crc(&turned), divided(&turned));
    assert!(read(&turned).is_ok());
}

#[test]
fn turning_sets_marks() {
    let rm = Rm {
        vci: 40,
        ..Rm::default()
    };
    let marks = |ci, ni| turn(&rm_octets(&rm), rm.address(), ci, ni)[6];
    assert_eq!(marks(false, false), 0x80);
    assert_eq!(marks(true, false), 0xA0);
    assert_eq!(marks(false, true), 0x90);
    assert_eq!(marks(true, true), 0xB0);
}

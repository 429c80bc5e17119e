//! The lines of the program `vectors`, computed by the reference alone, and
//! compared with the file that the proved program's output is compared with.
//!
//! Nothing here comes from the proved crates: the rows say what is computed,
//! and every result is the reference's. Rates and times are in decimal, all
//! other numbers in hexadecimal.

use abr_reference::cell::{self, Cell, Octets, Rm};
use abr_reference::connection::RateRecord;
use abr_reference::params::{Contract, FRTT_MAX, TBE_MAX, TRM_TIMES};
use abr_reference::{code_of, gap, rate_of, read, write_rm, Address, Params, Refusal};

/// What the proved program must write.
const EXPECTED: &str = include_str!("../../crates/check_vectors/stdout");

type Lines = Vec<String>;

#[test]
fn the_proved_program_prints_what_the_reference_computes() {
    let sections = [coded, moved, params, checks, cells, changes, turning];
    let lines: Lines = sections.iter().flat_map(|section| section()).collect();
    for (line, expected) in lines.iter().zip(EXPECTED.lines()) {
        assert_eq!(line, expected);
    }
    assert_eq!(lines.len(), EXPECTED.lines().count());
}

/// Rates or times, a space after each.
fn decimal(numbers: &[u64]) -> String {
    numbers.iter().map(|x| format!("{x} ")).collect()
}

/// Other numbers, a space after each.
fn hex(numbers: &[u32]) -> String {
    numbers.iter().map(|x| format!("{x:02x} ")).collect()
}

/// Octets, a space after each.
fn octets(octets: &[u8]) -> String {
    octets.iter().map(|x| format!("{x:02x} ")).collect()
}

/// The rate of a code and the gap at an allowed rate; then the code of a rate
/// and 0, or 0 and its refusal.
fn coded() -> Lines {
    let largest = 2_196_875_771_904;
    let rows = [
        (0x4000, 512_000, 512_000),
        (0x7FFF, 1536, 1023),
        (0x5FFF, 512, 1025),
        (0x3FFF, largest, 511),
        (0x0000, 512, 0),
        (0x53E8, 512, 512),
        (0x41FF, 512, largest),
        (0x4200, 512, largest + 1),
    ];
    let mut lines = Lines::new();
    for (code, acr, rate) in rows {
        let gap = gap(acr).expect("an allowed rate above 0");
        lines.push(decimal(&[rate_of(code), gap]));
        lines.push(match code_of(rate) {
            Ok(code) => hex(&[code, 0]),
            Err(refusal) => hex(&[0, refusal.number()]),
        });
    }
    lines
}

/// The rates of the three codes and the initial rate that is used; then the numbers and CRM;
/// then whether an open takes TBE, FRTT and all the others, each by itself.
fn parameters(p: &Params) -> [String; 3] {
    let [pcr, mcr, icr] = [p.pcr, p.mcr, p.icr].map(rate_of);
    let others = p.check();
    assert!(others.is_ok_and(|rates| rates == (pcr, mcr, icr)) || others == Err(Refusal::Range));
    let tbe = (1..=TBE_MAX).contains(&p.tbe);
    let frtt = p.frtt <= FRTT_MAX;
    [
        decimal(&[pcr, mcr, icr, p.icr_used(mcr, icr)]),
        hex(&[p.n, p.r, p.d, p.c, p.tbe, p.frtt, p.adtf, p.trm, p.crm()]),
        hex(&[others.is_ok(), tbe, frtt].map(u32::from)),
    ]
}

/// PCR, MCR and ICR of a house set.
const HOUSE: [(u32, u32, u32); 5] = [
    (0x53E8, 0x4000, 0x4200),
    (0x53E8, 0x0000, 0x4200),
    (0x53E8, 0x4200, 0x4000),
    (0x4000, 0x4000, 0x4200),
    (0x153E8, 0x4000, 0x4200),
];

/// n, r, d, c, ADTF and the Trm number.
const NUMBERS: [[u32; 6]; 10] = [
    [1, 0, 0, 0, 1, 0],
    [8, 15, 15, 7, 1023, 7],
    [0, 4, 4, 4, 50, 7],
    [9, 4, 4, 4, 50, 7],
    [5, 16, 4, 4, 50, 7],
    [5, 4, 16, 4, 50, 7],
    [5, 4, 4, 8, 50, 7],
    [5, 4, 4, 4, 0, 7],
    [5, 4, 4, 4, 1024, 7],
    [5, 4, 4, 4, 50, 8],
];

/// n, TBE and FRTT.
const SETUPS: [(u32, u32, u32); 12] = [
    (1, 16_777_215, 0),
    (8, 1, 16_700_000),
    (5, 0, 1),
    (5, 16_777_216, 1),
    (5, 1, 16_700_001),
    (5, 32, 33_000),
    (5, 33, 33_000),
    (5, 33, 33_001),
    (5, 1, 1_000_000),
    (5, 1, 1_000_001),
    (31, u32::MAX, u32::MAX),
    (32, u32::MAX, 1),
];

fn params() -> Lines {
    let mut lines = Lines::new();
    for (pcr, mcr, icr) in HOUSE {
        lines.extend(parameters(&Params::house(pcr, mcr, icr)));
    }
    for [n, r, d, c, adtf, trm] in NUMBERS {
        let house = Params::house(0x53E8, 0x4000, 0x4200);
        lines.extend(parameters(&Params {
            n,
            r,
            d,
            c,
            adtf,
            trm,
            ..house
        }));
    }
    for (n, tbe, frtt) in SETUPS {
        let house = Params::house(0x53E8, 0x4000, 0x53E8);
        lines.extend(parameters(&Params {
            n,
            tbe,
            frtt,
            ..house
        }));
    }
    lines.push(decimal(&TRM_TIMES[..4]));
    lines.push(decimal(&TRM_TIMES[4..]));
    lines
}

/// Allowed rate, time since the last forward cell, c, Y, PCR; CI, NI and ER of a backward cell.
type Move = (u64, u64, u32, u32, u32, bool, bool, u32);

#[rustfmt::skip] // a row to a line
const MOVES: [Move; 12] = [
    (1000, 500_000_000, 4, 524_287, 0x7FFF, true, false, 0x7FFF),
    (500_000, 500_000_000, 4, 524_287, 0x53E8, false, false, 0x7FFF),
    (512_000, 500_000_000, 4, 524_287, 0x7FFF, true, false, 0x5120),
    (512_000, 500_000_001, 4, 524_288, 0x7FFF, true, false, 0x5120),
    (512_000, 500_000_001, 7, 524_288, 0x7FFF, true, false, 0x5120),
    (600, 500_000_001, 4, 524_288, 0x7FFF, true, false, 0x5120),
    (520, 500_000_001, 4, 8_388_608, 0x53E8, true, false, 0x7FFF),
    (400_000, 0, 4, 0, 0x53E8, false, false, 0x7FFF),
    (400_000, 0, 4, 0, 0x53E8, false, true, 0x7FFF),
    (400_000, 0, 4, 0, 0x53E8, false, true, 0x5120),
    (400_000, 0, 4, 0, 0x53E8, false, false, 0x0000),
    (1000, 0, 4, 0, 0x53E8, true, true, 0x7FFF),
];

/// The house set with MCR 512, ICR 1,024 and another c: the allowed rate as
/// opened, and what each move makes of this one.
fn moved() -> Lines {
    let line = |(acr, passed, c, y, pcr, ci, ni, er): Move| {
        let house = Params::house(pcr, 0x4000, 0x4200).contract().unwrap();
        let contract = Contract { c, ..house };
        let record = RateRecord { acr, contract };
        let moved = [
            RateRecord::new(contract),
            record.first_cell(),
            record.idle(passed),
            record.unanswered(y),
            record.feedback(ci, ni, rate_of(er)),
        ];
        decimal(&moved.map(|record| record.acr))
    };
    MOVES.map(line).to_vec()
}

/// Octet 5 of four headers, and the checks of "123456789".
fn checks() -> Lines {
    let headers = [0x00, 0x01, 0x03, 0x09].map(|d| cell::header_check(&[0, 0, 0, d]));
    let crc8 = cell::crc8(b"123456789") ^ 0x55;
    let crc10 = cell::crc10(b"123456789");
    vec![
        octets(&headers) + &octets(&[crc8]),
        hex(&[u32::from(crc10)]),
    ]
}

/// Fields in which each differs from its neighbours.
fn sample() -> Rm {
    Rm {
        vpi: 0xA5,
        vci: 0x1234,
        ra: 1,
        er: 0x7FFF,
        ccr: 0x53E8,
        mcr: 0x4000,
        ql: 0x0123_4567,
        sn: 0x89AB_CDEF,
        ..Rm::default()
    }
}

/// Every field at its most.
fn most() -> Rm {
    Rm {
        vpi: 255,
        vci: 65_535,
        dir: 1,
        bn: 1,
        ci: 1,
        ni: 1,
        ra: 1,
        er: 0x7FFF,
        ccr: 0x7FFF,
        mcr: 0x7FFF,
        ql: u32::MAX,
        sn: u32::MAX,
    }
}

/// The octets, and what reading them gives: a refusal, a data cell's VPI, VCI and
/// EFCI, or an RM cell's fields, the VPI before the VCI.
fn reading(cell: &[u8]) -> [String; 2] {
    let got = match read(cell) {
        Err(refusal) => hex(&[refusal.number()]),
        Ok(Cell::Data { vpi, vci, efci }) => hex(&[vpi, vci, u32::from(efci)]),
        Ok(Cell::Rm(rm)) => {
            let bits = [rm.dir, rm.bn, rm.ci, rm.ni, rm.ra];
            let rest = [rm.er, rm.ccr, rm.mcr, rm.ql, rm.sn];
            hex(&[rm.vpi, rm.vci]) + &hex(&bits) + &hex(&rest)
        }
    };
    [octets(cell), got]
}

/// The refusal of a write, or 0.
fn refusal(rm: &Rm, buffer: &mut [u8]) -> u32 {
    match write_rm(rm, buffer) {
        Ok(()) => 0,
        Err(refusal) => refusal.number(),
    }
}

/// Fields written into 52 octets and into 53, and what reading the 53 gives;
/// then 52 and 54 octets read.
fn cells() -> Lines {
    let er = Rm {
        er: 0x8000,
        ..sample()
    };
    let ci = Rm { ci: 2, ..sample() };
    let vci = Rm {
        vci: 65_536,
        ..sample()
    };
    let vpi = Rm {
        vpi: 256,
        ..sample()
    };
    let mut lines = Lines::new();
    for rm in [sample(), most(), er, ci, vci, vpi] {
        let mut cell = [0; 53];
        let first = refusal(&rm, &mut [0; 52]);
        let second = refusal(&rm, &mut cell);
        lines.push(hex(&[first, second]));
        lines.extend(reading(&cell));
    }
    lines.extend(reading(&[0; 52]));
    lines.extend(reading(&[0; 54]));
    lines
}

/// Gives a cell the CRC-10 of its payload's first 374 bits, divided bit by bit.
fn put_crc(cell: &mut Octets) {
    let mut rest = 0;
    for i in 0..384 {
        let octet = u32::from(cell[5 + i / 8]);
        let bit = if i < 374 { octet >> (7 - i % 8) & 1 } else { 0 };
        rest = rest << 1 | bit;
        if rest & 0x400 != 0 {
            rest ^= 0x633;
        }
    }
    cell[51] = cell[51] & 0xFC | (rest >> 8) as u8;
    cell[52] = rest as u8;
}

/// A VCI, octet 4, an index and the octet there.
const CHANGES: [(u32, u8, usize, u8); 22] = [
    (0x1234, 0x4C, 4, 0x00),
    (0x1234, 0x4C, 0, 0x10),
    (0x1234, 0x4C, 1, 0x11),
    (0x1234, 0x4C, 0, 0x08),
    (0x1234, 0x48, 0, 0x00),
    (0x1234, 0x4A, 0, 0x00),
    (0x1234, 0x4E, 0, 0x00),
    (0x1234, 0x4C, 5, 0x02),
    (0x1234, 0x4C, 29, 0x6B),
    (0x1234, 0x4C, 52, 0x00),
    (0x1234, 0x4C, 7, 0xFF),
    (0x1234, 0x4C, 9, 0xD3),
    (0x1234, 0x4C, 11, 0xC0),
    (0x1234, 0x4C, 0, 0xF0),
    (0x1234, 0x4D, 0, 0x00),
    (0x1234, 0x4C, 6, 0x0F),
    (0x1234, 0x4C, 21, 0x00),
    (0x1234, 0x4C, 51, 0xFC),
    (42, 0xA0, 5, 0x00),
    (42, 0xA2, 5, 0x00),
    (42, 0xA4, 5, 0x00),
    (42, 0xA6, 5, 0x00),
];

/// The sample on VPI 0 and a VCI with another octet 4, and another octet at an
/// index: read as it is, then with octet 5 right, then with the CRC-10 right too.
fn changes() -> Lines {
    let mut lines = Lines::new();
    for (vci, d, index, x) in CHANGES {
        let mut cell = [0; 53];
        let rm = Rm {
            vpi: 0,
            vci,
            ..sample()
        };
        write_rm(&rm, &mut cell).unwrap();
        cell[3] = d;
        cell[index] = x;
        lines.extend(reading(&cell));
        cell[4] = cell::header_check(&cell[..4]);
        lines.extend(reading(&cell));
        put_crc(&mut cell);
        lines.extend(reading(&cell));
    }
    lines
}

/// A forward cell as received, with these bits in octet 7 and others that are
/// to stay: the three rates, a reserved octet, the six reserved bits.
fn received(marks: u8) -> Octets {
    let mut cell = [0x6A; 53];
    cell[..4].copy_from_slice(&[0x0A, 0x51, 0x23, 0x4C]);
    cell[4] = cell::header_check(&cell[..4]);
    cell[5..13].copy_from_slice(&[0x01, marks, 0x7F, 0xFF, 0x53, 0xE8, 0x40, 0x00]);
    cell[13..21].copy_from_slice(&[0x01, 0x23, 0x45, 0x67, 0x89, 0xAB, 0xCD, 0xEF]);
    cell[33] = 0x00;
    cell[51] = 0xFC;
    put_crc(&mut cell);
    cell
}

fn turning() -> Lines {
    let levels = [
        (0, false),
        (0, true),
        (1, false),
        (1, true),
        (2, false),
        (2, true),
    ];
    let mut lines = Lines::new();
    for octet in [0x00, 0x4F, 0x30, 0x5F] {
        for (level, efci) in levels {
            let ci = efci || level == 2;
            let back = cell::turn(&received(octet), Address::new(0xA5, 0x1234), ci, level == 1);
            lines.extend(reading(&back));
        }
    }
    lines
}

//! The cell of 53 octets (document 01, "The cell, 53 octets", and "Turning
//! cells round"; the reserved bit of its rate codes, document 02, L7).
//!
//! Octets are counted from 1 in the document and from 0 here.

use crate::address::{Address, VCI_MAX, VPI_MAX};
use crate::rate::{is_reserved, MAX_CODE};
use crate::refusal::Refusal;

/// The octets of a cell.
pub const LENGTH: usize = 53;

/// A cell that is known to have the right length.
pub type Octets = [u8; LENGTH];

const PAYLOAD_TYPE_RM: u32 = 6;
const PROTOCOL_ABR: u8 = 1;
const FILLER: u8 = 0x6A;

/// The octet after the header's four, its check.
const HEADER_CHECK: usize = 4;
/// The first octet of the payload, the protocol.
const PROTOCOL: usize = 5;
const BITS: usize = 6;
const ER: usize = 7;
const CCR: usize = 9;
const MCR: usize = 11;
const QL: usize = 13;
const SN: usize = 17;
const RESERVED: usize = 21;
/// Six reserved bits and the two top bits of the CRC-10.
const CRC_HIGH: usize = 51;
/// The eight low bits of the CRC-10.
const CRC_LOW: usize = 52;

/// In the last of the header's four octets.
const CLP_BIT: u8 = 0x01;

const DIR_BIT: u8 = 0x80;
const BN_BIT: u8 = 0x40;
const CI_BIT: u8 = 0x20;
const NI_BIT: u8 = 0x10;
const RA_BIT: u8 = 0x08;

/// The fields of an RM cell that the write call takes and the read call gives.
#[derive(Debug, Clone, Copy, PartialEq, Eq, Default)]
pub struct Rm {
    /// The connection, by both numbers.
    pub vpi: u32,
    pub vci: u32,
    /// 1 in a backward cell.
    pub dir: u32,
    /// 1 in a cell that no source made.
    pub bn: u32,
    /// Congestion.
    pub ci: u32,
    /// No increase.
    pub ni: u32,
    /// Carried, without a meaning here.
    pub ra: u32,
    /// Code of the explicit rate.
    pub er: u32,
    /// Code of the current rate.
    pub ccr: u32,
    /// Code of the minimum rate.
    pub mcr: u32,
    /// Carried, without a meaning here.
    pub ql: u32,
    /// Carried, without a meaning here.
    pub sn: u32,
}

impl Rm {
    /// The connection.
    pub fn address(&self) -> Address {
        Address::new(self.vpi, self.vci)
    }
}

/// What reading a cell gives.
#[derive(Debug, Clone, Copy, PartialEq, Eq)]
pub enum Cell {
    /// User data with its congestion mark.
    Data {
        /// The connection, by both numbers.
        vpi: u32,
        vci: u32,
        /// The congestion mark.
        efci: bool,
    },
    /// A resource management cell, forward or backward.
    Rm(Rm),
}

impl Cell {
    /// The connection of either sort.
    pub fn address(&self) -> Address {
        match self {
            Cell::Data { vpi, vci, .. } => Address::new(*vpi, *vci),
            Cell::Rm(rm) => rm.address(),
        }
    }
}

/// The remainders of each octet times x^8 by x^8+x^2+x+1.
const CRC8_TABLE: [u8; 256] = {
    let mut table = [0; 256];
    let mut octet = 0;
    while octet < 256 {
        table[octet] = remainder(octet as u32, 8, 0x107) as u8;
        octet += 1;
    }
    table
};

/// The remainders of each octet times x^10 by x^10+x^9+x^5+x^4+x+1.
const CRC10_TABLE: [u16; 256] = {
    let mut table = [0; 256];
    let mut octet = 0;
    while octet < 256 {
        table[octet] = remainder(octet as u32, 10, 0x633) as u16;
        octet += 1;
    }
    table
};

/// The remainder of an octet times x^degree by a polynomial of that degree,
/// by long division.
const fn remainder(octet: u32, degree: u32, polynomial: u32) -> u32 {
    let mut rest = octet << degree;
    let mut bit = 8;
    while bit > 0 {
        bit -= 1;
        if rest & (1 << (degree + bit)) != 0 {
            rest ^= polynomial << bit;
        }
    }
    rest
}

/// The remainder of the octets times x^8 by x^8+x^2+x+1, starting from 0.
pub fn crc8(octets: &[u8]) -> u8 {
    octets
        .iter()
        .fold(0, |crc, octet| CRC8_TABLE[usize::from(crc ^ octet)])
}

/// What octet 5 must be after these four octets (ITU-T I.432).
pub fn header_check(header: &[u8]) -> u8 {
    crc8(header) ^ 0x55
}

/// The remainder of the octets times x^10 by x^10+x^9+x^5+x^4+x+1, starting
/// from 0.
pub fn crc10(octets: &[u8]) -> u16 {
    octets.iter().fold(0, |crc, octet| {
        let index = usize::from((crc >> 2) as u8 ^ octet);
        ((crc << 8) & 0x3FF) ^ CRC10_TABLE[index]
    })
}

/// The CRC-10 that belongs in a cell: that of the 46 octets of payload before
/// the last two, then of the six reserved bits.
fn payload_crc(cell: &Octets) -> u16 {
    let crc = crc10(&cell[PROTOCOL..CRC_HIGH]);
    let six = u16::from(cell[CRC_HIGH] >> 2);
    let index = usize::from((crc >> 4) ^ six);
    ((crc << 6) & 0x3FF) ^ CRC10_TABLE[index]
}

/// The CRC-10 that a cell carries.
fn carried_crc(cell: &Octets) -> u16 {
    u16::from(cell[CRC_HIGH] & 3) << 8 | u16::from(cell[CRC_LOW])
}

/// Gives a cell the CRC-10 that belongs in it; the reserved bits are unchanged.
fn put_crc(cell: &mut Octets) {
    let crc = payload_crc(cell);
    cell[CRC_HIGH] = (cell[CRC_HIGH] & 0xFC) | (crc >> 8) as u8;
    cell[CRC_LOW] = crc as u8;
}

/// Gives a cell the header of an RM cell: GFC and CLP are 0.
fn put_rm_header(cell: &mut Octets, at: Address) {
    let header = (at.vpi << 20) | (at.vci << 4) | (PAYLOAD_TYPE_RM << 1);
    cell[..HEADER_CHECK].copy_from_slice(&header.to_be_bytes());
    cell[HEADER_CHECK] = header_check(&cell[..HEADER_CHECK]);
}

/// Sets CLP in a cell, with a new header check.
pub(crate) fn set_clp(cell: &mut Octets) {
    cell[HEADER_CHECK - 1] |= CLP_BIT;
    cell[HEADER_CHECK] = header_check(&cell[..HEADER_CHECK]);
}

/// Writes an RM cell into a buffer. Refusals: 1, 7.
pub fn write_rm(rm: &Rm, buffer: &mut [u8]) -> Result<(), Refusal> {
    let buffer: &mut Octets = buffer.try_into().map_err(|_| Refusal::Length)?;
    let bits = [rm.dir, rm.bn, rm.ci, rm.ni, rm.ra];
    let codes = [rm.er, rm.ccr, rm.mcr];
    let fits = rm.address().fits()
        && bits.iter().all(|bit| *bit <= 1)
        && codes.iter().all(|code| *code <= MAX_CODE);
    if !fits {
        return Err(Refusal::Range);
    }
    *buffer = rm_octets(rm);
    Ok(())
}

/// The octets of an RM cell whose fields are known to be in range.
pub(crate) fn rm_octets(rm: &Rm) -> Octets {
    let mut cell = [0; LENGTH];
    put_rm_header(&mut cell, rm.address());
    cell[PROTOCOL] = PROTOCOL_ABR;
    cell[BITS] = (rm.dir << 7 | rm.bn << 6 | rm.ci << 5 | rm.ni << 4 | rm.ra << 3) as u8;
    cell[ER..CCR].copy_from_slice(&(rm.er as u16).to_be_bytes());
    cell[CCR..MCR].copy_from_slice(&(rm.ccr as u16).to_be_bytes());
    cell[MCR..QL].copy_from_slice(&(rm.mcr as u16).to_be_bytes());
    cell[QL..SN].copy_from_slice(&rm.ql.to_be_bytes());
    cell[SN..RESERVED].copy_from_slice(&rm.sn.to_be_bytes());
    cell[RESERVED..CRC_HIGH].fill(FILLER);
    put_crc(&mut cell);
    cell
}

/// Reads a cell. Refusals: 1, 2, 4, and for RM cells 5, 6, 19.
pub fn read(cell: &[u8]) -> Result<Cell, Refusal> {
    let cell: &Octets = cell.try_into().map_err(|_| Refusal::Length)?;
    if cell[HEADER_CHECK] != header_check(&cell[..HEADER_CHECK]) {
        return Err(Refusal::HeaderCheck);
    }
    let header = double_word(cell, 0);
    let vpi = (header >> 20) & VPI_MAX;
    let vci = (header >> 4) & VCI_MAX;
    let payload_type = (header >> 1) & 7;
    match payload_type {
        0..=3 => Ok(Cell::Data {
            vpi,
            vci,
            efci: payload_type & 2 != 0,
        }),
        PAYLOAD_TYPE_RM => read_rm(cell, Address::new(vpi, vci)).map(Cell::Rm),
        _ => Err(Refusal::PayloadType),
    }
}

/// Reads the payload of an RM cell. Refusals: 5, 6, 19.
fn read_rm(cell: &Octets, at: Address) -> Result<Rm, Refusal> {
    if carried_crc(cell) != payload_crc(cell) {
        return Err(Refusal::Crc);
    }
    if cell[PROTOCOL] != PROTOCOL_ABR {
        return Err(Refusal::Protocol);
    }
    let codes @ [er, ccr, mcr] = [ER, CCR, MCR].map(|at| word(cell, at));
    if codes.into_iter().any(is_reserved) {
        return Err(Refusal::ReservedBit);
    }
    let bit = |mask: u8| u32::from(cell[BITS] & mask != 0);
    Ok(Rm {
        vpi: at.vpi,
        vci: at.vci,
        dir: bit(DIR_BIT),
        bn: bit(BN_BIT),
        ci: bit(CI_BIT),
        ni: bit(NI_BIT),
        ra: bit(RA_BIT),
        er,
        ccr,
        mcr,
        ql: double_word(cell, QL),
        sn: double_word(cell, SN),
    })
}

/// Two octets of a cell as a number.
fn word(cell: &Octets, at: usize) -> u32 {
    u32::from(u16::from_be_bytes([cell[at], cell[at + 1]]))
}

/// Four octets of a cell as a number.
fn double_word(cell: &Octets, at: usize) -> u32 {
    u32::from_be_bytes([cell[at], cell[at + 1], cell[at + 2], cell[at + 3]])
}

/// Whether CI is 1 in an RM cell.
pub fn has_ci(cell: &Octets) -> bool {
    cell[BITS] & CI_BIT != 0
}

/// Writes the code of an explicit rate into an RM cell, with a new CRC-10; all other bits
/// stay.
pub(crate) fn put_er(cell: &mut Octets, er: u32) {
    cell[ER..CCR].copy_from_slice(&(er as u16).to_be_bytes());
    put_crc(cell);
}

/// The backward cell made of a forward RM cell of a connection: DIR set, BN cleared,
/// CI and NI set if `ci` and `ni` say so and else as received, new header and CRC. All
/// other bits of the payload are unchanged, the reserved ones too.
pub fn turn(forward: &Octets, at: Address, ci: bool, ni: bool) -> Octets {
    let mut cell = *forward;
    cell[BITS] = (cell[BITS] | DIR_BIT) & !BN_BIT;
    if ci {
        cell[BITS] |= CI_BIT;
    }
    if ni {
        cell[BITS] |= NI_BIT;
    }
    put_rm_header(&mut cell, at);
    put_crc(&mut cell);
    cell
}

#[cfg(test)]
#[path = "cell_tests.rs"]
mod tests;

//! Cells made octet by octet. The checks are computed by long division, bit by
//! bit, and share no code with the reference or the library.

use abr::CELL_OCTETS;

/// The longest buffer of a list's calls.
pub const LONGEST: usize = 64;

/// Up to 64 octets.
#[derive(Clone, Copy)]
pub struct Octets {
    bytes: [u8; LONGEST],
    len: usize,
}

impl std::fmt::Debug for Octets {
    fn fmt(&self, f: &mut std::fmt::Formatter<'_>) -> std::fmt::Result {
        write!(f, "[{}]", self.len)?;
        self.as_slice()
            .iter()
            .try_for_each(|o| write!(f, " {o:02x}"))
    }
}

impl Octets {
    /// A cell's 53 octets.
    pub fn cell(octets: &[u8; CELL_OCTETS]) -> Self {
        let mut bytes = [0; LONGEST];
        bytes[..CELL_OCTETS].copy_from_slice(octets);
        Octets {
            bytes,
            len: CELL_OCTETS,
        }
    }

    /// The same octets in another length.
    pub fn of_length(mut self, len: usize) -> Self {
        self.len = len.min(LONGEST);
        self
    }

    /// The octets.
    pub fn as_slice(&self) -> &[u8] {
        &self.bytes[..self.len]
    }
}

/// The octets before and after a buffer, which no call may write.
const GUARD: usize = 16;

/// A buffer to be written, filled with one octet, with a guard on both sides.
#[derive(Debug, Clone, Copy, PartialEq, Eq)]
pub struct Buffer {
    bytes: [u8; LONGEST + 2 * GUARD],
}

impl Buffer {
    /// A buffer filled with an octet.
    pub fn new(fill: u8) -> Self {
        Buffer {
            bytes: [fill; LONGEST + 2 * GUARD],
        }
    }

    /// The part that a call may write.
    pub fn octets(&mut self, len: usize) -> &mut [u8] {
        &mut self.bytes[GUARD..GUARD + len]
    }

    /// That part with a cell in it, for a call that writes it in place.
    pub fn cell(&mut self, cell: &Octets) -> &mut [u8] {
        let octets = self.octets(cell.as_slice().len());
        octets.copy_from_slice(cell.as_slice());
        octets
    }
}

/// The five numbers of a header.
#[derive(Debug, Clone, Copy)]
pub struct Header {
    /// Generic flow control, 4 bits.
    pub gfc: u32,
    /// Virtual path, 8 bits.
    pub vpi: u32,
    /// Virtual channel, 16 bits.
    pub vci: u32,
    /// Payload type, 3 bits.
    pub pt: u32,
    /// Cell loss priority, 1 bit.
    pub clp: u32,
}

/// Gives a cell this header with its check.
pub fn put_header(cell: &mut [u8; CELL_OCTETS], header: &Header) {
    let word = header.gfc << 28 | header.vpi << 20 | header.vci << 4 | header.pt << 1 | header.clp;
    cell[..4].copy_from_slice(&word.to_be_bytes());
    let remainder = remainder(&cell[..4], 32, 8, 0x07);
    cell[4] = remainder as u8 ^ 0x55;
}

/// Gives a cell the CRC-10 of its payload; the six reserved bits stay.
pub fn put_crc(cell: &mut [u8; CELL_OCTETS]) {
    let crc = remainder(&cell[5..], 374, 10, 0x233);
    cell[51] = (cell[51] & 0xFC) | (crc >> 8) as u8;
    cell[52] = crc as u8;
}

/// The rate code at a place of a cell, all 16 bits.
pub fn code_at(cell: &[u8], place: usize) -> u32 {
    u32::from(cell[place]) << 8 | u32::from(cell[place + 1])
}

/// Where ER begins in an RM cell.
pub const ER: usize = 7;

/// The remainder of the first `bits` bits times x^degree, by the polynomial
/// x^degree + `low`.
pub fn remainder(octets: &[u8], bits: usize, degree: u32, low: u32) -> u32 {
    let mask = (1 << degree) - 1;
    (0..bits).fold(0, |rest, at| {
        let bit = u32::from(octets[at / 8] >> (7 - at % 8)) & 1;
        let top = rest >> (degree - 1);
        let shifted = (rest << 1) & mask;
        shifted ^ if top ^ bit == 1 { low } else { 0 }
    })
}

#[cfg(test)]
mod tests {
    use super::*;

    #[test]
    fn published_check_values() {
        assert_eq!(remainder(b"123456789", 72, 10, 0x233), 0x199);
        assert_eq!(remainder(b"123456789", 72, 8, 0x07) ^ 0x55, 0xA1);
    }
}

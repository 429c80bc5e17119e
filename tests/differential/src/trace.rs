//! The trace of one connection (document 02, L11): its numbers, and their octets.

/// The places of n and the Trm number, which stand before the cells.
pub const HEAD: usize = 2;
/// The numbers of a cell: time, kind, rate.
pub const CELL: usize = 3;

/// A trace as its numbers.
#[derive(Debug, Clone, PartialEq, Eq)]
pub struct Trace {
    pub numbers: Vec<u64>,
}

impl Trace {
    /// A trace without a cell.
    pub fn new(n: u64, trm: u64) -> Self {
        let numbers = vec![n, trm];
        Trace { numbers }
    }

    /// Adds a cell: the nanoseconds since the one before, its kind and the rate before it.
    pub fn push(&mut self, time: u64, kind: u64, rate: u64) {
        self.numbers.extend([time, kind, rate]);
    }

    /// How many cells it has.
    pub fn cells(&self) -> usize {
        (self.numbers.len() - HEAD) / CELL
    }

    /// The time, the kind and the rate of a cell, counted from 0.
    pub fn cell(&mut self, place: usize) -> &mut [u64] {
        &mut self.numbers[HEAD + CELL * place..][..CELL]
    }

    /// Its octets.
    pub fn octets(&self) -> Vec<u8> {
        let mut octets = Vec::new();
        for number in &self.numbers {
            put(&mut octets, *number);
        }
        octets
    }
}

impl From<&[u64]> for Trace {
    /// Some numbers, which may be a part of a trace.
    fn from(numbers: &[u64]) -> Self {
        let numbers = numbers.to_vec();
        Trace { numbers }
    }
}

/// Adds the octets of a number.
pub fn put(octets: &mut Vec<u8>, mut number: u64) {
    while number > 0x7F {
        octets.push(0x80 | number as u8);
        number >>= 7;
    }
    octets.push(number as u8);
}

#[cfg(test)]
mod tests {
    use super::*;

    #[test]
    fn octets_by_hand() {
        let mut trace = Trace::new(5, 7);
        assert_eq!(trace.octets(), [5, 7]);
        trace.push(0, 1, 127);
        trace.push(128, 3, 512_000);
        let cells = [0, 1, 0x7F, 0x80, 0x01, 3, 0x80, 0xA0, 0x1F];
        assert_eq!(trace.octets(), [&[5, 7][..], &cells].concat());
        assert_eq!((trace.cells(), &trace.cell(1)[..2]), (2, &[128, 3][..]));
        let mut octets = Vec::new();
        put(&mut octets, u64::MAX);
        assert_eq!(octets, [255, 255, 255, 255, 255, 255, 255, 255, 255, 1]);
    }
}

//! The numbers of a trace: groups of seven bits, the low group first, the top bit of an octet
//! set when more follow.

/// The bits of a group.
const GROUP: u32 = 7;
/// Set when more groups follow.
const MORE: u8 = 0x80;

/// Adds the octets of a number.
pub fn put(octets: &mut Vec<u8>, number: u64) {
    let bits = u64::BITS - number.leading_zeros();
    let last = bits.div_ceil(GROUP).max(1) - 1;
    let group = |place: u32| (number >> (GROUP * place)) as u8;
    octets.extend((0..last).map(|place| group(place) | MORE));
    octets.push(group(last));
}

/// Adds the octets of a number that has more than 64 bits, which no judge accepts.
pub fn put_too_large(octets: &mut Vec<u8>) {
    octets.extend([0xFF; 9]);
    octets.push(0x7F);
}

/// Why there is no number.
#[derive(Debug, Clone, Copy, PartialEq, Eq)]
pub enum NoNumber {
    /// Its last group is 0, and not the only one.
    NotShortest,
    /// It has more than 64 bits.
    TooLarge,
    /// The trace ends inside it.
    Ended,
    /// The trace ends before it.
    Missing,
}

/// Reads numbers one after the other.
#[derive(Debug, Clone, Copy)]
pub struct Reader<'a> {
    octets: &'a [u8],
    /// The octets read.
    pub at: usize,
    /// The numbers read or begun.
    pub numbers: u64,
}

impl<'a> Reader<'a> {
    /// At the first octet.
    pub fn new(octets: &'a [u8]) -> Self {
        let (at, numbers) = (0, 0);
        Reader {
            octets,
            at,
            numbers,
        }
    }

    /// Whether no octet is left.
    pub fn ended(&self) -> bool {
        self.at == self.octets.len()
    }

    /// The next number.
    pub fn number(&mut self) -> Result<u64, NoNumber> {
        self.numbers += 1;
        let (begin, mut number) = (self.at, 0);
        loop {
            let place = self.at - begin;
            let Some(octet) = self.octets.get(self.at) else {
                return Err(match place {
                    0 => NoNumber::Missing,
                    _ => NoNumber::Ended,
                });
            };
            self.at += 1;
            match (place, octet) {
                (1.., 0) => return Err(NoNumber::NotShortest),
                (9, 2..) => return Err(NoNumber::TooLarge),
                _ => number |= u64::from(octet & !MORE) << (GROUP * place as u32),
            }
            if octet & MORE == 0 {
                return Ok(number);
            }
        }
    }
}

#[cfg(test)]
mod tests {
    use super::*;

    #[test]
    fn what_is_put_is_read() {
        let near = |bits: u32| [(1u64 << bits) - 1, 1 << bits, (1 << bits) + 1];
        let numbers: Vec<u64> = (0..64).flat_map(near).chain([u64::MAX]).collect();
        let mut octets = Vec::new();
        numbers.iter().for_each(|number| put(&mut octets, *number));
        let mut reader = Reader::new(&octets);
        for number in numbers {
            assert_eq!(reader.number(), Ok(number));
        }
        assert!(reader.ended());
        assert_eq!(reader.number(), Err(NoNumber::Missing));
    }

    #[test]
    fn numbers_that_are_none() {
        let read = |octets: &[u8]| Reader::new(octets).number();
        assert_eq!(read(&[0x85]), Err(NoNumber::Ended));
        assert_eq!(read(&[0x85, 0]), Err(NoNumber::NotShortest));
        assert_eq!(read(&[0; 2]), Ok(0));
        let mut large = Vec::new();
        put_too_large(&mut large);
        assert_eq!(read(&large), Err(NoNumber::TooLarge));
        assert_eq!(read(&[0x80; 10]), Err(NoNumber::TooLarge));
    }
}

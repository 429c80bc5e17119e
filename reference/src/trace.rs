//! The numbers of a trace (document 02, L11): groups of seven bits, the low group first,
//! the top bit of an octet set when more follow, in the shortest form only.

use crate::refusal::Refusal;

/// The bits of a group.
const GROUP: u32 = 7;

/// The groups of a number of 64 bits: nine of seven bits, and one bit in the last.
const GROUPS: u32 = 10;

/// What more groups follow is said by.
const MORE: u8 = 0x80;

/// A trace, as far as it isn't read yet.
#[derive(Debug, Clone, Copy)]
pub struct Reader<'a> {
    rest: &'a [u8],
}

impl<'a> Reader<'a> {
    /// A trace of which nothing is read.
    pub fn new(trace: &'a [u8]) -> Self {
        Reader { rest: trace }
    }

    /// Whether it is read to its end.
    pub fn ended(&self) -> bool {
        self.rest.is_empty()
    }

    /// The next octet. Refusal: 24 if there is none.
    fn octet(&mut self) -> Result<u8, Refusal> {
        let (first, rest) = self.rest.split_first().ok_or(Refusal::TraceEnd)?;
        self.rest = rest;
        Ok(*first)
    }

    /// The next number. Refusals: 24 if the trace ends before its last octet; 23 at its
    /// last octet if that is a group too many, and at its tenth if the number needs more
    /// than the one bit that is left there.
    pub fn number(&mut self) -> Result<u64, Refusal> {
        let mut number = 0;
        for place in 0..GROUPS {
            let octet = self.octet()?;
            let group = u64::from(octet & !MORE);
            let last = octet & MORE == 0;
            let empty = last && group == 0 && place > 0;
            let over = place == GROUPS - 1 && (group > 1 || !last);
            if empty || over {
                return Err(Refusal::TraceNumber);
            }
            number |= group << (GROUP * place);
            if last {
                break;
            }
        }
        Ok(number)
    }

    /// The next number, which must meet a condition. Refusals: those of a number, then 25.
    pub fn number_where(&mut self, in_range: impl Fn(u64) -> bool) -> Result<u64, Refusal> {
        let number = self.number()?;
        if in_range(number) {
            Ok(number)
        } else {
            Err(Refusal::TraceRange)
        }
    }
}

#[cfg(test)]
mod tests {
    use super::*;

    /// The number that some octets are, and how many octets behind it are left.
    fn read(octets: &[u8]) -> Result<(u64, usize), Refusal> {
        let mut reader = Reader::new(octets);
        let number = reader.number()?;
        assert_eq!(reader.ended(), reader.rest.is_empty());
        Ok((number, reader.rest.len()))
    }

    #[test]
    fn numbers_by_hand() {
        assert_eq!(read(&[0]), Ok((0, 0)));
        assert_eq!(read(&[5, 7]), Ok((5, 1)));
        assert_eq!(read(&[0x7F]), Ok((127, 0)));
        assert_eq!(read(&[0x80, 1]), Ok((128, 0)));
        assert_eq!(read(&[0xC0, 0x84, 0x3D, 9, 9]), Ok((1_000_000, 2)));
    }

    #[test]
    fn every_length_has_a_least_and_a_greatest_number() {
        for groups in 1..=9 {
            let mut least = vec![MORE; groups - 1];
            least.push(1);
            let number = 1 << (7 * (groups - 1));
            assert_eq!(read(&least), Ok((number, 0)));
            let mut greatest = vec![0xFF; groups];
            greatest[groups - 1] = 0x7F;
            assert_eq!(read(&greatest), Ok(((1 << (7 * groups)) - 1, 0)));
        }
    }

    #[test]
    fn the_tenth_octet_has_one_bit() {
        let mut octets = [0xFF; 11];
        let mut with = |tenth: u8| {
            octets[9] = tenth;
            read(&octets)
        };
        assert_eq!(with(1), Ok((u64::MAX, 1)));
        for tenth in (0..=255).filter(|tenth| *tenth != 1) {
            assert_eq!(with(tenth), Err(Refusal::TraceNumber), "{tenth:x}");
        }
        assert_eq!(read(&[0x80; 9]), Err(Refusal::TraceEnd));
        assert_eq!(read(&[0x80; 10]), Err(Refusal::TraceNumber)); // seen there, whatever would follow
    }

    #[test]
    fn a_last_group_of_0_is_refused_with_23_but_not_as_the_first() {
        for groups in 1..=9 {
            let mut octets = vec![MORE; groups];
            assert_eq!(read(&octets), Err(Refusal::TraceEnd));
            octets.push(0);
            assert_eq!(read(&octets), Err(Refusal::TraceNumber));
            octets[0] = 0xFF;
            assert_eq!(read(&octets), Err(Refusal::TraceNumber));
        }
    }

    #[test]
    fn a_trace_that_ends_inside_a_number_is_refused_with_24() {
        let whole = [0xFF, 0xFF, 0xFF, 0xFF, 0xFF, 0xFF, 0xFF, 0xFF, 0xFF, 1];
        for len in 0..whole.len() {
            assert_eq!(read(&whole[..len]), Err(Refusal::TraceEnd));
        }
    }

    #[test]
    fn the_form_of_a_number_is_looked_at_before_its_range() {
        let within = |octets: &[u8]| Reader::new(octets).number_where(|number| number <= 7);
        assert_eq!(within(&[7]), Ok(7));
        assert_eq!(within(&[8]), Err(Refusal::TraceRange));
        assert_eq!(within(&[0x88, 0]), Err(Refusal::TraceNumber));
        assert_eq!(within(&[0x88]), Err(Refusal::TraceEnd));
    }
}

//! Rates, their 16-bit codes and the gap between cells (document 01, "Units
//! and the 16-bit rate code" and "Slots"; with document 02's L7 the reserved bit of a
//! code isn't ignored).

use crate::refusal::Refusal;

/// The largest rate that has a code: exponent 31 and mantissa 511.
pub const LARGEST: u64 = 1023 << 31;

/// The smallest rate above 0 that has a code, one cell per second.
pub const SMALLEST: u64 = 512;

/// The largest number of 16 bits.
const MAX_16_BITS: u32 = 0xFFFF;

/// The largest code.
pub const MAX_CODE: u32 = 0x7FFF;

/// Bit 15, which is reserved: 0 in every code.
const RESERVED: u32 = 1 << 15;

/// The bit that says "not zero".
const NZ: u32 = 1 << 14;

/// A second, in nanoseconds times the 512 units of one cell per second.
const UNITS_BY_NANOSECONDS: u64 = 512_000_000_000;

/// Whether a number is of 16 bits and has the reserved bit set, so that whoever reads
/// it as a rate code refuses it with 19.
pub fn is_reserved(code: u32) -> bool {
    code <= MAX_16_BITS && code & RESERVED != 0
}

/// The rate of a code. Bits above the 15 of a code aren't looked at: who reads one
/// refuses them before.
pub fn rate_of(code: u32) -> u64 {
    if code & NZ == 0 {
        return 0;
    }
    let exponent = (code >> 9) & 0x1F;
    let mantissa = u64::from(code & 0x1FF);
    (512 + mantissa) << exponent
}

/// The rate of a caller's code. Refusals: 7 over 16 bits, 19 with the reserved bit.
pub fn rate(code: u32) -> Result<u64, Refusal> {
    if code > MAX_16_BITS {
        return Err(Refusal::Range);
    }
    if is_reserved(code) {
        return Err(Refusal::ReservedBit);
    }
    Ok(rate_of(code))
}

/// The code of a rate, rounded down. Refusal: 9 above the largest rate.
pub fn code_of(rate: u64) -> Result<u32, Refusal> {
    if rate > LARGEST {
        return Err(Refusal::TooLarge);
    }
    Ok(code_within(rate))
}

/// The code of a rate that is known to be at most the largest.
///
/// The top ten bits of the rate are kept: the leading one is implied by the
/// code, the other nine are the mantissa.
pub(crate) fn code_within(rate: u64) -> u32 {
    debug_assert!(rate <= LARGEST);
    if rate < SMALLEST {
        return 0;
    }
    let exponent = rate.ilog2() - 9;
    let mantissa = (rate >> exponent) as u32 - 512;
    NZ | (exponent << 9) | mantissa
}

/// The nanoseconds from one cell to the next at an allowed rate, rounded up;
/// nothing at rate 0, at which no next cell is due (document 02, L5).
pub fn gap(acr: u64) -> Option<u64> {
    (acr > 0).then(|| UNITS_BY_NANOSECONDS.div_ceil(acr))
}

#[cfg(test)]
mod tests {
    use super::*;

    #[test]
    fn starred_codes() {
        assert_eq!(rate_of(0x4000), 512);
        assert_eq!(rate_of(0x7FFF), 2_196_875_771_904);
        assert_eq!(LARGEST, 2_196_875_771_904);
        assert_eq!(code_of(512_000), Ok(0x53E8));
        assert_eq!(code_of(1_023), Ok(0x41FF));
        assert_eq!(code_of(1_025), Ok(0x4200));
        assert_eq!(code_of(511), Ok(0x0000));
    }

    #[test]
    fn starred_gaps() {
        assert_eq!(gap(512_000), Some(1_000_000));
        assert_eq!(gap(1_536), Some(333_333_334));
    }

    #[test]
    fn gaps_at_the_ends() {
        assert_eq!(gap(512), Some(1_000_000_000));
        assert_eq!(gap(511), Some(1_001_956_948));
        assert_eq!(gap(1), Some(512_000_000_000));
        assert_eq!(gap(0), None);
        assert_eq!(gap(LARGEST), Some(1));
        assert_eq!(gap(512_000_000_000), Some(1));
        assert_eq!(gap(511_999_999_999), Some(2));
    }

    #[test]
    fn every_code_codes_its_rate() {
        for code in 0..=MAX_CODE {
            let expected = if code & NZ == 0 { 0 } else { code };
            assert_eq!(code_of(rate_of(code)), Ok(expected));
            assert_eq!(rate(code), Ok(rate_of(code)));
        }
    }

    #[test]
    fn coding_gives_the_greatest_rate_not_above() {
        for code in NZ..MAX_CODE {
            let (here, next) = (rate_of(code), rate_of(code + 1));
            assert!(here < next);
            assert_eq!(code_of(next - 1), Ok(code));
            assert_eq!(code_of(here + (next - here) / 2), Ok(code));
        }
        for rate in 0..512 {
            assert_eq!(code_of(rate), Ok(0));
        }
    }

    #[test]
    fn rates_above_the_largest_are_refused_with_9() {
        assert_eq!(code_of(LARGEST), Ok(0x7FFF));
        assert_eq!(code_of(LARGEST + 1), Err(Refusal::TooLarge));
        assert_eq!(code_of(u64::MAX), Err(Refusal::TooLarge));
    }

    #[test]
    fn codes_with_the_reserved_bit_are_refused_with_19_and_wider_ones_with_7() {
        assert_eq!(rate(0x7FFF), Ok(LARGEST));
        assert_eq!(rate(0x4000), Ok(512)); // bit 14 alone is no refusal
        for code in [0x8000, 0x8001, 0xBFFF, 0xC000, 0xFFFF] {
            assert_eq!(rate(code), Err(Refusal::ReservedBit));
        }
        for code in [0x1_0000, 0x1_4000, 0x1_8000, 0x1_C000, 0x1_FFFF, u32::MAX] {
            assert_eq!(rate(code), Err(Refusal::Range));
        }
    }
}

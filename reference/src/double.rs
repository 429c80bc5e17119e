//! Rates as doubles, in cells per second (document 02, L8).
//!
//! All arithmetic is on whole numbers: a double is taken apart into its significand and
//! its exponent and put together from the two. No operation on doubles rounds anything,
//! since none is made.

use crate::rate::{code_within, rate_of, LARGEST};
use crate::refusal::Refusal;

/// The bits of a double's fraction.
const FRACTION_BITS: u32 = 52;

/// The bit above them, which is 1 in every double from 1 on and not stored.
const IMPLIED: u64 = 1 << FRACTION_BITS;

/// The stored exponent of the doubles from 1 up to 2.
const BIAS: i32 = 1_023;

/// The exponents of the doubles that are imported, 0 included: below 2^32.
const POWERS: i32 = 32;

/// A rate is in units of 1/2^9 cell per second.
const UNIT: i32 = 9;

/// A contract for a planning tool: its three rates in cells per second.
#[derive(Debug, Clone, Copy, PartialEq)]
pub struct Exported {
    /// Peak rate.
    pub pcr: f64,
    /// Minimum rate.
    pub mcr: f64,
    /// Initial rate.
    pub icr: f64,
}

/// What a double is as a rate: a code rate and what is left over, both in cells per
/// second, without rounding.
#[derive(Debug, Clone, Copy, PartialEq)]
pub struct Imported {
    /// The code of the greatest code rate not above the double.
    pub code: u32,
    /// The double less that rate; 0.0 if it is that rate.
    pub remainder: f64,
}

/// A whole number times a power of two.
struct Dyadic {
    number: u64,
    power: i32,
}

impl Dyadic {
    /// The double of this value. It is exact: the number has 53 bits at most, and the
    /// power is far from the ends of what a double can hold.
    fn double(self) -> f64 {
        if self.number == 0 {
            return f64::from_bits(0);
        }
        let top = self.number.ilog2();
        let fraction = (self.number << (FRACTION_BITS - top)) ^ IMPLIED;
        let exponent = self.power + top as i32 + BIAS;
        f64::from_bits((exponent as u64) << FRACTION_BITS | fraction)
    }
}

/// A rate as a double in cells per second.
pub fn export(rate: u64) -> f64 {
    let (number, power) = (rate, -UNIT);
    Dyadic { number, power }.double()
}

/// The code of a double in cells per second, and the remainder. Refusal: 20.
pub fn import(given: f64) -> Result<Imported, Refusal> {
    let bits = given.to_bits();
    let fraction = bits & (IMPLIED - 1);
    let exponent = (bits >> FRACTION_BITS & 0x7FF) as i32;
    if exponent == 0 && fraction == 0 {
        let (code, remainder) = (0, 0.0);
        return Ok(Imported { code, remainder });
    }
    // Below BIAS are the numbers between 0 and 1, from 2^32 on also infinity and what is
    // not a number.
    let accepted = BIAS..BIAS + POWERS;
    if given.is_sign_negative() || !accepted.contains(&exponent) {
        return Err(Refusal::Double);
    }
    let number = IMPLIED | fraction;
    let power = exponent - BIAS - FRACTION_BITS as i32;
    let below_unit = -UNIT - power; // bits of the number below one unit, 12 to 43
    let units = number >> below_unit;
    let code = code_within(units.min(LARGEST));
    let number = number - (rate_of(code) << below_unit);
    let remainder = Dyadic { number, power }.double();
    Ok(Imported { code, remainder })
}

#[cfg(test)]
#[path = "double_tests.rs"]
mod tests;

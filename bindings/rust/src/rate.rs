//! Rates and their 16-bit codes.

use crate::ffi;
use crate::Refusal;

/// One cell per second.
pub const RATE_ONE: u64 = 512;

/// The largest rate that has a code.
pub const RATE_MAX: u64 = 1023 << 31;

/// Its code, the largest.
pub const CODE_MAX: u32 = 0x7FFF;

/// Codes a rate: the code of the greatest code rate not above it.
///
/// # Errors
/// [`Refusal::TooLarge`] above [`RATE_MAX`].
///
/// ```
/// use abr::{Refusal, RATE_MAX};
/// assert_eq!(abr::code(512_000), Ok(0x53E8));
/// assert_eq!(abr::code(511), Ok(0));
/// assert_eq!(abr::code(RATE_MAX), Ok(0x7FFF));
/// assert_eq!(abr::code(RATE_MAX + 1), Err(Refusal::TooLarge));
/// ```
pub fn code(rate: u64) -> Result<u32, Refusal> {
    // SAFETY: the call has no pointer.
    let coded = unsafe { ffi::abr_code(rate) };
    Refusal::outcome(coded.refusal)?;
    Ok(coded.code)
}

/// The rate of a code.
///
/// # Errors
/// [`Refusal::Range`] if the code has more than 16 bits, [`Refusal::ReservedBit`] if it
/// has 16 and so bit 15, which is reserved.
///
/// ```
/// use abr::Refusal;
/// assert_eq!(abr::rate(0x4000), Ok(512));
/// assert_eq!(abr::rate(0x3FFF), Ok(0));
/// assert_eq!(abr::rate(0xC000), Err(Refusal::ReservedBit));
/// assert_eq!(abr::rate(0x1_C000), Err(Refusal::Range));
/// ```
pub fn rate(code: u32) -> Result<u64, Refusal> {
    // SAFETY: the call has no pointer.
    let rated = unsafe { ffi::abr_rate(code) };
    Refusal::outcome(rated.refusal)?;
    Ok(rated.rate)
}

//! The explicit-rate port of a switch (the manual, section 18), without a table.

use crate::ffi;
use crate::Refusal;

/// The most demands that a capacity is shared among.
pub const DEMANDS_MAX: usize = 1_024;

/// What each demand may have of a capacity at most. Of two the lower one is the narrower
/// limit.
#[derive(Debug, Clone, Copy, PartialEq, Eq, PartialOrd, Ord, Hash)]
pub enum Share {
    /// This rate.
    Rate(u64),
    /// There is no limit: the capacity is enough for all.
    NoLimit,
}

/// Shares a capacity among demanded rates: the share is the greatest rate with which all
/// demands, each cut to it, stay within the capacity.
///
/// # Errors
/// In this order: [`Refusal::TooManyDemands`] over [`DEMANDS_MAX`], [`Refusal::DemandTooLarge`] if one is
/// above [`crate::RATE_MAX`].
///
/// ```
/// use abr::{Refusal, Share};
/// assert_eq!(abr::fair_share(10, &[2, 8, 8]), Ok(Share::Rate(4)));
/// assert_eq!(abr::fair_share(18, &[2, 8, 8]), Ok(Share::NoLimit));
/// assert_eq!(abr::fair_share(0, &[]), Ok(Share::NoLimit));
/// assert_eq!(abr::fair_share(0, &[0; 1_025]), Err(Refusal::TooManyDemands));
/// assert_eq!(abr::fair_share(0, &[u64::MAX]), Err(Refusal::DemandTooLarge));
/// assert!(Share::Rate(u64::MAX) < Share::NoLimit);
/// ```
pub fn fair_share(capacity: u64, demands: &[u64]) -> Result<Share, Refusal> {
    // SAFETY: the pointer is live and the count is the slice's own.
    let share = unsafe { ffi::abr_fair_share(capacity, demands.as_ptr(), demands.len()) };
    Refusal::outcome(share.refusal)?;
    match share.limited {
        0 => Ok(Share::NoLimit),
        _ => Ok(Share::Rate(share.rate)),
    }
}

/// Limits the explicit rate of a passing backward RM cell by a rate: ER becomes the code of
/// the lower of the two, the CRC-10 is made new, and every other bit stays. Other cells stay
/// as they are.
///
/// # Errors
/// Those of [`crate::read`].
///
/// ```
/// use abr::{Cell, Rm, CELL_OCTETS};
/// let rm = Rm { vpi: 1, vci: 32, backward: true, er: 0x7FFF, ..Rm::default() };
/// let mut cell = [0; CELL_OCTETS];
/// abr::write_rm(&rm, &mut cell)?;
/// abr::limit(512_000, &mut cell)?;
/// assert_eq!(abr::read(&cell)?, Cell::Rm(Rm { er: 0x53E8, ..rm }));
/// # Ok::<(), abr::Refusal>(())
/// ```
pub fn limit(rate: u64, cell: &mut [u8]) -> Result<(), Refusal> {
    // SAFETY: the pointer is live and the length is the buffer's own.
    Refusal::outcome(unsafe { ffi::abr_limit(rate, cell.as_mut_ptr(), cell.len()) })
}

/// A passing cell at the port of a switch: [`fair_share`] and, if there is a limit,
/// [`limit`] by it. With no limit every octet stays.
///
/// # Errors
/// Those of [`fair_share`], then those of [`crate::read`].
///
/// ```
/// use abr::{Cell, Rm, CELL_OCTETS};
/// let rm = Rm { vpi: 1, vci: 32, backward: true, er: 0x7FFF, ..Rm::default() };
/// let mut cell = [0; CELL_OCTETS];
/// abr::write_rm(&rm, &mut cell)?;
/// abr::port(1_024_000, &[512_000, 512_000], &mut cell)?; // enough for both
/// assert_eq!(abr::read(&cell)?, Cell::Rm(rm));
/// abr::port(1_024_000, &[512_000, 9_000_000], &mut cell)?;
/// assert_eq!(abr::read(&cell)?, Cell::Rm(Rm { er: 0x53E8, ..rm }));
/// # Ok::<(), abr::Refusal>(())
/// ```
pub fn port(capacity: u64, demands: &[u64], cell: &mut [u8]) -> Result<(), Refusal> {
    let (rates, count) = (demands.as_ptr(), demands.len());
    let (octets, len) = (cell.as_mut_ptr(), cell.len());
    // SAFETY: both pointers are live, and count and length are those of the slices.
    Refusal::outcome(unsafe { ffi::abr_port(capacity, rates, count, octets, len) })
}

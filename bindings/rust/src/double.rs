//! Rates as doubles, in cells per second, for planning tools (the manual, section 18).

use crate::ffi;
use crate::Refusal;

/// The rates of a contract in cells per second, each exactly that of the code which the
/// open gave, with the layout of the C struct. [`crate::Table::export`] gives one.
#[repr(C)]
#[derive(Debug, Clone, Copy, PartialEq, Default)]
pub struct Contract {
    /// The peak rate.
    pub pcr: f64,
    /// The minimum rate.
    pub mcr: f64,
    /// The initial rate.
    pub icr: f64,
}

/// A double as a rate code.
#[derive(Debug, Clone, Copy, PartialEq)]
pub enum Imported {
    /// The double is the rate of this code.
    Exact(u32),
    /// It is above the rate of this code, and below that of every higher code if there is
    /// one.
    Below {
        /// The code below it.
        code: u32,
        /// The double less the rate of that code over 512, in cells per second and exact;
        /// above 0.
        remainder: f64,
    },
}

impl Imported {
    /// The code of the greatest code rate not above the double.
    pub const fn code(self) -> u32 {
        match self {
            Imported::Exact(code) | Imported::Below { code, .. } => code,
        }
    }
}

/// The rate code of a double in cells per second. The rate of the code over 512 plus the
/// remainder is the double with no rounding; both zeros have the code 0.
///
/// # Errors
/// [`Refusal::Double`] if it is not a number, infinite, below 0, between 0 and 1, or 2^32
/// and more.
///
/// ```
/// use abr::{Imported, Refusal};
/// assert_eq!(abr::import(1_000.0), Ok(Imported::Exact(0x53E8)));
/// assert_eq!(abr::import(-0.0), Ok(Imported::Exact(0)));
/// let half = Imported::Below { code: 0x53E8, remainder: 0.5 };
/// assert_eq!(abr::import(1_000.5), Ok(half));
/// assert_eq!(half.code(), 0x53E8);
/// assert_eq!(abr::import(0.5), Err(Refusal::Double));
/// ```
pub fn import(cells_per_second: f64) -> Result<Imported, Refusal> {
    // SAFETY: the call has no pointer.
    let imported = unsafe { ffi::abr_import(cells_per_second) };
    Refusal::outcome(imported.refusal)?;
    let ffi::abr_imported {
        code, remainder, ..
    } = imported;
    if remainder == 0.0 {
        Ok(Imported::Exact(code))
    } else {
        Ok(Imported::Below { code, remainder })
    }
}

//! The parameters of an open.

use crate::ffi;

/// The `c` that means a CDF of zero.
pub const CDF_ZERO: u32 = 7;
/// The largest TBE, in cells.
pub const TBE_MAX: u32 = 16_777_215;
/// The largest FRTT, in microseconds.
pub const FRTT_MAX: u32 = 16_700_000;
/// The largest ADTF, in steps of 10 ms.
pub const ADTF_MAX: u32 = 1_023;

/// What an open gives beside VPI, VCI and time (the manual, section 4), with the
/// layout of the C struct. [`crate::Table::open`] checks the ranges.
#[repr(C)]
#[derive(Debug, Clone, Copy, PartialEq, Eq, Hash, Default)]
pub struct Params {
    /// Code of the peak rate, at least one cell per second.
    pub pcr: u32,
    /// Code of the minimum rate, 0 for none.
    pub mcr: u32,
    /// Code of the initial rate, from minimum to peak. The one that is used may be lower:
    /// 512,000,000 × TBE / FRTT, rounded down, if that is less, but never under the minimum.
    pub icr: u32,
    /// Nrm is 2^n, n from 1 to 8.
    pub n: u32,
    /// RIF is 1/2^r, r from 0 to 15.
    pub r: u32,
    /// RDF is 1/2^d, d from 0 to 15.
    pub d: u32,
    /// CDF is 1/2^c, c from 0 to 6; 7 means zero.
    pub c: u32,
    /// TBE, the cells allowed before feedback, from 1 to 16,777,215. CRM is TBE / Nrm,
    /// rounded up.
    pub tbe: u32,
    /// FRTT, the round trip in microseconds, from 0 to 16,700,000; 0 lowers nothing.
    pub frtt: u32,
    /// ADTF in steps of 10 ms, from 1 to 1,023.
    pub adtf: u32,
    /// Trm number, from 0 to 7.
    pub trm: u32,
}

impl Params {
    /// The house set with three rate codes.
    ///
    /// ```
    /// let params = abr::Params::house(0x53E8, 0x4000, 0x4200);
    /// assert_eq!((params.pcr, params.mcr, params.icr), (0x53E8, 0x4000, 0x4200));
    /// assert_eq!((params.n, params.r, params.d, params.c), (5, 4, 4, 4));
    /// assert_eq!((params.tbe, params.frtt), (16_777_215, 0));
    /// assert_eq!((params.adtf, params.trm), (50, 7));
    /// ```
    pub fn house(pcr: u32, mcr: u32, icr: u32) -> Self {
        // SAFETY: the call has no pointer.
        unsafe { ffi::abr_house(pcr, mcr, icr) }
    }
}

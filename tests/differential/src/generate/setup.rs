//! TBE and FRTT (document 02, L14): mostly a small CRM, and an initial rate that is lowered
//! a little, to the minimum or not at all.

use abr::ffi::abr_params;
use abr::{FRTT_MAX, TBE_MAX};

use super::Generator;

/// A rate of one cell in a microsecond.
const CELL_PER_MICROSECOND: u64 = 512_000_000;

impl Generator {
    /// A TBE of a few times Nrm, or of that and one more or less.
    pub(super) fn tbe(&mut self, nrm: u32) -> u32 {
        let times = self.rng.pick(&[1, 2, 2, 3, 4, 7]);
        let less = self.rng.below(nrm.into()) as u32;
        let any = self.rng.within(1, TBE_MAX);
        let most = times * nrm;
        self.rng.pick(&[
            most,
            most,
            most - less,
            most - nrm + 1,
            most + 1,
            any,
            TBE_MAX,
        ])
    }

    /// An FRTT: none, any, or one at which TBE lowers the initial rate of this code by
    /// about nothing or by half.
    pub(super) fn frtt(&mut self, tbe: u32, icr: u32) -> u32 {
        let rate = abr_reference::rate_of(icr).max(1);
        let even = (CELL_PER_MICROSECOND * u64::from(tbe) / rate).min(FRTT_MAX.into()) as u32;
        let any = self.rng.within(0, FRTT_MAX);
        let edges = [
            0,
            0,
            0,
            even,
            even + 1,
            2 * even,
            even / 2,
            any >> 12,
            any,
            FRTT_MAX,
        ];
        self.rng.pick(&edges).min(FRTT_MAX)
    }

    /// Puts TBE, FRTT or both out of range.
    pub(super) fn set_up_wrongly(&mut self, params: &mut abr_params) {
        let any = self.rng.next() as u32;
        let which = self.rng.below(3);
        if which != 0 {
            params.tbe = self.rng.pick(&[0, TBE_MAX + 1, u32::MAX, any | 1 << 24]);
        }
        if which != 1 {
            params.frtt = self.rng.pick(&[FRTT_MAX + 1, u32::MAX, any | 1 << 24]);
        }
    }
}

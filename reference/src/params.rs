//! The parameters of an open (document 01, "Opening"; with document 02's L5 the
//! least minimum is 0, with L7 a rate code with the reserved bit is refused, with L14
//! TBE and FRTT stand in the place of CRM).

use std::ops::RangeInclusive;

use crate::rate::{self, SMALLEST};
use crate::refusal::Refusal;

/// The eight times of Trm in nanoseconds, by Trm number.
pub const TRM_TIMES: [u64; 8] = [
    781_250,
    1_562_500,
    3_125_000,
    6_250_000,
    12_500_000,
    25_000_000,
    50_000_000,
    100_000_000,
];

/// One step of ADTF in nanoseconds.
pub const ADTF_STEP: u64 = 10_000_000;

/// The cells that must have gone since the last forward cell before the time
/// Trm makes another one due.
pub const MRM: u32 = 2;

/// The number at which the unanswered count stops, which no CRM is above.
pub const CRM_MAX: u32 = 8_388_608;

/// The largest TBE.
pub const TBE_MAX: u32 = 16_777_215;

/// The largest FRTT in microseconds.
pub const FRTT_MAX: u32 = 16_700_000;

/// A rate of one cell in a microsecond.
const CELL_PER_MICROSECOND: u64 = 512_000_000;

/// The value of c that means a CDF of zero.
pub const CDF_ZERO: u32 = 7;

/// The parameters as an open gives them: rate codes, exponents and numbers.
#[derive(Debug, Clone, Copy, PartialEq, Eq)]
pub struct Params {
    /// Code of the peak rate.
    pub pcr: u32,
    /// Code of the minimum rate.
    pub mcr: u32,
    /// Code of the initial rate.
    pub icr: u32,
    /// Nrm is 2^n.
    pub n: u32,
    /// RIF is 1/2^r.
    pub r: u32,
    /// RDF is 1/2^d.
    pub d: u32,
    /// CDF is 1/2^c, or zero if c is 7.
    pub c: u32,
    /// TBE: the cells allowed before feedback.
    pub tbe: u32,
    /// FRTT: the round trip in microseconds.
    pub frtt: u32,
    /// ADTF in steps of 10 ms.
    pub adtf: u32,
    /// Trm number.
    pub trm: u32,
}

impl Params {
    /// n of the house set.
    pub const HOUSE_N: u32 = 5;
    /// r of the house set.
    pub const HOUSE_R: u32 = 4;
    /// d of the house set.
    pub const HOUSE_D: u32 = 4;
    /// c of the house set.
    pub const HOUSE_C: u32 = 4;
    /// TBE of the house set.
    pub const HOUSE_TBE: u32 = 16_777_215;
    /// FRTT of the house set.
    pub const HOUSE_FRTT: u32 = 0;
    /// ADTF of the house set.
    pub const HOUSE_ADTF: u32 = 50;
    /// Trm number of the house set.
    pub const HOUSE_TRM: u32 = 7;

    /// The house set around three rate codes.
    pub const fn house(pcr: u32, mcr: u32, icr: u32) -> Self {
        Params {
            pcr,
            mcr,
            icr,
            n: Self::HOUSE_N,
            r: Self::HOUSE_R,
            d: Self::HOUSE_D,
            c: Self::HOUSE_C,
            tbe: Self::HOUSE_TBE,
            frtt: Self::HOUSE_FRTT,
            adtf: Self::HOUSE_ADTF,
            trm: Self::HOUSE_TRM,
        }
    }

    /// Checks all but TBE and FRTT, and gives the three rates in the order peak, minimum,
    /// initial. Refusals: 19 whatever else is wrong, 7.
    pub fn check(&self) -> Result<(u64, u64, u64), Refusal> {
        if [self.pcr, self.mcr, self.icr]
            .into_iter()
            .any(rate::is_reserved)
        {
            return Err(Refusal::ReservedBit);
        }
        let rates = self.rates()?;
        within(self.n, 1..=8, Refusal::Range)?;
        within(self.r, 0..=15, Refusal::Range)?;
        within(self.d, 0..=15, Refusal::Range)?;
        within(self.c, 0..=CDF_ZERO, Refusal::Range)?;
        within(self.adtf, 1..=1_023, Refusal::Range)?;
        within(self.trm, 0..=7, Refusal::Range)?;
        Ok(rates)
    }

    /// Checks every range and gives the set as rates, times and counts. Refusals:
    /// 19, 7, 29, 30.
    pub fn contract(&self) -> Result<Contract, Refusal> {
        let (pcr, mcr, icr) = self.check()?;
        within(self.tbe, 1..=TBE_MAX, Refusal::Tbe)?;
        within(self.frtt, 0..=FRTT_MAX, Refusal::Frtt)?;
        Ok(Contract {
            pcr,
            mcr,
            icr,
            icr_used: self.icr_used(mcr, icr),
            nrm: 1 << self.n,
            r: self.r,
            d: self.d,
            c: self.c,
            crm: self.crm(),
            adtf: u64::from(self.adtf) * ADTF_STEP,
            trm: TRM_TIMES[self.trm as usize],
        })
    }

    /// CRM: TBE / Nrm, rounded up, for every TBE and every n under 64.
    pub fn crm(&self) -> u32 {
        u64::from(self.tbe).div_ceil(1 << self.n) as u32
    }

    /// The initial rate that is used: the given one, lowered to the rate at which TBE cells
    /// go in a round trip if that is less, but never under the minimum. Without a
    /// round trip nothing is lowered.
    pub fn icr_used(&self, mcr: u64, icr: u64) -> u64 {
        let cells = CELL_PER_MICROSECOND * u64::from(self.tbe);
        match cells.checked_div(self.frtt.into()) {
            Some(limit) => icr.min(limit).max(mcr),
            None => icr,
        }
    }

    /// The three rates in the order peak, minimum, initial. Minimum and initial
    /// rate may be 0, the peak may not.
    fn rates(&self) -> Result<(u64, u64, u64), Refusal> {
        let pcr = rate::rate(self.pcr)?;
        let mcr = rate::rate(self.mcr)?;
        let icr = rate::rate(self.icr)?;
        if mcr <= icr && icr <= pcr && SMALLEST <= pcr {
            Ok((pcr, mcr, icr))
        } else {
            Err(Refusal::Range)
        }
    }
}

/// Refuses a number outside its range.
fn within(number: u32, range: RangeInclusive<u32>, refusal: Refusal) -> Result<(), Refusal> {
    if range.contains(&number) {
        Ok(())
    } else {
        Err(refusal)
    }
}

/// Checked parameters: rates as rates, times in nanoseconds, Nrm as a count.
#[derive(Debug, Clone, Copy, PartialEq, Eq)]
pub struct Contract {
    /// Peak rate.
    pub pcr: u64,
    /// Minimum rate.
    pub mcr: u64,
    /// Initial rate as the open gave it.
    pub icr: u64,
    /// Initial rate that is used.
    pub icr_used: u64,
    /// Nrm: a forward cell and the cells after it up to the next, at most.
    pub nrm: u32,
    /// Exponent of RIF.
    pub r: u32,
    /// Exponent of RDF.
    pub d: u32,
    /// Exponent of CDF, or 7.
    pub c: u32,
    /// Unanswered forward cells at which the rate begins to fall.
    pub crm: u32,
    /// ADTF in nanoseconds.
    pub adtf: u64,
    /// Trm in nanoseconds.
    pub trm: u64,
}

#[cfg(test)]
mod tests {
    use super::*;

    /// Sets one parameter.
    type Setter = fn(&mut Params, u32);

    fn good() -> Params {
        Params::house(0x53E8, 0x4000, 0x4200)
    }

    #[test]
    fn the_house_set() {
        let expected = Params {
            pcr: 0x53E8,
            mcr: 0x4000,
            icr: 0x4200,
            n: 5,
            r: 4,
            d: 4,
            c: 4,
            tbe: 16_777_215,
            frtt: 0,
            adtf: 50,
            trm: 7,
        };
        assert_eq!(good(), expected);
    }

    #[test]
    fn the_contract_of_the_house_set() {
        let contract = good().contract().unwrap();
        assert_eq!(contract.pcr, 512_000);
        assert_eq!(contract.mcr, 512);
        assert_eq!(contract.icr, 1_024);
        assert_eq!(contract.icr_used, 1_024);
        assert_eq!((contract.nrm, contract.crm), (32, 524_288));
        assert_eq!(contract.adtf, 500_000_000);
        assert_eq!(contract.trm, 100_000_000);
    }

    #[test]
    fn each_trm_is_twice_the_one_before() {
        for trm in 0..8 {
            let contract = Params { trm, ..good() }.contract().unwrap();
            assert_eq!(contract.trm, 781_250 << trm);
        }
    }

    #[test]
    fn numbers_at_their_ends() {
        let cases: [(Setter, u32, u32, Refusal); 8] = [
            (|p, v| p.n = v, 1, 8, Refusal::Range),
            (|p, v| p.r = v, 0, 15, Refusal::Range),
            (|p, v| p.d = v, 0, 15, Refusal::Range),
            (|p, v| p.c = v, 0, 7, Refusal::Range),
            (|p, v| p.adtf = v, 1, 1_023, Refusal::Range),
            (|p, v| p.trm = v, 0, 7, Refusal::Range),
            (|p, v| p.tbe = v, 1, 16_777_215, Refusal::Tbe),
            (|p, v| p.frtt = v, 0, 16_700_000, Refusal::Frtt),
        ];
        for (set, low, high, refusal) in cases {
            let answer = |value| {
                let mut params = good();
                set(&mut params, value);
                params.contract().map(|_| ())
            };
            assert_eq!(answer(low), Ok(()));
            assert_eq!(answer(high), Ok(()));
            assert_eq!(answer(high + 1), Err(refusal));
            assert_eq!(answer(u32::MAX), Err(refusal));
            if low > 0 {
                assert_eq!(answer(low - 1), Err(refusal));
            }
        }
    }

    #[test]
    fn the_three_rates_must_be_in_order() {
        let answer = |pcr, mcr, icr| Params::house(pcr, mcr, icr).contract().map(|_| ());
        assert_eq!(answer(0x4000, 0x4000, 0x4000), Ok(()));
        assert_eq!(answer(0x7FFF, 0x4000, 0x7FFF), Ok(()));
        assert_eq!(answer(0x4001, 0x4000, 0x4002), Err(Refusal::Range));
        assert_eq!(answer(0x4002, 0x4001, 0x4000), Err(Refusal::Range));
        assert_eq!(answer(0x4000, 0x4001, 0x4001), Err(Refusal::Range));
        assert_eq!(answer(0x4000, 0x4000, 0x3FFF), Err(Refusal::Range));
    }

    #[test]
    fn minimum_and_initial_rate_may_be_0_but_not_the_peak() {
        let answer = |pcr, mcr, icr| {
            let contract = Params::house(pcr, mcr, icr).contract();
            contract.map(|contract| (contract.pcr, contract.mcr, contract.icr))
        };
        for zero in [0x0000, 0x0001, 0x01FF, 0x3FFF] {
            assert_eq!(answer(0x4000, zero, 0x4000), Ok((512, 0, 512)));
            assert_eq!(answer(0x4000, zero, zero), Ok((512, 0, 0)));
            assert_eq!(answer(0x4000, zero, 0x0000), Ok((512, 0, 0)));
            assert_eq!(answer(0x4000, 0x3FFF, zero), Ok((512, 0, 0)));
            assert_eq!(answer(0x4000, zero, 0x4001), Err(Refusal::Range));
            assert_eq!(answer(0x4000, 0x4000, zero), Err(Refusal::Range));
            assert_eq!(answer(zero, zero, zero), Err(Refusal::Range));
            assert_eq!(answer(zero, 0x0000, 0x4000), Err(Refusal::Range));
            assert_eq!(answer(zero, 0x4000, 0x4000), Err(Refusal::Range));
        }
        assert_eq!(answer(0x4000, 0x1_0000, 0x4000), Err(Refusal::Range));
    }

    #[test]
    fn the_reserved_bit_is_refused_with_19_and_wider_codes_with_7() {
        let answer = |pcr, mcr, icr| Params::house(pcr, mcr, icr).contract().map(|_| ());
        let good = [0x53E8, 0x4000, 0x4200];
        for place in 0..3 {
            let with = |bits: u32| {
                let mut codes = good;
                codes[place] |= bits;
                codes
            };
            let [pcr, mcr, icr] = with(0x8000);
            assert_eq!(answer(pcr, mcr, icr), Err(Refusal::ReservedBit));
            for bits in [0x1_0000, 0x1_8000, 0xFFFF_8000] {
                let [pcr, mcr, icr] = with(bits);
                assert_eq!(answer(pcr, mcr, icr), Err(Refusal::Range));
            }
        }
        assert_eq!(answer(0x8000, 0x8000, 0x8000), Err(Refusal::ReservedBit));
    }

    #[test]
    fn the_reserved_bit_is_looked_at_before_every_range() {
        let wide = 0x1_8000;
        for (pcr, mcr, icr) in [
            (0xD3E8, wide, wide),
            (wide, 0x8000, 0),
            (wide, wide, 0xC000),
        ] {
            assert_eq!(
                Params::house(pcr, mcr, icr).contract(),
                Err(Refusal::ReservedBit)
            );
        }
        let peak = Params::house(0xC000, 0x4001, 0x4001); // also below the minimum
        assert_eq!(peak.contract(), Err(Refusal::ReservedBit));
        let bad = Params {
            n: 0,
            ..Params::house(0x53E8, 0xC000, 0x53E8)
        };
        assert_eq!(bad.contract(), Err(Refusal::ReservedBit));
    }
}

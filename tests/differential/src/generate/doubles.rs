//! Doubles to import, by their bits (document 02, L8).

use super::Generator;

/// The bits of a double's fraction, and its sign.
const FRACTION: u64 = (1 << 52) - 1;
const SIGN: u64 = 1 << 63;

/// The bits of 1 and of 2^32, between which the doubles are rates.
const ONE: u64 = 1_023 << 52;
const TWO_TO_32: u64 = (1_023 + 32) << 52;

/// The bits of infinity.
const INFINITE: u64 = 0x7FF << 52;

impl Generator {
    /// The bits of a double: a rate, mostly that of a code or one beside it, or one that is
    /// no rate.
    pub(super) fn double(&mut self) -> u64 {
        match self.rng.once_in(2) {
            true => self.rate_double(),
            false => self.no_rate(),
        }
    }

    /// A double from 1 up to 2^32, or a zero. Between two code rates of one exponent are
    /// 2^43 doubles.
    fn rate_double(&mut self) -> u64 {
        let place = self.rng.below(32 * 512);
        let code_rate = ONE + (place << 43);
        let between = code_rate + self.rng.below(1 << 43);
        let beside = (code_rate - 1).max(ONE);
        let last = TWO_TO_32 - 1 - self.rng.below(1 << 43);
        self.rng.pick(&[
            code_rate,
            code_rate,
            code_rate + 1,
            beside,
            between,
            last,
            ONE,
            TWO_TO_32 - 1,
            0,
            SIGN,
        ])
    }

    /// A double that is refused, at an edge or any.
    fn no_rate(&mut self) -> u64 {
        let any = self.rng.next();
        let sign = self.rng.pick(&[0, SIGN]);
        let payload = any & FRACTION | 1;
        let rate = ONE + self.rng.below(32 << 52);
        let fraction = 1 + self.rng.below(ONE - 1);
        let large = TWO_TO_32 + self.rng.below(INFINITE - TWO_TO_32);
        self.rng.pick(&[
            sign | INFINITE,
            sign | INFINITE | payload,
            SIGN | rate,
            SIGN | fraction,
            sign | payload, // subnormal
            fraction,
            ONE - 1,
            1,
            TWO_TO_32,
            large,
            any,
        ])
    }
}

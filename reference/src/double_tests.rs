//! Tests of rates as doubles.

use super::*;
use crate::code_of;

/// 2^32, the least double that is too large.
const TWO_TO_32: f64 = 4_294_967_296.0;

/// The largest code rate in cells per second.
const LARGEST_CELLS: f64 = 4_290_772_992.0;

/// The double before another in the order of doubles, and the one after it.
fn beside(x: f64) -> [f64; 2] {
    [
        f64::from_bits(x.to_bits() - 1),
        f64::from_bits(x.to_bits() + 1),
    ]
}

/// Code and remainder, the latter by its bits, so that the zeros differ.
fn imported(x: f64) -> Result<(u32, u64), Refusal> {
    import(x).map(|imported| (imported.code, imported.remainder.to_bits()))
}

/// The same with the remainder as a number.
fn exact(code: u32, remainder: f64) -> Result<(u32, u64), Refusal> {
    Ok((code, remainder.to_bits()))
}

#[test]
fn exported_by_hand() {
    assert_eq!(export(0).to_bits(), 0);
    assert_eq!(export(1), 0.001_953_125);
    assert_eq!(export(512), 1.0);
    assert_eq!(export(513), 1.001_953_125);
    assert_eq!(export(512_000), 1_000.0);
    assert_eq!(export(LARGEST), LARGEST_CELLS);
}

/// A rate below 2^42 has fewer bits than a double holds, and 512 is a power of two: the
/// machine's division is exact too.
#[test]
fn every_code_exported_is_its_rate_over_512() {
    for code in 0..=0x7FFF {
        let rate = rate_of(code);
        assert_eq!(export(rate).to_bits(), (rate as f64 / 512.0).to_bits());
    }
}

#[test]
fn exported_and_imported_is_the_canonical_code() {
    for code in 0..=0x7FFF {
        let canonical = code_of(rate_of(code)).unwrap();
        assert_eq!(imported(export(rate_of(code))), exact(canonical, 0.0));
    }
}

#[test]
fn imported_by_hand() {
    assert_eq!(imported(1.0), exact(0x4000, 0.0));
    assert_eq!(imported(1_000.0), exact(0x53E8, 0.0));
    assert_eq!(imported(1_000.5), exact(0x53E8, 0.5)); // code rates are 1 apart there
    assert_eq!(imported(1.001), exact(0x4000, 1.001 - 1.0)); // exact, since 1.001 is below 2
    assert_eq!(imported(3.5), exact(0x4380, 0.0));
    assert_eq!(imported(LARGEST_CELLS), exact(0x7FFF, 0.0));
}

#[test]
fn both_zeros_are_the_code_0() {
    assert_eq!(imported(0.0), exact(0, 0.0));
    assert_eq!(imported(-0.0), exact(0, 0.0));
}

#[test]
fn between_the_largest_rate_and_2_to_32_the_code_below_is_the_largest() {
    assert_eq!(imported(LARGEST_CELLS + 1.0), exact(0x7FFF, 1.0));
    assert_eq!(imported(4_294_967_295.0), exact(0x7FFF, 4_194_303.0));
    let [below, _] = beside(TWO_TO_32);
    assert_eq!(imported(below), exact(0x7FFF, below - LARGEST_CELLS));
}

#[test]
fn what_is_no_rate_is_refused_with_20() {
    let below_one = beside(1.0)[0];
    let refused = [
        f64::NAN,
        -f64::NAN,
        f64::from_bits(0x7FF0_0000_0000_0001), // signalling
        f64::from_bits(0xFFFF_FFFF_FFFF_FFFF),
        f64::INFINITY,
        f64::NEG_INFINITY,
        -1.0,
        -1_000.0,
        -f64::MIN_POSITIVE,
        f64::from_bits(1 << 63 | 1), // the negative one nearest to 0
        f64::from_bits(1),
        f64::MIN_POSITIVE,
        0.5,
        below_one,
        TWO_TO_32,
        beside(TWO_TO_32)[1],
        f64::MAX,
        f64::MIN,
    ];
    for x in refused {
        assert_eq!(imported(x), Err(Refusal::Double), "{x:e}");
    }
}

/// Below a code rate the code is the one before, and just above it the same.
#[test]
fn the_neighbours_of_every_code_rate() {
    for code in 0x4001..=0x7FFF {
        let cells = export(rate_of(code));
        let [below, above] = beside(cells);
        let before = export(rate_of(code - 1));
        assert_eq!(imported(below), exact(code - 1, below - before));
        assert_eq!(imported(above), exact(code, above - cells));
    }
}

/// Code rate and remainder, each times 2^52 and so a whole number, make the double times
/// 2^52.
#[test]
fn nothing_is_rounded() {
    let whole = |x: f64| {
        let bits = x.to_bits();
        let exponent = (bits >> 52) as i32;
        let number = u128::from(IMPLIED | bits & (IMPLIED - 1));
        let shift = exponent - BIAS; // x is number x 2^(shift - 52)
        if bits == 0 {
            0
        } else if shift >= 0 {
            number << shift
        } else {
            assert_eq!(number % (1 << -shift), 0, "{x:e}");
            number >> -shift
        }
    };
    let mut bits = 1.0_f64.to_bits();
    while bits < TWO_TO_32.to_bits() {
        let given = f64::from_bits(bits);
        let Imported { code, remainder } = import(given).unwrap();
        let rate = u128::from(rate_of(code)) << (52 - UNIT);
        assert_eq!(rate + whole(remainder), whole(given), "{given:e}");
        bits += 0x0000_0123_4567_89AB; // about 100,000 steps
    }
}

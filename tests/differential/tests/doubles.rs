//! Rates as doubles (document 02, L8): every code and the doubles beside it, the ends of
//! what is imported, and random doubles, on both sides, and checked in whole numbers.

use abr::RATE_MAX;
use abr_convert::library_params;
use abr_differential::both::Both;
use abr_differential::call::{Answer, Call, Outcome};
use abr_differential::lists;
use abr_differential::rng::Rng;
use abr_reference::{code_of, rate_of, Address, Params, Refusal};

/// The connection whose contract is exported.
const AT: Address = Address::new(0xA5, 32);

/// The bits of a double's fraction, and its sign.
const FRACTION: u64 = (1 << 52) - 1;
const SIGN: u64 = 1 << 63;

/// The bits of 1, of 2^32 and of infinity.
const ONE: u64 = 1_023 << 52;
const TWO_TO_32: u64 = (1_023 + 32) << 52;
const INFINITE: u64 = 0x7FF << 52;

/// Makes a call on both sides and gives their common outcome.
fn agree(both: &mut Both, call: &Call) -> Outcome {
    both.call(call)
        .unwrap_or_else(|difference| panic!("{call:x?}: {difference}"))
}

/// The double with these bits times 2^52, a whole number: 0, or at least 2^-52 and below
/// 2^32.
fn whole(bits: u64) -> u128 {
    if bits == 0 {
        return 0;
    }
    let number = u128::from(1 << 52 | bits & FRACTION);
    let exponent = (bits >> 52) as i32 - 1_023;
    assert!((-52..32).contains(&exponent), "{bits:x}");
    match exponent {
        0.. => number << exponent,
        _ => {
            assert_eq!(number & ((1 << -exponent) - 1), 0, "{bits:x}");
            number >> -exponent
        }
    }
}

/// A rate over 512 times 2^52.
fn whole_rate(rate: u64) -> u128 {
    u128::from(rate) << (52 - 9)
}

/// Imports a double from 1 up to 2^32 and checks that nothing is rounded: the code is that
/// of the greatest code rate not above it, and the remainder what is left.
fn import_checked(both: &mut Both, bits: u64) -> u32 {
    let outcome = agree(both, &Call::Import { bits });
    let Ok(Answer::Imported { code, remainder }) = outcome else {
        panic!("{bits:x}: {outcome:?}");
    };
    let rate = whole_rate(rate_of(code));
    assert_eq!(rate + whole(remainder), whole(bits), "{bits:x}");
    if code < 0x7FFF {
        assert!(whole(bits) < whole_rate(rate_of(code + 1)), "{bits:x}");
    }
    code
}

/// Opens with these codes, exports and closes; nothing if the open is refused.
fn export(both: &mut Both, pcr: u32, mcr: u32, icr: u32) -> Option<[u64; 3]> {
    let (at, time) = (AT, 0);
    let params = library_params(&Params::house(pcr, mcr, icr));
    agree(both, &Call::Open { at, time, params }).ok()?;
    let outcome = agree(both, &Call::Export { at });
    let Ok(Answer::Exported(bits)) = outcome else {
        panic!("{params:x?}: {outcome:?}");
    };
    assert!(agree(both, &Call::Close { at }).is_ok());
    Some(bits)
}

/// Every code as peak, minimum and initial rate: exported it is its rate over 512, and that
/// imported is the canonical code.
#[test]
fn every_code_exported_and_imported() {
    let mut both = Both::default();
    for code in 0..=0x7FFF {
        let rate = rate_of(code);
        let as_peak = export(&mut both, code, 0, 0);
        assert_eq!(as_peak.is_some(), rate >= 512);
        let [pcr, mcr, icr] = export(&mut both, 0x7FFF, code, code).expect("in order");
        assert_eq!(whole(pcr), whole_rate(RATE_MAX));
        let canonical = code_of(rate).expect("a rate of a code");
        for bits in as_peak.map(|[bits, ..]| bits).into_iter().chain([mcr, icr]) {
            assert_eq!(whole(bits), whole_rate(rate), "{code:x}");
            let imported = agree(&mut both, &Call::Import { bits });
            let (code, remainder) = (canonical, 0);
            assert_eq!(imported, Ok(Answer::Imported { code, remainder }));
        }
    }
}

/// The doubles beside every code rate above 1, one and two places away.
#[test]
fn the_neighbours_of_every_code_rate() {
    let mut both = Both::default();
    for (place, code) in (0x4000..=0x7FFF).enumerate() {
        let bits = ONE + ((place as u64) << 43);
        assert_eq!(whole(bits), whole_rate(rate_of(code)));
        for near in bits..=bits + 2 {
            assert_eq!(import_checked(&mut both, near), code);
        }
        for near in [bits - 2, bits - 1] {
            if near > ONE {
                assert_eq!(import_checked(&mut both, near), code - 1);
            }
        }
    }
}

#[test]
fn both_zeros_are_the_code_0() {
    let mut both = Both::default();
    for bits in [0, SIGN] {
        let imported = agree(&mut both, &Call::Import { bits });
        let (code, remainder) = (0, 0);
        assert_eq!(imported, Ok(Answer::Imported { code, remainder }));
    }
}

#[test]
fn the_ends_of_what_is_imported() {
    let mut both = Both::default();
    assert_eq!(import_checked(&mut both, ONE), 0x4000);
    assert_eq!(import_checked(&mut both, TWO_TO_32 - 1), 0x7FFF);
    for bits in [ONE - 1, TWO_TO_32, TWO_TO_32 + 1] {
        assert_eq!(
            agree(&mut both, &Call::Import { bits }),
            Err(Refusal::Double),
            "{bits:x}"
        );
    }
}

/// Every exponent with several fractions and both signs: subnormal numbers, numbers below
/// 1, rates, large ones, infinity and what is not a number.
#[test]
fn every_exponent_with_both_signs() {
    let mut both = Both::default();
    let fractions = [0, 1, 2, 1 << 42, 1 << 43, 1 << 51, (1 << 51) + 1, FRACTION];
    for exponent in 0..0x800_u64 {
        for fraction in fractions {
            let bits = exponent << 52 | fraction;
            let rate = (ONE..TWO_TO_32).contains(&bits);
            if rate {
                import_checked(&mut both, bits);
            }
            for (bits, accepted) in [(bits, rate || bits == 0), (SIGN | bits, bits == 0)] {
                let outcome = agree(&mut both, &Call::Import { bits });
                let expected = (!accepted).then_some(Refusal::Double);
                assert_eq!(outcome.err(), expected, "{bits:x}");
            }
        }
    }
}

#[test]
fn random_doubles() {
    let mut rng = Rng::new(lists::seed() + 4);
    let mut both = Both::default();
    for _ in 0..1_000_000 {
        import_checked(&mut both, ONE + rng.below(TWO_TO_32 - ONE));
        let few_bits = rng.next() << rng.below(64);
        for bits in [rng.next(), few_bits, INFINITE | few_bits] {
            let outcome = agree(&mut both, &Call::Import { bits });
            let rate = (ONE..TWO_TO_32).contains(&bits) || bits & !SIGN == 0;
            assert_eq!(outcome.is_ok(), rate, "{bits:x}");
        }
    }
}

//! The scene of ten sources: shares computed by hand, and the rates that they lead to.

use abr::RATE_ONE;
use abr_picture::closed_loop::{self, sum, CAPACITY, END, SOURCES};
use abr_support::plot::MS;

/// The milliseconds at which the share changes, and the share in units of 1/512 cell per second
/// from then on, 0 for no limit. From 1,500 to 1,900 source 5 has its minimum, 3,000, and the
/// others share what is left.
const SHARES: [(u64, u64); 11] = [
    (0, 7_000 * RATE_ONE),
    (400, 4_950 * RATE_ONE),
    (800, 3_300 * RATE_ONE),
    (900, 3_960 * RATE_ONE),
    (1_200, 3_050 * RATE_ONE),
    (1_500, 18_300 * RATE_ONE / 7),
    (1_700, 17_100 * RATE_ONE / 7),
    (1_900, 3_420 * RATE_ONE),
    (2_200, 4_650 * RATE_ONE),
    (2_500, 6_200 * RATE_ONE),
    (2_800, 0),
];

/// Each share with the instant at which it ends.
fn phases() -> impl Iterator<Item = (u64, u64, u64)> {
    let ends = SHARES
        .iter()
        .skip(1)
        .map(|(time, _)| time * MS)
        .chain([END]);
    SHARES
        .iter()
        .zip(ends)
        .map(|((from, share), to)| (from * MS, to, *share))
}

#[test]
fn every_share() {
    let found = closed_loop::shares().expect("nothing is refused");
    let expected = phases().map(|(from, _, share)| {
        let limited = (share > 0).then_some(share as f64 / RATE_ONE as f64);
        (from, limited)
    });
    assert_eq!(found, expected.collect::<Vec<_>>());
}

/// At the end of every share that lasted for 200 ms or more each source has the rate that the
/// share leads it to, and the capacity is taken but for what codes round off.
#[test]
fn every_rate_comes_to_its_share() {
    let histories = closed_loop::run().expect("nothing is refused");
    assert_eq!(closed_loop::report::late(&histories), None);
    for (from, to, share) in phases().filter(|(from, to, _)| to - from >= 200 * MS) {
        for (source, history) in SOURCES.iter().zip(&histories) {
            if source.demand(to - 1) == 0 {
                continue;
            }
            let limit = if share > 0 { share } else { abr::RATE_MAX };
            let written = abr::code(limit).and_then(abr::rate).expect("a rate");
            let goal = written
                .min(source.pcr * RATE_ONE)
                .max(source.mcr * RATE_ONE);
            let rate = history
                .track
                .at(to - 1)
                .map(|cells| (cells * RATE_ONE as f64) as u64);
            assert_eq!(rate, Some(goal), "from {from} to {to}");
        }
        let (taken, all) = (sum(&histories, to - 1), CAPACITY as f64);
        assert!(
            taken <= all && (share == 0 || taken > 0.995 * all),
            "{taken} at {to}"
        );
    }
}

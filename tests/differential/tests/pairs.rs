//! Random pairs of lists, the second at least as congested. ABR_SEED gives
//! other lists.

use abr_differential::library::Difference;
use abr_differential::lists;
use abr_differential::pairs::{self, Tally};
use abr_differential::parallel::{self, Counts};
use abr_differential::profile::{Profile, NO_MINIMUM, PROFILES, SPACED};

/// The pairs of one job.
const JOB: u64 = 10;

/// Runs the pairs of a job: a profile, and the number of the first.
fn run_job((profile, first): (Profile, u64)) -> Result<Tally, Difference> {
    let mut tally = Tally::default();
    for seed in first..first + JOB {
        pairs::run(seed, profile, &mut tally)?;
    }
    Ok(tally)
}

/// Runs so many pairs of a profile from a seed on.
fn run_pairs(profile: Profile, first: u64, count: u64) -> Tally {
    let jobs = (0..count / JOB).map(|job| (profile, first + job * JOB));
    let total = parallel::total(jobs.collect(), run_job);
    println!("{}, pairs from {first}: {total:?}", profile.name);
    total
}

#[test]
fn more_congestion_never_allows_a_higher_rate() {
    let tally = run_pairs(SPACED, lists::seed(), 10_000);
    assert!(tally.compared >= 20_000_000, "{tally:?}");
    assert!(tally.lower >= 2_000_000, "{tally:?}");
    assert!(tally.raised >= 200_000, "{tally:?}");
    assert!(tally.lowered >= 200_000, "{tally:?}");
    assert!(tally.made >= 100_000, "{tally:?}");
    assert!(tally.outside >= 100_000, "{tally:?}");
    assert!(tally.outside_lower >= 10_000, "{tally:?}");
    assert!(tally.members >= 200_000, "{tally:?}");
    assert!(tally.cut_off < tally.pairs / 10, "{tally:?}");
}

#[test]
fn nor_without_a_minimum() {
    let tally = run_pairs(NO_MINIMUM, lists::seed(), 5_000);
    assert!(tally.lower >= 500_000, "{tally:?}");
    assert!(tally.stopped >= 200_000, "{tally:?}");
    assert!(tally.outside >= 50_000, "{tally:?}");
    assert!(tally.outside_lower >= 5_000, "{tally:?}");
}

#[test]
fn nor_on_lists_of_every_profile_until_a_slot_differs() {
    let mut total = Tally::default();
    for (place, profile) in PROFILES.into_iter().enumerate() {
        let first = lists::seed() + 1_000_000 * place as u64;
        let tally = run_pairs(profile, first, profile.share(3_000));
        assert!(tally.compared >= 500_000, "{tally:?}");
        assert!(tally.lower >= 15_000, "{tally:?}");
        total.add(&tally);
    }
    println!("every profile: {total:?}");
    assert!(total.compared >= 55_000_000, "{total:?}");
    assert!(total.cut_off > 0, "{total:?}");
}

//! Random lists of calls, both sides compared. ABR_SEED gives other lists.

use abr_differential::coverage::Coverage;
use abr_differential::library::Difference;
use abr_differential::profile::{Profile, PROFILES};
use abr_differential::{lists, parallel};

/// How many lists of each profile, fewer of those with a full table, and how many
/// of them in one job.
const LISTS: u64 = 3_500;
const JOB: u64 = 10;

/// Each event, refusal and kind must be reached so often.
const LEAST: u64 = 200;

/// So many allowed rates must be compared.
const RATES: u64 = 100_000_000;

/// So many cells of connections must be recorded and judged.
const RECORDED: u64 = 8_000_000;

/// After so many calls the next ready instant must be never, before the last accepted time,
/// at it, after it, and after 2^62.
const NEXTS: [u64; 5] = [5_000_000, 8_000_000, 1_000_000, 15_000_000, 2_000_000];

/// So many times to be passed to a slot must be decided by each of `slot_times::CASES`, and so
/// many must be tried by slots.
const SLOT_TIMES: u64 = 2_000_000;
const TRIED: u64 = 100_000;

/// Runs the lists of a job: a profile's place, and the number of the first.
fn run_job((place, first): (usize, u64)) -> Result<Coverage, Difference> {
    let mut coverage = Coverage::default();
    for seed in first..first + JOB {
        lists::run(seed, PROFILES[place], &mut coverage)?;
    }
    Ok(coverage)
}

/// How many jobs there are of a profile.
fn count(profile: Profile) -> u64 {
    profile.share(LISTS) / JOB
}

/// The jobs of a profile.
fn jobs(place: usize) -> impl Iterator<Item = (usize, u64)> {
    let first = lists::seed() + 1_000_000 * place as u64;
    (0..count(PROFILES[place])).map(move |job| (place, first + job * JOB))
}

#[test]
fn library_and_reference_agree_on_lists_that_reach_every_edge() {
    println!("seed {}", lists::seed());
    let jobs = (0..PROFILES.len()).flat_map(jobs).collect();
    let total = parallel::total(jobs, run_job);
    println!("all: {}", total.summary());
    assert_eq!(total.missing(LEAST), Vec::<String>::new());
    let calls = PROFILES.map(|profile| count(profile) * JOB * lists::length(profile));
    assert_eq!(total.calls, calls.iter().sum());
    assert!(total.rates >= RATES, "{} rates", total.rates);
    let recorded = total.recorded;
    assert!(recorded >= RECORDED, "{recorded} cells recorded");
    let nexts = total.nexts;
    assert_eq!(nexts.iter().sum::<u64>(), total.calls);
    let enough = nexts
        .iter()
        .zip(NEXTS)
        .all(|(count, least)| *count >= least);
    assert!(enough, "next {nexts:?}");
    let decided = total.slot_times;
    assert_eq!(decided.iter().sum::<u64>(), total.calls);
    assert!(
        decided.iter().all(|count| *count >= SLOT_TIMES),
        "{decided:?}"
    );
    assert!(total.tried >= TRIED, "{} tried", total.tried);
}

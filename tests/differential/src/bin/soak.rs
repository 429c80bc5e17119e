//! Random lists without end, or for so many seconds: `soak [SEED [SECONDS]]`. A difference ends
//! it with status 1 and names the list; `soak LIST` then starts with that list.

use std::io::Write;
use std::process::ExitCode;
use std::time::{Duration, Instant};

use abr_differential::coverage::Coverage;
use abr_differential::lists;
use abr_differential::pairs::{self, Tally};
use abr_differential::profile::{NO_MINIMUM, SPACED};

/// How often a progress line comes.
const PROGRESS: Duration = Duration::from_secs(10);

fn main() -> ExitCode {
    let numbers: Result<Vec<u64>, _> = std::env::args().skip(1).map(|text| text.parse()).collect();
    let (first, seconds) = match numbers.as_deref() {
        Ok([]) => (lists::seed(), None),
        Ok([seed]) => (*seed, None),
        Ok([seed, seconds]) => (*seed, Some(Duration::from_secs(*seconds))),
        _ => {
            eprintln!("usage: soak [SEED [SECONDS]]");
            return ExitCode::from(2);
        }
    };
    println!("seed {first}");
    match soak(first, seconds) {
        Ok(()) => ExitCode::SUCCESS,
        Err(difference) => {
            println!("FAILED: {difference}");
            ExitCode::FAILURE
        }
    }
}

/// Runs lists and pairs until one fails, or for the time given.
fn soak(first: u64, time: Option<Duration>) -> Result<(), String> {
    let mut coverage = Coverage::default();
    let mut tally = Tally::default();
    let (start, mut shown) = (Instant::now(), Instant::now());
    for seed in first.. {
        lists::run(seed, lists::profile_of(seed), &mut coverage)?;
        pairs::run(seed, SPACED, &mut tally)?;
        pairs::run(seed, NO_MINIMUM, &mut tally)?;
        let ends = time.is_some_and(|time| start.elapsed() >= time);
        if ends || shown.elapsed() >= PROGRESS {
            shown = Instant::now();
            progress(seed, start.elapsed(), &coverage, &tally);
        }
        if ends {
            break;
        }
    }
    Ok(())
}

fn progress(seed: u64, passed: Duration, coverage: &Coverage, tally: &Tally) {
    println!(
        "{} s: list {seed}, {} calls equal; {} pairs, {} rates in order",
        passed.as_secs(),
        coverage.calls,
        tally.pairs,
        tally.compared
    );
    // A closed pipe must not stop the run.
    let _ = std::io::stdout().flush();
}

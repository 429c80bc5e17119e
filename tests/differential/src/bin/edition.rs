//! The differential lists on an edition: `edition [CALLS]` makes at least so many calls, a
//! million unless it is said, in lists of every profile in turn, library and reference
//! compared. ABR_CONNECTIONS says at the build how many connections the edition has, and ABR_LIB
//! names its archive. A difference ends it with status 1 and names the list, and so does
//! a run that misses what depends on the capacity.

use std::process::ExitCode;

use abr::{COMPARISONS_MAX, CONNECTIONS_MAX};
use abr_differential::coverage::{Coverage, Event};
use abr_differential::library::Difference;
use abr_differential::lists;
use abr_differential::parallel::{self, Counts};
use abr_reference::Refusal;

/// The calls of a run.
const CALLS: u64 = 1_000_000;

/// Each of what depends on the capacity must be reached so often.
const LEAST: u64 = 20;

fn main() -> ExitCode {
    let calls = match std::env::args().nth(1).map(|text| text.parse()) {
        None => CALLS,
        Some(Ok(calls)) => calls,
        Some(Err(_)) => {
            eprintln!("usage: edition [CALLS]");
            return ExitCode::from(2);
        }
    };
    println!("{CONNECTIONS_MAX} connections, seed {}", lists::seed());
    match run(calls) {
        Ok(total) => {
            println!("all: {}", total.summary());
            println!("{CONNECTIONS_MAX} connections: {} calls equal", total.calls);
            ExitCode::SUCCESS
        }
        Err(why) => {
            println!("FAILED: {why}");
            ExitCode::FAILURE
        }
    }
}

/// Runs the lists, each a job, and says what they reached.
fn run(calls: u64) -> Result<Coverage, Difference> {
    if !abr::ffi::abr_matches() {
        return Err("the archive is of another version or edition".to_owned());
    }
    let mut total = Coverage::default();
    for coverage in parallel::run(seeds(calls), run_list)? {
        total.add(&coverage);
    }
    match missing(&total) {
        few if few.is_empty() => Ok(total),
        few => Err(format!("reached fewer than {LEAST} times: {few:?}")),
    }
}

/// The seeds of lists that have so many calls together.
fn seeds(calls: u64) -> Vec<u64> {
    let mut made = 0;
    let enough = |seed: &u64| {
        let before = made;
        made += lists::length(lists::profile_of(*seed));
        before < calls
    };
    (lists::seed()..).take_while(enough).collect()
}

fn run_list(seed: u64) -> Result<Coverage, Difference> {
    let mut coverage = Coverage::default();
    lists::run(seed, lists::profile_of(seed), &mut coverage)?;
    Ok(coverage)
}

/// What depends on the capacity and was reached too rarely, by name: a full table, its refusals,
/// and every number of comparisons.
fn missing(total: &Coverage) -> Vec<String> {
    let full = Refusal::Full.number() as usize;
    let mut counts = vec![
        (total.reached(Event::Full), "full table".to_owned()),
        (total.outcomes[0][full], "open refused".to_owned()),
        (total.outcomes[8][full], "open of a path refused".to_owned()),
    ];
    for number in 1..=COMPARISONS_MAX as usize {
        let count = total.comparisons.iter().map(|sort| sort[number]).sum();
        counts.push((count, format!("{number} comparisons")));
    }
    let few = counts.into_iter().filter(|(count, _)| *count < LEAST);
    few.map(|(count, name)| format!("{name}: {count}"))
        .collect()
}

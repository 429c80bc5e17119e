//! The feedbacks of every source in words.

use abr_support::plot::MS;
use abr_support::svg::{put, thousands};

use super::feedbacks::Run;
use super::sources::{changes, Source, SOURCES};
use super::station::History;

/// A line for each source: its contract, the bound, and the feedbacks after each change of the
/// share.
pub fn table(histories: &[History]) -> String {
    let mut out = String::from(
        "Feedbacks until the allowed rate was at its goal, after each change of the port's share,\n\
         which is at so many milliseconds; in brackets where the goal changed again before, and -\n\
         where it did not change:\n\n\
         source     PCR    MCR  RIF   bound",
    );
    for time in changes() {
        put(&mut out, format_args!("{:>6}", thousands(time / MS)));
    }
    for (place, (source, history)) in SOURCES.iter().zip(histories).enumerate() {
        let (pcr, mcr) = (thousands(source.pcr), thousands(source.mcr));
        let (rif, bound) = (1 << source.r, history.feedbacks.bound);
        let number = place + 1;
        put(
            &mut out,
            format_args!("\n{number:6}  {pcr:>6} {mcr:>6}  1/{rif:<3} {bound:>5}"),
        );
        for counts in columns(source, &history.feedbacks.runs) {
            put(&mut out, format_args!("{counts:>6}"));
        }
    }
    out.push('\n');
    out
}

/// The feedbacks after each change of the share. The first of them passed the port after the
/// change.
fn columns(source: &Source, runs: &[Run]) -> Vec<String> {
    let changes = changes();
    let mut columns = vec![Vec::new(); changes.len()];
    for run in runs {
        let passed = run.begin - source.distance * MS;
        let behind = changes.partition_point(|change| *change <= passed);
        columns[behind - 1].push(feedbacks(run));
    }
    let words = |column: Vec<String>| match column.is_empty() {
        true => "-".to_owned(),
        false => column.join("+"),
    };
    columns.into_iter().map(words).collect()
}

/// The feedbacks of one goal.
fn feedbacks(run: &Run) -> String {
    match run.reached {
        Some(count) => count.to_string(),
        None => format!("({})", run.count),
    }
}

/// The first source that took more feedbacks than the bound to a goal, or left it.
pub fn late(histories: &[History]) -> Option<String> {
    let place = histories
        .iter()
        .position(|history| !history.feedbacks.kept)?;
    let bound = histories[place].feedbacks.bound;
    let source = place + 1;
    Some(format!(
        "source {source} was not at its goal after {bound} feedbacks, or left it"
    ))
}

#[cfg(test)]
mod tests {
    use super::*;
    use crate::closed_loop::feedbacks::Feedbacks;
    use crate::track::Track;

    #[test]
    fn the_first_source_that_is_late() {
        let mut histories: Vec<History> = SOURCES
            .iter()
            .map(|source| History {
                track: Track::default(),
                feedbacks: Feedbacks::new(&source.params().expect("codes")).expect("rates"),
            })
            .collect();
        assert_eq!(late(&histories), None);
        histories[1].feedbacks.kept = false;
        let why = late(&histories).expect("one is late");
        assert!(
            why.starts_with("source 2 was not at its goal after 33 "),
            "{why}"
        );
    }
}

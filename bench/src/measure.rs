//! Times of library and reference, measured alternately, the best of many rounds.

use std::time::Instant;

use abr::COMPARISONS_MAX;

use crate::engines::{Engine, Library, Reference};
use crate::fixture::Fixture;
use crate::traces;
use crate::workload::{self, Row, Workload};

/// Passes over all rows, so that a slow period of the machine affects all rows
/// equally.
const PASSES: u32 = 30;
/// Rounds of each side in a pass. They are short, so that some of them are not
/// interrupted.
const ROUNDS: u32 = 100;
/// Calls in a round.
const CALLS: u64 = 256;

/// A workload on both sides, with the best nanoseconds of each.
struct Pair {
    library: Fixture<Library>,
    reference: Fixture<Reference>,
    best: (f64, f64),
}

impl Pair {
    fn new(connections: u32, workload: Workload) -> Self {
        Pair {
            library: Fixture::new(connections, workload),
            reference: Fixture::new(connections, workload),
            best: (f64::MAX, f64::MAX),
        }
    }

    fn pass(&mut self) {
        for _ in 0..ROUNDS {
            self.best.0 = self.best.0.min(round(&mut self.library));
            self.best.1 = self.best.1.min(round(&mut self.reference));
        }
    }
}

/// Nanoseconds of one call in one round.
fn round<E: Engine>(fixture: &mut Fixture<E>) -> f64 {
    fixture.refill(CALLS);
    let start = Instant::now();
    fixture.run(CALLS);
    start.elapsed().as_nanos() as f64 / CALLS as f64
}

/// The best nanoseconds of library and reference, for each workload.
fn best(workloads: impl Iterator<Item = (u32, Workload)>) -> Vec<(f64, f64)> {
    let mut pairs: Vec<Pair> = workloads.map(|(n, load)| Pair::new(n, load)).collect();
    for _ in 0..PASSES {
        pairs.iter_mut().for_each(Pair::pass);
    }
    pairs.into_iter().map(|pair| pair.best).collect()
}

/// Each row with the best nanoseconds of library and reference.
fn rows() -> Vec<(&'static Row, (f64, f64))> {
    let times = best(workload::rows().map(|row| (row.connections, row.workload)));
    workload::rows().zip(times).collect()
}

/// A table to read.
pub fn table() {
    println!(
        "{:<58} {:>10} {:>10} {:>7}",
        "", "library", "reference", "ratio"
    );
    for (row, (library, reference)) in rows() {
        let (text, ratio) = (row.text, reference / library);
        println!("{text:<58} {library:>7.1} ns {reference:>7.1} ns {ratio:>6.2}x");
        if row.workload.cells() > 0 {
            let [ours, theirs] = [library, reference].map(|ns| speed(row, ns));
            println!("{:<58} {ours:>7.0} MB/s {theirs:>5.0} MB/s", "");
        }
    }
}

/// The octets of the trace that a row judges.
fn octets(row: &Row) -> usize {
    row.workload.trace(traces::octets).len()
}

/// A million octets per second, of a trace judged in so many nanoseconds.
fn speed(row: &Row, nanoseconds: f64) -> f64 {
    octets(row) as f64 * 1e3 / nanoseconds
}

/// Name, text and both times of each row, and the octets and cells of the trace that it
/// judges, with tabs between.
pub fn columns() {
    for (row, (library, reference)) in rows() {
        let (octets, cells) = (octets(row), row.workload.cells());
        let Row { name, text, .. } = row;
        println!("{name}\t{text}\t{library:.1}\t{reference:.1}\t{octets}\t{cells}");
    }
}

/// The numbers of busy connections that are drawn, each twice the one before.
pub fn numbers() -> impl Iterator<Item = u32> {
    (0..=COMPARISONS_MAX).map(|level| 1 << level)
}

/// Slots by the number of busy connections: the number, library, reference.
pub fn by_connections() -> Vec<(u32, f64, f64)> {
    let times = best(numbers().map(|n| (n, Workload::Turns { n: 5 })));
    let points = numbers().zip(times);
    points
        .map(|(n, (library, reference))| (n, library, reference))
        .collect()
}

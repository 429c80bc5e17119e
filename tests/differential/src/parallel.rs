//! Jobs on all processors.

use std::num::NonZero;
use std::sync::{Mutex, MutexGuard};
use std::thread;

use crate::library::Difference;

/// The results of all jobs, in any order, or what went wrong first; the jobs
/// that are not begun by then are left out.
pub fn run<J: Send, T: Send, E: Send>(
    jobs: Vec<J>,
    work: impl Fn(J) -> Result<T, E> + Sync,
) -> Result<Vec<T>, E> {
    let threads = thread::available_parallelism().map_or(1, NonZero::get);
    let jobs = Mutex::new(jobs);
    let results = Mutex::new(Ok(Vec::new()));
    thread::scope(|scope| {
        for _ in 0..threads {
            scope.spawn(|| {
                while let Some(job) = next(&jobs) {
                    let result = work(job);
                    if result.is_err() {
                        lock(&jobs).clear();
                    }
                    add(&mut lock(&results), result);
                }
            });
        }
    });
    results.into_inner().expect("no job panicked")
}

/// Counts that jobs make, each for itself.
pub trait Counts: Default + Send {
    /// Adds those of another job.
    fn add(&mut self, other: &Self);
}

/// The counts of all jobs together.
///
/// # Panics
/// If one of them goes wrong, with what it says.
pub fn total<J: Send, C: Counts>(
    jobs: Vec<J>,
    work: impl Fn(J) -> Result<C, Difference> + Sync,
) -> C {
    let mut total = C::default();
    for counts in run(jobs, work).unwrap_or_else(|why| panic!("{why}")) {
        total.add(&counts);
    }
    total
}

fn lock<T>(mutex: &Mutex<T>) -> MutexGuard<'_, T> {
    mutex.lock().expect("no job panicked")
}

/// Separate from the loop, so that the lock is free while the job runs.
fn next<J>(jobs: &Mutex<Vec<J>>) -> Option<J> {
    lock(jobs).pop()
}

/// Adds a result unless an earlier one is an error.
fn add<T, E>(results: &mut Result<Vec<T>, E>, result: Result<T, E>) {
    match (results.as_mut(), result) {
        (Ok(all), Ok(result)) => all.push(result),
        (Ok(_), Err(error)) => *results = Err(error),
        (Err(_), _) => {}
    }
}

#[cfg(test)]
mod tests {
    use super::*;

    #[test]
    fn every_job_is_done_once() {
        let squares = run((0..1_000).collect(), |n: u64| Ok::<u64, ()>(n * n));
        let mut squares = squares.expect("no error");
        squares.sort_unstable();
        assert!(squares.into_iter().eq((0..1_000).map(|n| n * n)));
    }

    #[test]
    fn an_error_is_the_result() {
        let all_but_one = |n: u64| if n == 500 { Err(n) } else { Ok(n) };
        assert_eq!(run((0..1_000).collect(), all_but_one), Err(500));
    }
}

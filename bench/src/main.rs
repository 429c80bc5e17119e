//! The cost of each call, library and reference.
//!
//! * `abr-bench`: nanoseconds of library and reference and their ratio;
//! * `abr-bench names`: the workloads by name;
//! * `abr-bench times`: the same numbers in columns, for a script;
//! * `abr-bench count NAME library|reference [CALLS]`: one workload in the function
//!   `bench_region`, for callgrind;
//! * `abr-bench picture FILE`: slot cost over the number of connections, an SVG;
//! * `abr-bench links FILE`: slot cost over the number of links, an SVG of what bench/links.c
//!   printed, read from standard input.

mod chart;
mod draw;
mod engines;
mod fixture;
mod measure;
mod traces;
mod workload;

use std::process::ExitCode;

use engines::{Library, Reference};
use fixture::Fixture;
use workload::rows;

fn main() -> ExitCode {
    let words: Vec<String> = std::env::args().skip(1).collect();
    let words: Vec<&str> = words.iter().map(String::as_str).collect();
    match words[..] {
        [] => measure::table(),
        ["names"] => rows().for_each(|row| println!("{}", row.name)),
        ["times"] => measure::columns(),
        ["picture", path] => return picture(path),
        ["links", path] => return links(path),
        ["count", name, side] => return count(name, side, 1_000),
        ["count", name, side, calls] => match calls.parse() {
            Ok(calls) => return count(name, side, calls),
            Err(_) => return usage(),
        },
        _ => return usage(),
    }
    ExitCode::SUCCESS
}

fn usage() -> ExitCode {
    eprintln!(
        "usage: abr-bench [names | times | count NAME library|reference [CALLS] | picture FILE | links FILE]"
    );
    ExitCode::from(2)
}

/// Runs one workload in the function whose instructions callgrind counts.
fn count(name: &str, side: &str, calls: u64) -> ExitCode {
    let Some(row) = rows().find(|row| row.name == name) else {
        return usage();
    };
    match side {
        "library" => Fixture::<Library>::new(row.connections, row.workload).counted(calls),
        "reference" => Fixture::<Reference>::new(row.connections, row.workload).counted(calls),
        _ => return usage(),
    }
    ExitCode::SUCCESS
}

/// Measures slots by the number of connections and draws them.
fn picture(path: &str) -> ExitCode {
    let points = measure::by_connections();
    for (connections, library, reference) in &points {
        println!("{connections} connections: library {library:.1} ns, reference {reference:.1} ns");
    }
    write(path, &draw::picture(&points))
}

/// Draws what is read from standard input.
fn links(path: &str) -> ExitCode {
    let read = std::io::read_to_string(std::io::stdin());
    match read.ok().as_deref().and_then(draw::links) {
        Some(picture) => write(path, &picture),
        None => usage(),
    }
}

fn write(path: &str, picture: &str) -> ExitCode {
    match std::fs::write(path, picture) {
        Ok(()) => ExitCode::SUCCESS,
        Err(error) => {
            eprintln!("{path}: {error}");
            ExitCode::FAILURE
        }
    }
}

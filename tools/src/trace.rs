//! The cells of a trace, one after the other.

use std::fmt;

use abr::{RATE_MAX, TIME_MAX};

use crate::fault::{Fault, Field, Wrong};
use crate::number::{self, Reader};

/// The kinds of a cell, by their numbers in a trace.
#[derive(Debug, Clone, Copy, PartialEq, Eq)]
pub enum Kind {
    Forward = 1,
    Backward = 2,
    Data = 3,
}

impl fmt::Display for Kind {
    fn fmt(&self, f: &mut fmt::Formatter<'_>) -> fmt::Result {
        f.write_str(match self {
            Kind::Forward => "forward",
            Kind::Backward => "backward",
            Kind::Data => "data",
        })
    }
}

/// A cell of a trace.
#[derive(Debug, Clone, Copy, PartialEq, Eq)]
pub struct Cell {
    /// Its number, counted from 1.
    pub number: u64,
    /// The nanoseconds since the one before.
    pub passed: u64,
    /// Those since the first one.
    pub time: u64,
    pub kind: Kind,
    /// The rate in force before it.
    pub rate: u64,
}

/// What stands before the cells.
#[derive(Debug, Clone, Copy, PartialEq, Eq)]
pub struct Head {
    pub n: u64,
    pub trm: u64,
}

impl Head {
    /// Nrm.
    pub fn nrm(&self) -> u64 {
        1 << self.n
    }

    /// Trm in nanoseconds.
    pub fn trm_time(&self) -> u64 {
        100_000_000 >> (7 - self.trm)
    }
}

/// Reads the cells of a trace. Nothing comes behind a fault.
pub struct Cells<'a> {
    reader: Reader<'a>,
    count: u64,
    time: u64,
    failed: bool,
}

/// The head of a trace, and its cells.
pub fn read(octets: &[u8]) -> Result<(Head, Cells<'_>), Fault> {
    let mut reader = Reader::new(octets);
    let n = number_of(&mut reader, Field::N, |n| (1..=8).contains(&n))?;
    let trm = number_of(&mut reader, Field::Trm, |trm| trm <= 7)?;
    let cells = Cells {
        reader,
        count: 0,
        time: 0,
        failed: false,
    };
    Ok((Head { n, trm }, cells))
}

/// The next number, which says this and has a value in range.
fn number_of(
    reader: &mut Reader<'_>,
    field: Field,
    in_range: impl Fn(u64) -> bool,
) -> Result<u64, Fault> {
    let wrong = match reader.number() {
        Ok(value) if in_range(value) => return Ok(value),
        Ok(value) => Wrong::Range(value),
        Err(why) => Wrong::Form(why),
    };
    Err(Fault {
        field,
        wrong,
        octet: reader.at,
        number: reader.numbers,
    })
}

impl Cells<'_> {
    fn cell(&mut self) -> Result<Cell, Fault> {
        self.count += 1;
        let number = self.count;
        let left = if number == 1 { 0 } else { TIME_MAX - self.time };
        let reader = &mut self.reader;
        let passed = number_of(reader, Field::Time(number), |passed| passed <= left)?;
        let kind = number_of(reader, Field::Kind(number), |kind| (1..=3).contains(&kind))?;
        let rate = number_of(reader, Field::Rate(number), |rate| rate <= RATE_MAX)?;
        self.time += passed;
        Ok(Cell {
            number,
            passed,
            time: self.time,
            kind: match kind {
                1 => Kind::Forward,
                2 => Kind::Backward,
                _ => Kind::Data,
            },
            rate,
        })
    }
}

impl Iterator for Cells<'_> {
    type Item = Result<Cell, Fault>;

    fn next(&mut self) -> Option<Self::Item> {
        if self.failed || self.reader.ended() {
            return None;
        }
        let cell = self.cell();
        self.failed = cell.is_err();
        Some(cell)
    }
}

/// The octets of a head and cells.
pub fn octets<'a>(head: Head, cells: impl IntoIterator<Item = &'a Cell>) -> Vec<u8> {
    let mut octets = Vec::new();
    number::put(&mut octets, head.n);
    number::put(&mut octets, head.trm);
    for cell in cells {
        for number in [cell.passed, cell.kind as u64, cell.rate] {
            number::put(&mut octets, number);
        }
    }
    octets
}

//! Where a trace can't be read further, and why.

use std::fmt;

use abr::{Refusal, RATE_MAX};
use abr_support::svg::thousands;

use crate::number::NoNumber;

/// A number of a trace by what it says; those of a cell with the cell's number.
#[derive(Debug, Clone, Copy, PartialEq, Eq)]
pub enum Field {
    N,
    Trm,
    Time(u64),
    Kind(u64),
    Rate(u64),
}

impl fmt::Display for Field {
    fn fmt(&self, f: &mut fmt::Formatter<'_>) -> fmt::Result {
        match self {
            Field::N => write!(f, "n"),
            Field::Trm => write!(f, "the Trm number"),
            Field::Time(cell) => write!(f, "the time of cell {}", thousands(*cell)),
            Field::Kind(cell) => write!(f, "the kind of cell {}", thousands(*cell)),
            Field::Rate(cell) => write!(f, "the rate of cell {}", thousands(*cell)),
        }
    }
}

/// What is wrong with a number.
#[derive(Debug, Clone, Copy, PartialEq, Eq)]
pub enum Wrong {
    /// Its octets.
    Form(NoNumber),
    /// Its value, which is this one.
    Range(u64),
}

/// What a place is counted in: octets of a trace, or numbers of a text.
#[derive(Debug, Clone, Copy, PartialEq, Eq)]
pub enum Unit {
    Octets,
    Numbers,
}

/// A number that is not as it must be.
#[derive(Debug, Clone, Copy, PartialEq, Eq)]
pub struct Fault {
    pub field: Field,
    pub wrong: Wrong,
    /// The octet at which it is seen, counted from 1.
    pub octet: usize,
    /// The place of the number among all numbers, counted from 1.
    pub number: u64,
}

impl Fault {
    /// The refusal that it means.
    pub fn refusal(&self) -> Refusal {
        match self.wrong {
            Wrong::Form(NoNumber::Ended | NoNumber::Missing) => Refusal::TraceEnd,
            Wrong::Form(_) => Refusal::TraceNumber,
            Wrong::Range(_) => Refusal::TraceRange,
        }
    }

    /// It in words, with its place.
    pub fn words(&self, unit: Unit) -> String {
        let (field, place) = (self.field, self.place(unit));
        match self.wrong {
            Wrong::Form(NoNumber::Missing) if field == Field::N => "the trace is empty".to_owned(),
            Wrong::Form(NoNumber::Missing) => format!("the trace ends before {field}"),
            Wrong::Form(NoNumber::Ended) => format!("the trace ends inside {field}"),
            Wrong::Form(NoNumber::NotShortest) => {
                format!("{place}, {field} is not in shortest form")
            }
            Wrong::Form(NoNumber::TooLarge) => format!("{place}, {field} has more than 64 bits"),
            Wrong::Range(value) => {
                let (value, must) = (thousands(value), self.must());
                format!("{place}, {field} is {value}, and {must}")
            }
        }
    }

    /// Where it is seen.
    fn place(&self, unit: Unit) -> String {
        match unit {
            Unit::Octets => format!("at octet {}", thousands(self.octet as u64)),
            Unit::Numbers => format!("at number {}", thousands(self.number)),
        }
    }

    /// What its value must be.
    fn must(&self) -> String {
        match self.field {
            Field::N => "must be 1 to 8".to_owned(),
            Field::Trm => "must be 0 to 7".to_owned(),
            Field::Time(1) => "must be 0, since it is the first".to_owned(),
            Field::Time(_) => "with it the times sum to more than 2^62 ns".to_owned(),
            Field::Kind(_) => "must be 1 (forward), 2 (backward) or 3 (data)".to_owned(),
            Field::Rate(_) => format!("must be at most {}", thousands(RATE_MAX)),
        }
    }
}

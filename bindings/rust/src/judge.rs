//! The judge of other transmitters' traces (the manual, section 18), without a table.

use std::fmt;

use crate::ffi;
use crate::Refusal;

/// The rules that the cells of a trace must follow.
#[derive(Debug, Clone, Copy, PartialEq, Eq, PartialOrd, Ord, Hash)]
#[repr(u32)]
pub enum Rule {
    /// The first cell is forward.
    First = 1,
    /// A later cell is a gap or more after the one before; a rate of 0 breaks it.
    Gap = 2,
    /// A later cell is forward exactly when a forward cell is due.
    Forward = 3,
}

impl Rule {
    /// Its number, that of the header's constant.
    pub const fn number(self) -> u32 {
        self as u32
    }

    /// Its text, the same as beside its number in the C header.
    pub const fn text(self) -> &'static str {
        match self {
            Rule::First => "the first cell is forward",
            Rule::Gap => "a later cell is a gap or more after the one before",
            Rule::Forward => "a later cell is forward exactly when a forward cell is due",
        }
    }
}

impl fmt::Display for Rule {
    fn fmt(&self, f: &mut fmt::Formatter<'_>) -> fmt::Result {
        f.write_str(self.text())
    }
}

/// What a judged trace is.
#[derive(Debug, Clone, Copy, PartialEq, Eq, Hash)]
pub enum Verdict {
    /// Every cell follows the rules.
    Passes,
    /// A cell breaks one.
    Breaks {
        /// The first such cell, counted from 1.
        cell: u64,
        /// The lowest rule that it breaks.
        rule: Rule,
    },
}

/// Judges a trace: the cells that a transmitter sent in its rate on one connection, from
/// the first on. It is a row of numbers, each in octets of seven bits, the low ones first,
/// with the top bit set where another octet follows: n and the Trm number, then three for
/// each cell, how many nanoseconds it went after its predecessor, its kind (forward 1,
/// backward 2, data 3) and the rate in force before it. `include/abr.h` has the rules in
/// full.
///
/// # Errors
/// What is seen at the earliest octet, the first of these at the same one:
/// [`Refusal::TraceNumber`], [`Refusal::TraceRange`]; [`Refusal::TraceEnd`] at the end. A
/// refusal goes before any broken rule.
///
/// ```
/// use abr::{Refusal, Rule, Verdict};
/// // Nrm 32, Trm 100 ms; a forward cell; a million nanoseconds later data, at 512,000.
/// let trace = [5, 7, 0, 1, 0, 0xC0, 0x84, 0x3D, 3, 0x80, 0xA0, 0x1F];
/// assert_eq!(abr::judge(&trace), Ok(Verdict::Passes));
/// let mut early = trace;
/// early[5] -= 1; // a nanosecond less
/// let verdict = Verdict::Breaks { cell: 2, rule: Rule::Gap };
/// assert_eq!(abr::judge(&early), Ok(verdict));
/// assert_eq!(abr::judge(&trace[..2]), Ok(Verdict::Passes)); // no cell
/// assert_eq!(abr::judge(&trace[..1]), Err(Refusal::TraceEnd));
/// assert_eq!(abr::judge(&[0x85, 0]), Err(Refusal::TraceNumber));
/// assert_eq!(abr::judge(&[9]), Err(Refusal::TraceRange));
/// ```
pub fn judge(trace: &[u8]) -> Result<Verdict, Refusal> {
    // SAFETY: the pointer is live and the length is the slice's own.
    let verdict = unsafe { ffi::abr_judge(trace.as_ptr(), trace.len()) };
    Refusal::outcome(verdict.refusal)?;
    let rule = match verdict.rule {
        0 => return Ok(Verdict::Passes),
        1 => Rule::First,
        2 => Rule::Gap,
        3 => Rule::Forward,
        other => unreachable!("the library answered rule {other}"),
    };
    let cell = verdict.cell;
    Ok(Verdict::Breaks { cell, rule })
}

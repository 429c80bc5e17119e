//! What a sentence and a picture say of a trace, from one reading of its cells.

use std::collections::VecDeque;

use abr::{Refusal, Rule, Verdict};

use crate::fault::Fault;
use crate::history::History;
use crate::trace::{read, Cell, Head};

/// The most cells that are shown before the one that breaks a rule, and behind it.
const BEFORE: usize = 47;
const BEHIND: usize = 16;

/// A part of a trace.
#[derive(Debug, Clone, Default)]
pub struct Excerpt {
    /// None if it can't be read.
    pub head: Option<Head>,
    /// The cells to show: those around the one that breaks a rule, or the first ones, or the
    /// last ones before the fault.
    pub cells: VecDeque<Cell>,
    /// The cell that breaks a rule.
    pub broken: Option<Broken>,
    /// The last cell that can be read; its number is the count of all.
    pub last: Option<Cell>,
    /// Where the trace can't be read further.
    pub fault: Option<Fault>,
}

/// A cell that breaks a rule.
#[derive(Debug, Clone, Copy)]
pub struct Broken {
    pub number: u64,
    pub rule: Rule,
    /// None until it is read.
    pub cell: Option<Cell>,
    /// What is before it; none before the first.
    pub history: Option<History>,
}

impl Excerpt {
    /// What is said of a trace with this outcome.
    pub fn of(octets: &[u8], outcome: Result<Verdict, Refusal>) -> Self {
        let mut excerpt = Excerpt::default();
        if let Ok(Verdict::Breaks { cell, rule }) = outcome {
            excerpt.broken = Some(Broken {
                number: cell,
                rule,
                cell: None,
                history: None,
            });
        }
        excerpt.fault = excerpt.read(octets, outcome.is_err()).err();
        excerpt
    }

    /// Reads the whole trace.
    fn read(&mut self, octets: &[u8], refused: bool) -> Result<(), Fault> {
        let to = match (&self.broken, refused) {
            (Some(broken), _) => broken.number.saturating_add(BEHIND as u64),
            (None, false) => (BEFORE + 1 + BEHIND) as u64,
            (None, true) => u64::MAX,
        };
        let (head, cells) = read(octets)?;
        self.head = Some(head);
        for cell in cells {
            let cell = cell?;
            self.last = Some(cell);
            if let Some(broken) = &mut self.broken {
                broken.add(cell);
            }
            if cell.number <= to {
                self.cells.push_back(cell);
            }
            if self.cells.len() > BEFORE + 1 + BEHIND {
                self.cells.pop_front();
            }
        }
        Ok(())
    }
}

impl Broken {
    /// A cell that is read, up to this one.
    fn add(&mut self, cell: Cell) {
        if cell.number == self.number {
            self.cell = Some(cell);
        } else if self.cell.is_none() {
            self.history = Some(match self.history {
                None => History::new(cell),
                Some(history) => history.after(cell),
            });
        }
    }
}

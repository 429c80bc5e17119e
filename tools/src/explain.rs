//! A verdict in a sentence.

use abr::{Refusal, Rule, Verdict, RATE_ONE};
use abr_support::svg::thousands;

use crate::excerpt::Excerpt;
use crate::fault::Unit;
use crate::history::{gap, Due, History};
use crate::trace::{Cell, Head};

/// The sentence for what the library says of a trace.
pub fn sentence(excerpt: &Excerpt, outcome: Result<Verdict, Refusal>, unit: Unit) -> String {
    match outcome {
        Ok(Verdict::Passes) => passes(excerpt.last),
        Ok(Verdict::Breaks { cell, rule }) => {
            let why = broken(excerpt).unwrap_or_else(|| rule.text().to_owned());
            format!(
                "cell {} breaks rule {}: {why}",
                thousands(cell),
                rule.number()
            )
        }
        Err(refusal) => {
            let fault = excerpt.fault.filter(|fault| fault.refusal() == refusal);
            let words = fault.map_or_else(|| refusal.to_string(), |fault| fault.words(unit));
            format!("refused with {}: {words}", refusal.number())
        }
    }
}

/// A trace passes, whose last cell is this one.
fn passes(last: Option<Cell>) -> String {
    match last {
        None => "passes: it has no cell".to_owned(),
        Some(Cell { number: 1, .. }) => "passes: its one cell is forward".to_owned(),
        Some(last) => format!(
            "passes: {} cells in {} ns follow the rules",
            thousands(last.number),
            thousands(last.time)
        ),
    }
}

/// What was expected of a cell and what it is; nothing if the trace doesn't show it.
fn broken(excerpt: &Excerpt) -> Option<String> {
    let (head, broken) = (excerpt.head?, excerpt.broken?);
    let cell = broken.cell?;
    match (broken.rule, broken.history) {
        (Rule::First, None) => Some(first(cell)),
        (Rule::Gap, Some(history)) => Some(early(cell, &history)),
        (Rule::Forward, Some(history)) => Some(kind(cell, head, &history)),
        _ => None,
    }
}

fn first(cell: Cell) -> String {
    format!(
        "the first cell must be a forward cell, and it is a {} cell",
        cell.kind
    )
}

fn early(cell: Cell, history: &History) -> String {
    let (before, passed) = (thousands(history.last.number), thousands(cell.passed));
    let Some(gap) = gap(cell.rate) else {
        return format!(
            "at rate 0 no cell may follow, and it comes {passed} ns after cell {before}"
        );
    };
    let (rate, gap) = (rate(cell.rate), thousands(gap));
    format!("at {rate} it must come {gap} ns or more after cell {before}, and it comes {passed} ns after it")
}

/// A rate in units and in cells per second.
fn rate(rate: u64) -> String {
    let cells = rate as f64 / RATE_ONE as f64;
    format!("rate {} ({cells:.3} cells/s)", thousands(rate))
}

fn kind(cell: Cell, head: Head, history: &History) -> String {
    let since = thousands(cell.time - history.forward.time);
    let forward = thousands(history.forward.number);
    let (nrm, trm) = (head.nrm(), thousands(head.trm_time()));
    let cells = match history.k {
        1 => "1 cell".to_owned(),
        k => format!("{} cells", thousands(k)),
    };
    let gone = format!("{cells} and {since} ns after the last forward cell, cell {forward}");
    let why = match history.due(head, cell.time) {
        Some(Due::Count) => format!("a forward cell is due, {gone} (Nrm - 1 is {})", nrm - 1),
        Some(Due::Time) => format!("a forward cell is due, {gone} (two cells and Trm, {trm} ns)"),
        None => format!("no forward cell is due, {gone} (Nrm is {nrm}, Trm {trm} ns)"),
    };
    format!("{why}, and it is a {} cell", cell.kind)
}

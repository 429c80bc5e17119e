//! Traces drawn from a seed, each with the verdict that it must get. A transmitter that
//! follows the rules makes one; then one thing is changed in it, or nothing. The verdict
//! follows from the change, and not from the reference.

mod changes;
mod transmitter;

use abr_reference::Refusal;

use crate::coverage::Event;
use crate::rng::Rng;
use crate::trace::{put, Trace};
use changes::CHANGES;
use transmitter::Transmitter;

/// Cell and rule, zeros if the trace passes; or the refusal.
pub type Verdict = Result<(u64, u32), Refusal>;

/// A drawn trace.
pub struct Drawn {
    pub octets: Vec<u8>,
    pub verdict: Verdict,
    /// What it is an example of.
    pub events: Vec<Event>,
}

impl Drawn {
    /// The trace of a seed.
    pub fn new(seed: u64) -> Self {
        let mut rng = Rng::new(seed);
        let mut draft = Draft::new(&mut rng);
        if rng.once_in(2) {
            draft.end_late(&mut rng);
            return Drawn {
                octets: draft.octets(),
                verdict: Ok((0, 0)),
                events: draft.transmitter.events,
            };
        }
        let (event, change) = rng.pick(&CHANGES);
        let verdict = change(&mut draft, &mut rng);
        Drawn {
            octets: draft.octets(),
            verdict,
            events: vec![event],
        }
    }
}

/// A trace that is being changed.
struct Draft {
    transmitter: Transmitter,
    trace: Trace,
    /// Whether each cell is one at which a forward cell is due.
    due: Vec<bool>,
    /// Places of numbers that have other octets than their own.
    other: Vec<(usize, Vec<u8>)>,
    /// The octets that are left of it, if not all.
    cut: Option<usize>,
}

impl Draft {
    /// A trace that passes, of three cells at least.
    fn new(rng: &mut Rng) -> Self {
        let transmitter = Transmitter::new(rng);
        let (n, trm) = (transmitter.n, transmitter.trm);
        let mut draft = Draft {
            transmitter,
            trace: Trace::new(n, trm),
            due: Vec::new(),
            other: Vec::new(),
            cut: None,
        };
        for _ in 0..rng.within(3, 40) {
            draft.send(rng);
        }
        draft
    }

    /// Sometimes the transmitter sends one more cell, at the last instant.
    fn end_late(&mut self, rng: &mut Rng) {
        if rng.once_in(8) {
            self.transmitter.jump_to_the_end();
            self.send(rng);
        }
    }

    /// The transmitter sends a cell.
    fn send(&mut self, rng: &mut Rng) {
        let ([time, kind, rate], due) = self.transmitter.send(rng);
        self.trace.push(time, kind, rate);
        self.due.push(due);
    }

    /// The octets of its numbers, those changed and those not.
    fn octets(&self) -> Vec<u8> {
        let mut octets = Vec::new();
        for (place, number) in self.trace.numbers.iter().enumerate() {
            match self.other.iter().find(|(other, _)| *other == place) {
                Some((_, changed)) => octets.extend(changed),
                None => put(&mut octets, *number),
            }
        }
        octets.truncate(self.cut.unwrap_or(octets.len()));
        octets
    }
}

//! How many feedbacks a source takes to its goal. Feedbacks without marks and with one explicit
//! rate bring the allowed rate to that rate, held between minimum and peak, and leave it there:
//! with a bound on their number that the contract alone decides.

use abr::{Params, Refusal, Rm};

/// The feedbacks of one goal, from the first on.
#[derive(Debug, Clone, Copy, PartialEq, Eq)]
pub struct Run {
    /// The time of the first.
    pub begin: u64,
    /// The rate that they lead to.
    goal: u64,
    /// The feedbacks so far.
    pub count: u64,
    /// How many of them it took to the goal, if it was reached.
    pub reached: Option<u64>,
    /// The rate after the last.
    last: u64,
}

/// The feedbacks of one source.
pub struct Feedbacks {
    pcr: u64,
    mcr: u64,
    /// The most feedbacks that a goal may take.
    pub bound: u64,
    /// One for each goal, in their order.
    pub runs: Vec<Run>,
    /// Whether the next feedback begins a new run.
    marked: bool,
    /// Whether every rate was at its goal after so many feedbacks, and stayed there.
    pub kept: bool,
}

impl Feedbacks {
    /// None yet, of a connection with these parameters, whose rate rises by more than 0.
    pub fn new(params: &Params) -> Result<Self, Refusal> {
        let (pcr, mcr) = (abr::rate(params.pcr)?, abr::rate(params.mcr)?);
        Ok(Feedbacks {
            pcr,
            mcr,
            bound: pcr / (pcr >> params.r) + 1,
            runs: Vec::new(),
            marked: false,
            kept: true,
        })
    }

    /// Counts a feedback at a time, with the allowed rate before and after it.
    pub fn count(&mut self, time: u64, rm: &Rm, before: u64, after: u64) -> Result<(), Refusal> {
        let goal = abr::rate(rm.er)?.min(self.pcr).max(self.mcr);
        let marked = std::mem::replace(&mut self.marked, rm.ci || rm.ni);
        if self.marked {
            return Ok(());
        }
        // Another move may have changed the rate since the last feedback.
        let goes_on = |run: &Run| !marked && (run.goal, run.last) == (goal, before);
        let mut run = match self.runs.pop_if(|run| goes_on(run)) {
            Some(run) => run,
            None => Run {
                begin: time,
                goal,
                count: 0,
                reached: None,
                last: before,
            },
        };
        run.count += 1;
        run.last = after;
        if after == goal {
            run.reached = run.reached.or(Some(run.count));
        } else {
            self.kept &= run.reached.is_none() && run.count < self.bound;
        }
        self.runs.push(run);
        Ok(())
    }
}

#[cfg(test)]
mod tests {
    use super::*;

    const GOAL: u64 = 256_000;

    /// Counts feedbacks that lead to the goal, from one rate to the next.
    fn counted(feedbacks: &mut Feedbacks, rates: &[u64], ci: bool) {
        let er = abr::code(GOAL).expect("a code");
        let rm = Rm {
            er,
            ci,
            ..Rm::default()
        };
        for pair in rates.windows(2) {
            feedbacks.count(0, &rm, pair[0], pair[1]).expect("a rate");
        }
    }

    /// No feedbacks yet, with a peak of 512,000 in steps of 32,000.
    fn none() -> Feedbacks {
        let params = Params::house(0x53E8, 0, 0x4000);
        Feedbacks::new(&params).expect("rates")
    }

    /// From 0 to the goal with this step, and once more.
    fn rising(step: usize) -> Vec<u64> {
        (0..=GOAL).step_by(step).chain([GOAL]).collect()
    }

    #[test]
    fn feedbacks_to_a_goal() {
        let mut feedbacks = none();
        assert_eq!(feedbacks.bound, 17);
        counted(&mut feedbacks, &rising(32_000), false);
        // Another move has changed the rate: the goal is the same, and it is counted anew.
        counted(&mut feedbacks, &[GOAL - 32_000, GOAL, GOAL], false);
        let reached: Vec<_> = feedbacks.runs.iter().map(|run| run.reached).collect();
        assert_eq!((reached, feedbacks.kept), (vec![Some(8), Some(1)], true));
    }

    #[test]
    fn more_feedbacks_than_the_bound() {
        for (step, kept) in [(16_000, true), (15_000, false)] {
            let mut feedbacks = none();
            let mut rates = rising(step);
            rates.truncate(18);
            counted(&mut feedbacks, &rates, false);
            assert_eq!(feedbacks.kept, kept, "{step}");
        }
    }

    #[test]
    fn a_goal_that_is_left() {
        let mut feedbacks = none();
        counted(&mut feedbacks, &[0, GOAL, GOAL - 1], false);
        assert!(!feedbacks.kept);
    }

    /// A marked feedback leads elsewhere; what follows is counted anew.
    #[test]
    fn marks() {
        let mut feedbacks = none();
        counted(&mut feedbacks, &[GOAL, GOAL], false);
        counted(&mut feedbacks, &[GOAL, GOAL / 2, GOAL], true);
        counted(&mut feedbacks, &[GOAL, GOAL], false);
        assert_eq!((feedbacks.runs.len(), feedbacks.kept), (2, true));
    }
}

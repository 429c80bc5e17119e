//! A transmitter that follows the rules, and likes their edges.

use abr::{RATE_MAX, TIME_MAX};

use crate::coverage::Event;
use crate::edges;
use crate::rng::Rng;

/// What it knows of its connection.
pub struct Transmitter {
    pub n: u64,
    pub trm: u64,
    /// Cells since the last forward cell, which was sent then; none before the first.
    sent: Option<(u64, u64)>,
    time: u64,
    /// Whether the next cell is the last, as late as one may be.
    last: bool,
    /// The edges that it met.
    pub events: Vec<Event>,
}

impl Transmitter {
    /// One with n and a Trm number of its own.
    pub fn new(rng: &mut Rng) -> Self {
        let any = [rng.within(1, 8), rng.within(0, 7)].map(u64::from);
        Transmitter {
            n: rng.pick(&[1, 2, 2, 3, 3, 4, 8, any[0]]),
            trm: rng.pick(&[0, 0, 1, 7, any[1]]),
            sent: None,
            time: 0,
            last: false,
            events: Vec::new(),
        }
    }

    /// Trm in nanoseconds.
    fn trm_time(&self) -> u64 {
        edges::trm_time(self.trm)
    }

    /// Lets the next cell, which is the last, come at 2^62, counted from the first.
    pub fn jump_to_the_end(&mut self) {
        self.last = true;
    }

    /// Sends a cell: its time, kind and rate, and whether a forward cell was due.
    pub fn send(&mut self, rng: &mut Rng) -> ([u64; 3], bool) {
        let rate = any_rate(rng);
        let Some((k, forward)) = self.sent else {
            self.sent = Some((0, 0));
            return ([0, 1, rng.pick(&[rate, rate, 0])], true);
        };
        let passed = self.passed(rate, forward, rng);
        self.time += passed;
        let since = self.time - forward;
        let all_but_one = (1 << self.n) - 1;
        let due = k == all_but_one || (k >= 2 && since >= self.trm_time());
        let edges = edges::of_kind(self.n, self.trm_time(), k, since);
        self.events.extend(edges);
        self.sent = Some(if due {
            (0, self.time)
        } else {
            (k + 1, forward)
        });
        let kind = if due { 1 } else { rng.pick(&[2, 3, 3]) };
        ([passed, kind, rate], due)
    }

    /// The time of a later cell, since the one before: mostly on an edge.
    fn passed(&mut self, rate: u64, forward: u64, rng: &mut Rng) -> u64 {
        let gap = abr_reference::gap(rate).expect("a rate above 0");
        let left = TIME_MAX - self.time;
        if self.last {
            self.events.push(Event::TraceTimeMax);
            return left;
        }
        let to_trm = (forward + self.trm_time()).saturating_sub(self.time);
        let before = to_trm.saturating_sub(1);
        let later = gap + rng.below(2 * gap);
        let passed = rng.pick(&[gap, gap, gap, to_trm, before, later]).max(gap);
        if passed == gap {
            self.events.push(Event::TraceGapExact);
        }
        passed
    }
}

/// A rate above 0 whose gap is not too long for forty cells.
fn any_rate(rng: &mut Rng) -> u64 {
    let most = RATE_MAX >> rng.below(41);
    let any = 1 + rng.below(most);
    let coded = abr_reference::rate_of(rng.within(0x4000, 0x7FFF));
    rng.pick(&[any, coded, coded, 512_000, 1_536, RATE_MAX, 1])
}

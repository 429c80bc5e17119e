//! Times just before, at and after those at which a connection changes.

use abr::TIME_MAX;

use super::Generator;
use crate::observation::{Connection, Observation};

impl Generator {
    /// The time of a list's first open.
    pub(super) fn start(&mut self) -> u64 {
        match self.profile.before_end {
            Some(span) => TIME_MAX - self.rng.below(span),
            None => self.rng.below(1_000),
        }
    }

    /// The time of a slot: mostly on or beside an edge of some connection.
    pub(super) fn time(&mut self, seen: &Observation) -> u64 {
        if self.fault() {
            let any = self.rng.next() >> 2;
            let over = TIME_MAX + 1;
            let before = seen.last.saturating_sub(1);
            return self
                .rng
                .pick(&[before, before, 0, any % (seen.last + 1), over, u64::MAX]);
        }
        if self.profile.spaced {
            return self.spaced_time(seen);
        }
        let edge = self.edge(seen).max(seen.last);
        match self.profile.before_end {
            Some(_) if self.rng.once_in(200) => TIME_MAX,
            _ if edge > TIME_MAX => seen.last,
            _ => edge,
        }
    }

    /// The time of a made or an out-of-rate cell: mostly that of the last call,
    /// sometimes the end of the interval since the connection's last such cell, if
    /// there was one, or a nanosecond before.
    pub(super) fn time_after(&mut self, seen: &Observation, end: Option<u64>) -> u64 {
        if self.fault() {
            return self.time(seen);
        }
        let last = seen.last;
        let Some(end) = end else {
            return last;
        };
        let time = self.rng.pick(&[last, last, last, end, end, end - 1]);
        if time > TIME_MAX {
            last
        } else {
            time.max(last)
        }
    }

    /// Long enough after the last slot that a gap makes no difference.
    fn spaced_time(&mut self, seen: &Observation) -> u64 {
        let far = 1 + self.rng.below(40_000_000);
        let near = 3_000 + self.rng.below(20_000);
        seen.last + self.rng.pick(&[near, near, near, near.max(far)])
    }

    /// An instant at which a connection changes, or one beside it.
    fn edge(&mut self, seen: &Observation) -> u64 {
        let last = seen.last;
        let place = self.rng.below(seen.connections.len().max(1) as u64) as usize;
        let step = 1 + self.rng.below(20);
        let Some(connection) = seen.connections.values().nth(place) else {
            return last + step;
        };
        let earliest = seen
            .connections
            .values()
            .filter_map(Connection::ready)
            .min();
        let earliest = earliest.unwrap_or(last);
        let (Some(sends), Some(gap)) = (connection.sends, abr_reference::gap(connection.acr))
        else {
            return self.rng.pick(&[last, last + step, earliest]);
        };
        let (due, trm, adtf) = (sends.last + gap, connection.trm(), connection.adtf());
        let random = last + self.rng.below(2 * gap + 1);
        let edges = [
            (30, earliest),
            (8, earliest.saturating_sub(1)),
            (12, due),
            (4, due - 1),
            (12, last),
            (4, last + step),
            (8, random),
            (5, sends.forward + trm),
            (5, sends.forward + trm - 1),
            (3, sends.forward + adtf),
            (3, sends.forward + adtf + 1),
        ];
        edges[self.rng.weighted(&edges.map(|(weight, _)| weight))].1
    }
}

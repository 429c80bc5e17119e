//! Capacities, lists of demands and cells that pass a port (document 02, L10).

use abr::{DEMANDS_MAX, RATE_MAX};

use super::Generator;
use crate::call::Call;
use crate::demands::Demands;
use crate::observation::Observation;

impl Generator {
    pub(super) fn fair_share(&mut self) -> Call {
        let (capacity, demands) = self.shared();
        Call::FairShare { capacity, demands }
    }

    pub(super) fn limit(&mut self, seen: &Observation) -> Call {
        let (any, near) = (self.rng.next(), self.rate().min(RATE_MAX));
        let edges = [near, near, near, 0, RATE_MAX, RATE_MAX + 1, u64::MAX, any];
        Call::Limit {
            rate: self.rng.pick(&edges),
            cell: self.cell(seen),
        }
    }

    pub(super) fn port(&mut self, seen: &Observation) -> Call {
        let (capacity, demands) = self.shared();
        Call::Port {
            capacity,
            demands,
            cell: self.cell(seen),
        }
    }

    /// A capacity and the demands that it is shared among: mostly near their sum or a part
    /// of it.
    fn shared(&mut self) -> (u64, Demands) {
        let demands = self.demands();
        let sum = demands
            .list()
            .iter()
            .fold(0, |sum: u64, demand| sum.saturating_add(*demand));
        let count = demands.count as u64;
        let (any, part) = (
            self.rng.next(),
            self.rng.below(sum.saturating_add(1).max(1)),
        );
        let edges = [
            part,
            part,
            part,
            part - part % count.max(1),
            sum,
            sum.saturating_sub(1),
            sum.saturating_add(1),
            count.saturating_sub(1),
            count,
            0,
            u64::MAX,
            any,
        ];
        (self.rng.pick(&edges), demands)
    }

    /// Few demands or, once in a while, as many as there may be, or more; sometimes one of
    /// them is too large.
    fn demands(&mut self) -> Demands {
        let few = self.rng.below(9) as usize;
        let many = self.rng.below(DEMANDS_MAX as u64) as usize;
        let more = DEMANDS_MAX + 1 + self.rng.below(2) as usize;
        let counts = [(40, few), (1, many), (1, DEMANDS_MAX)];
        let count = if self.fault() {
            more
        } else {
            counts[self.rng.weighted(&counts.map(|(weight, _)| weight))].1
        };
        let above = self.fault().then(|| {
            let place = self.rng.below(count.max(1) as u64) as usize;
            (place, self.rng.pick(&[1, 2, 1 << 20, u64::MAX]))
        });
        let bits = self.rng.below(42);
        let near = 1 + self.rate().min(RATE_MAX - 1);
        Demands {
            count,
            most: self.rng.pick(&[RATE_MAX, RATE_MAX >> bits, near]),
            seed: self.rng.next(),
            above,
        }
    }
}

//! The ten sources: what they are sold, how far they are, and what they demand when.

use abr::{Params, Refusal, RATE_ONE};
use abr_support::plot::MS;

/// How long the scene lasts.
pub const END: u64 = 3_000 * MS;

/// A source. Its rates are in cells per second.
pub struct Source {
    pub pcr: u64,
    pub mcr: u64,
    /// RIF is 1/2^r.
    pub r: u32,
    /// From the source to the port, in milliseconds.
    pub distance: u64,
    /// What it demands: from and to, in milliseconds, and the rate.
    pub demands: &'static [(u64, u64, u64)],
}

/// A source with this peak rate that is in nothing else out of the ordinary.
const fn peak(pcr: u64, demands: &'static [(u64, u64, u64)]) -> Source {
    Source {
        pcr,
        mcr: 0,
        r: 4,
        distance: 5,
        demands,
    }
}

/// The sources. One that demands its peak rate takes all that it is allowed.
pub static SOURCES: [Source; 10] = [
    peak(10_000, &[(0, 3_000, 10_000)]),
    Source {
        r: 5,
        distance: 15,
        ..peak(10_000, &[(0, 2_800, 10_000)])
    },
    peak(3_000, &[(0, 3_000, 3_000)]),
    peak(10_000, &[(0, 900, 10_000), (1_500, 2_500, 10_000)]),
    Source {
        mcr: 3_000,
        ..peak(10_000, &[(400, 2_800, 10_000)])
    },
    peak(10_000, &[(400, 1_700, 1_200), (1_700, 3_000, 2_400)]),
    peak(8_000, &[(800, 1_900, 8_000)]),
    Source {
        r: 5,
        distance: 20,
        ..peak(10_000, &[(800, 1_900, 10_000)])
    },
    peak(10_000, &[(1_200, 2_200, 1_500)]),
    Source {
        r: 6,
        ..peak(10_000, &[(1_200, 2_200, 10_000)])
    },
];

impl Source {
    /// The rate demanded at an instant, in cells per second, 0 for none.
    pub fn demand(&self, time: u64) -> u64 {
        let now = |(from, to, _): &&(u64, u64, u64)| (from * MS..to * MS).contains(&time);
        self.demands.iter().find(now).map_or(0, |demand| demand.2)
    }

    /// When its connection is opened and when it is closed.
    pub fn lifetime(&self) -> (u64, u64) {
        let begin = self.demands.first().map_or(0, |demand| demand.0);
        let end = self.demands.last().map_or(0, |demand| demand.1);
        (begin * MS, end * MS)
    }

    /// The parameters of its connection. After a pause of more than 200 ms it comes down to its
    /// initial rate.
    pub fn params(&self) -> Result<Params, Refusal> {
        let code = |cells: u64| abr::code(cells * RATE_ONE);
        let initial = code(self.mcr.max(1_000))?;
        let mut params = Params::house(code(self.pcr)?, code(self.mcr)?, initial);
        (params.r, params.adtf) = (self.r, 20);
        Ok(params)
    }
}

/// The instants at which a demand comes, changes or goes.
pub fn changes() -> Vec<u64> {
    let spans = SOURCES.iter().flat_map(|source| source.demands);
    let mut changes: Vec<u64> = spans.flat_map(|span| [span.0 * MS, span.1 * MS]).collect();
    changes.sort_unstable();
    changes.dedup();
    changes.retain(|time| *time < END);
    changes
}

//! The port that the sources share.

use abr::{Refusal, Share, RATE_ONE};
use abr_support::delay::Octets;

use super::sources::SOURCES;

/// The cells per second that the port can carry.
pub const CAPACITY: u64 = 24_000;

/// The port at an instant.
pub struct Port {
    /// What there is to share.
    capacity: u64,
    /// The demands that it is shared among.
    demands: Vec<u64>,
}

impl Port {
    /// The port, which is told the demands of an instant. A connection whose minimum is above
    /// the share has its minimum, and the others share the rest. The capacity is enough for
    /// every minimum.
    pub fn at(time: u64) -> Result<Self, Refusal> {
        let demands = SOURCES.iter().map(|source| source.demand(time) * RATE_ONE);
        let mut port = Port {
            capacity: CAPACITY * RATE_ONE,
            demands: demands.collect(),
        };
        let minimums = SOURCES.iter().map(|source| source.mcr * RATE_ONE);
        let mut minimums: Vec<u64> = minimums.collect();
        while let Share::Rate(share) = port.share()? {
            let above = |(minimum, demand): (&u64, &u64)| *minimum.min(demand) > share;
            let Some(place) = minimums.iter().zip(&port.demands).position(above) else {
                break;
            };
            port.capacity -= minimums.remove(place).min(port.demands.remove(place));
        }
        Ok(port)
    }

    /// The share that each of the demands may have at most.
    pub fn share(&self) -> Result<Share, Refusal> {
        abr::fair_share(self.capacity, &self.demands)
    }

    /// A cell that passes on its way to a source.
    pub fn pass(&self, cell: &mut Octets) -> Result<(), Refusal> {
        abr::port(self.capacity, &self.demands, cell)
    }
}

//! The scenarios that traces are recorded from.

use abr::{Address, Refusal};
use abr_support::scenario as pictured;

use crate::random;
use crate::record::Recorder;

/// A scenario by its name.
#[derive(Debug, Clone, Copy, PartialEq, Eq)]
pub enum Scenario {
    /// The two connections that examples/picture draws.
    Two,
    /// Connections, data, feedback and slots drawn from a seed.
    Random(u64),
}

impl Scenario {
    /// The connections of the scenario, each with the trace of its cells.
    pub fn run(self) -> Result<Vec<(Address, Recorder)>, Refusal> {
        match self {
            Scenario::Two => two(),
            Scenario::Random(seed) => random::run(seed),
        }
    }
}

fn two() -> Result<Vec<(Address, Recorder)>, Refusal> {
    let recorders = pictured::params()?.map(|params| Recorder::new(&params));
    let connections = pictured::CONNECTIONS.into_iter();
    let mut traces: Vec<_> = connections.zip(recorders).collect();
    pictured::run(|slot| {
        if let Some(sent) = slot.sent {
            traces[sent.leaf as usize].1.sent(slot.time, &sent);
        }
    })?;
    Ok(traces)
}

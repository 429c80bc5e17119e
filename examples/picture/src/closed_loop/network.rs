//! The network between ten sources and the far end, with the port in it.

use abr::{Address, Params, Refusal, Share, Table, CELL_OCTETS, RATE_ONE};
use abr_support::delay::DelayLine;
use abr_support::plot::MS;
use abr_support::refusals::accepted_too;

use super::port::Port;
use super::sources::{changes, Source, END, SOURCES};
use super::station::{History, Station};

/// Every link has 200,000 slots a second.
const SLOT: u64 = 5_000;
/// From the port to the far end, in milliseconds.
const FAR: u64 = 2;
/// The VPI of every connection.
const VPI: u32 = 1;
/// The VCI of the first source; the others follow.
const FIRST: u32 = 32;

/// A source and its ways: to the far end, from there to the port, from the port to the source.
struct Branch {
    station: Station,
    lifetime: (u64, u64),
    there: DelayLine,
    to_port: DelayLine,
    back: DelayLine,
}

/// The sources, and one engine at the far end for all their connections.
struct Network {
    branches: Vec<Branch>,
    far: Table,
}

/// Runs the scene.
pub fn run() -> Result<Vec<History>, Refusal> {
    let mut network = Network::new()?;
    for time in (0..END).step_by(SLOT as usize) {
        network.slot(time)?;
    }
    let histories = network.branches.into_iter().map(|branch| {
        let mut history = branch.station.history;
        history.track.end(branch.lifetime.1);
        history
    });
    Ok(histories.collect())
}

/// The milliseconds from a source to the far end and back.
pub fn round_trip(source: &Source) -> u64 {
    2 * (source.distance + FAR)
}

/// The share in cells per second from each change of the demands on; none if there is no limit.
pub fn shares() -> Result<Vec<(u64, Option<f64>)>, Refusal> {
    let share = |time: u64| match Port::at(time)?.share()? {
        Share::Rate(rate) => Ok((time, Some(rate as f64 / RATE_ONE as f64))),
        Share::NoLimit => Ok((time, None)),
    };
    changes().into_iter().map(share).collect()
}

/// The connections of the sources, in their order.
fn addresses() -> impl Iterator<Item = Address> {
    (FIRST..).map(|vci| Address::new(VPI, vci))
}

impl Network {
    fn new() -> Result<Self, Refusal> {
        let branch = |(source, at): (&'static Source, Address)| {
            let (near, far) = (source.distance * MS, FAR * MS);
            Ok(Branch {
                station: Station::new(source, at)?,
                lifetime: source.lifetime(),
                there: DelayLine::new(near + far),
                to_port: DelayLine::new(far),
                back: DelayLine::new(near),
            })
        };
        let branches = SOURCES.iter().zip(addresses()).map(branch);
        Ok(Network {
            branches: branches.collect::<Result<_, _>>()?,
            far: Table::new(),
        })
    }

    /// What happens at the time of a slot.
    fn slot(&mut self, time: u64) -> Result<(), Refusal> {
        for (branch, at) in self.branches.iter_mut().zip(addresses()) {
            branch.open_or_close(&mut self.far, at, time)?;
            branch.carry(&mut self.far, time)?;
        }
        let mut cell = [0; CELL_OCTETS];
        if let Some(sent) = self.far.slot(time, &mut cell)? {
            let branch = &mut self.branches[(sent.vci - FIRST) as usize];
            branch.to_port.send(time, cell);
        }
        Ok(())
    }
}

impl Branch {
    /// Opens and closes the connection at both ends when it is time. The far end has no data, and
    /// a rate that is enough for every turned cell.
    fn open_or_close(&mut self, far: &mut Table, at: Address, time: u64) -> Result<(), Refusal> {
        let (from, to) = self.lifetime;
        if time == from {
            let peak = abr::code(10_000 * RATE_ONE)?;
            far.open(at, time, &Params::house(peak, 0, peak))?;
            self.station.open(time)?;
        }
        if time == to {
            far.close(at)?;
            self.station.close(time)?;
        }
        Ok(())
    }

    /// A slot of the source, and every cell that has arrived where it goes. A cell that was
    /// under way when its connection was closed is dropped.
    fn carry(&mut self, far: &mut Table, time: u64) -> Result<(), Refusal> {
        if let Some(cell) = self.station.slot(time)? {
            self.there.send(time, cell);
        }
        while let Some(cell) = self.there.arrived(time) {
            far.receive(&cell)
                .map(drop)
                .or_else(accepted_too(Refusal::NotOpen))?;
        }
        while let Some(mut cell) = self.to_port.arrived(time) {
            Port::at(time)?.pass(&mut cell)?;
            self.back.send(time, cell);
        }
        while let Some(cell) = self.back.arrived(time) {
            let received = self.station.receive(time, &cell);
            received.or_else(accepted_too(Refusal::NotOpen))?;
        }
        Ok(())
    }
}

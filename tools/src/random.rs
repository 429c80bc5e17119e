//! A small random scenario: three connections, with data, feedback, cells to be turned round and
//! slots drawn from a seed.

use abr::{Address, Params, Refusal, Rm, Table, CELL_OCTETS, RATE_ONE};

use crate::record::Recorder;

/// The connections.
const CONNECTIONS: u32 = 3;
/// The slots of a scenario.
const SLOTS: u64 = 6_000;
/// The time from one slot to the next.
const SLOT: u64 = 100_000;

/// Random numbers by SplitMix64 (Steele, Lea, Flood).
struct Draw {
    state: u64,
}

impl Draw {
    /// A number below this one.
    fn below(&mut self, bound: u64) -> u64 {
        self.state = self.state.wrapping_add(0x9E37_79B9_7F4A_7C15);
        let mut mixed = self.state;
        mixed = (mixed ^ mixed >> 30).wrapping_mul(0xBF58_476D_1CE4_E5B9);
        mixed = (mixed ^ mixed >> 27).wrapping_mul(0x94D0_49BB_1331_11EB);
        (mixed ^ mixed >> 31) % bound
    }

    /// True once in so many times.
    fn once_in(&mut self, times: u64) -> bool {
        self.below(times) == 0
    }
}

/// Runs the scenario of a seed: the connections, each with the trace of its cells.
pub fn run(seed: u64) -> Result<Vec<(Address, Recorder)>, Refusal> {
    let mut draw = Draw { state: seed };
    let mut table = Table::new();
    let mut traces = Vec::new();
    for place in 0..CONNECTIONS {
        let at = Address::new(place, 32 + draw.below(1_000) as u32);
        let params = params(&mut draw)?;
        table.open(at, 0, &params)?;
        traces.push((at, Recorder::new(&params)));
    }
    for slot in 0..SLOTS {
        between(&mut table, &traces, &mut draw)?;
        send(&mut table, &mut traces, slot * SLOT)?;
    }
    Ok(traces)
}

/// Random parameters: a peak of 500 to 5,499 cells per second, an initial rate of at most the
/// peak, and a minimum of at most the initial rate, which may be 0.
fn params(draw: &mut Draw) -> Result<Params, Refusal> {
    let peak = 500 + draw.below(5_000);
    let initial = 1 + draw.below(peak);
    let code = |cells: u64| abr::code(cells * RATE_ONE);
    let house = Params::house(code(peak)?, code(draw.below(initial + 1))?, code(initial)?);
    let n = 1 + draw.below(6) as u32;
    Ok(Params {
        n,
        d: 1 + draw.below(5) as u32,
        trm: 2 + draw.below(6) as u32,
        tbe: 4 << n, // CRM 4
        ..house
    })
}

/// What happens between two slots: data comes and stays away, cells are received.
fn between(
    table: &mut Table,
    traces: &[(Address, Recorder)],
    draw: &mut Draw,
) -> Result<(), Refusal> {
    for (at, _) in traces {
        if draw.once_in(20) {
            table.offer(*at, draw.below(40))?;
        }
        if draw.once_in(12) {
            receive(table, *at, draw)?;
        }
    }
    Ok(())
}

/// A backward cell with random feedback, or a forward cell, which is turned round.
fn receive(table: &mut Table, at: Address, draw: &mut Draw) -> Result<(), Refusal> {
    let rm = Rm {
        vpi: at.vpi,
        vci: at.vci,
        backward: !draw.once_in(3),
        ci: draw.once_in(6),
        ni: draw.once_in(6),
        er: abr::code((200 + draw.below(20_000)) * RATE_ONE)?,
        ..Rm::default()
    };
    let mut cell = [0; CELL_OCTETS];
    abr::write_rm(&rm, &mut cell)?;
    table.receive(&cell).map(drop)
}

/// A slot. The connections have the leaves of their places, since nothing else was opened.
fn send(table: &mut Table, traces: &mut [(Address, Recorder)], time: u64) -> Result<(), Refusal> {
    if let Some(sent) = table.slot(time, &mut [0; CELL_OCTETS])? {
        traces[sent.leaf as usize].1.sent(time, &sent);
    }
    Ok(())
}

#[cfg(test)]
mod tests {
    use super::*;

    #[test]
    fn what_is_recorded_passes() {
        for seed in 0..50 {
            for (at, recorder) in run(seed).unwrap() {
                let verdict = abr::judge(&recorder.octets());
                assert_eq!(verdict, Ok(abr::Verdict::Passes), "seed {seed}, {at}");
            }
        }
    }
}

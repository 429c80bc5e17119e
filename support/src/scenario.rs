//! Two connections on one link, and a network that answers their RM cells.

use abr::{Address, Cell, Kind, Params, Refusal, Rm, Sent, Table, CELL_OCTETS, RATE_ONE};

use crate::delay::{DelayLine, Octets};
use crate::plot::MS;
use crate::refusals::accepted_too;

/// How long the scenario lasts.
pub const END: u64 = 1_600 * MS;
/// The link carries 20,000 cells per second.
const SLOT: u64 = 50_000;
/// From a forward cell to its answer.
const ROUND_TRIP: u64 = 20 * MS;

/// The two connections; the place of each is its leaf, since they are opened in this order.
pub const CONNECTIONS: [Address; 2] = [Address::new(1, 32), Address::new(1, 33)];

/// A span of time in which the network marks backward cells.
pub struct Phase {
    /// From and to, in nanoseconds.
    pub span: (u64, u64),
    /// Its name, in two lines.
    pub name: [&'static str; 2],
    /// The connections concerned.
    connections: &'static [Address],
    ci: bool,
    ni: bool,
    /// The explicit rate, in cells per second.
    cells: u64,
}

/// The phases of the scenario.
pub const PHASES: [Phase; 3] = [
    Phase {
        span: (300 * MS, 420 * MS),
        name: ["congestion (CI)", "on both paths"],
        connections: &CONNECTIONS,
        ci: true,
        ni: false,
        cells: 1_000_000,
    },
    Phase {
        span: (800 * MS, 1_050 * MS),
        name: ["explicit rate (ER)", "1,500 for VCI 33"],
        connections: &[CONNECTIONS[1]],
        ci: false,
        ni: false,
        cells: 1_500,
    },
    Phase {
        span: (1_200 * MS, 1_350 * MS),
        name: ["congestion (CI)", "for VCI 32"],
        connections: &[CONNECTIONS[0]],
        ci: true,
        ni: false,
        cells: 1_000_000,
    },
];

/// A slot of the scenario.
pub struct Slot {
    /// Its time.
    pub time: u64,
    /// What is sent in it.
    pub sent: Option<Sent>,
    /// The allowed rates of both connections afterwards.
    pub after: [u64; 2],
}

/// The parameters of both connections.
pub fn params() -> Result<[Params; 2], Refusal> {
    Ok([contract(8_000, 1_000, 6)?, contract(5_000, 500, 5)?])
}

/// Runs the scenario and shows each slot.
pub fn run(mut see: impl FnMut(&Slot)) -> Result<(), Refusal> {
    let mut table = Table::new();
    for (at, params) in CONNECTIONS.into_iter().zip(params()?) {
        table.open(at, 0, &params)?;
    }
    let mut answers = DelayLine::new(ROUND_TRIP);
    for time in (0..=END).step_by(SLOT as usize) {
        while let Some(cell) = answers.arrived(time) {
            table.receive(&cell)?;
        }
        for at in CONNECTIONS {
            let offered = table.offer(at, 1).map(drop);
            // A connection with no room for more data needs none.
            offered.or_else(accepted_too(Refusal::TooMuchData))?;
        }
        let mut cell = [0; CELL_OCTETS];
        let sent = table.slot(time, &mut cell)?;
        if let Some(sent) = sent {
            if sent.kind == Kind::Forward {
                answers.send(time, answer(&cell, time + ROUND_TRIP / 2)?);
            }
        }
        see(&Slot {
            time,
            sent,
            after: rates(&table)?,
        });
    }
    Ok(())
}

/// The allowed rates of both connections.
fn rates(table: &Table) -> Result<[u64; 2], Refusal> {
    let [first, second] = CONNECTIONS.map(|at| table.acr(at));
    Ok([first?, second?])
}

/// Peak and initial rate in cells per second, and the exponent of RIF.
fn contract(peak: u64, initial: u64, r: u32) -> Result<Params, Refusal> {
    let code = |cells: u64| abr::code(cells * RATE_ONE);
    let mut params = Params::house(code(peak)?, code(200)?, code(initial)?);
    (params.n, params.r, params.d) = (4, r, 3);
    Ok(params)
}

/// The backward cell that answers a forward cell: turned by the destination,
/// marked by the network as at this time.
fn answer(forward: &[u8], time: u64) -> Result<Octets, Refusal> {
    let Cell::Rm(mut rm) = abr::read(forward)? else {
        return Err(Refusal::PayloadType);
    };
    rm.backward = true;
    for phase in &PHASES {
        let (from, to) = phase.span;
        if (from..to).contains(&time) && phase.connections.contains(&rm.address()) {
            mark(&mut rm, phase)?;
        }
    }
    let mut cell = [0; CELL_OCTETS];
    abr::write_rm(&rm, &mut cell)?;
    Ok(cell)
}

/// Marks a cell as the phase does.
fn mark(rm: &mut Rm, phase: &Phase) -> Result<(), Refusal> {
    rm.ci |= phase.ci;
    rm.ni |= phase.ni;
    rm.er = rm.er.min(abr::code(phase.cells * RATE_ONE)?);
    Ok(())
}

//! What the engine is at the moment: a connection or a member in all that the documents say of
//! it, the members one by one, and what belongs to the whole link. Reading changes nothing.

use crate::address::Address;
use crate::capacity::CONNECTIONS_MAX;
use crate::connection::{Connection, History};
use crate::engine::{Engine, Entry};
use crate::params::Params;
use crate::refusal::Refusal;

/// What a pair stands for.
#[derive(Debug, Clone, Copy, PartialEq, Eq)]
pub enum Sort {
    /// A channel.
    Channel,
    /// A path, by its own name (document 02, L13).
    Path,
    /// A member of a path.
    Member,
}

/// A channel, a path, or a member with its path. Of a member everything but sort, address and
/// waiting data is its path's.
#[derive(Debug, Clone, Copy, PartialEq, Eq)]
pub struct Status {
    pub sort: Sort,
    pub vpi: u32,
    pub vci: u32,
    /// The leaf in the tournament (document 02, L4).
    pub leaf: u32,
    /// The data cells that wait; of a path the sum over its members.
    pub waiting: u64,
    /// The parameters as its open gave them.
    pub params: Params,
    /// CRM, and the initial rate that is used (document 02, L14).
    pub crm: u32,
    pub icr_used: u64,
    /// The allowed rate.
    pub acr: u64,
    /// What the last backward cell made of it: new less old (document 02, L9).
    pub change: i64,
    /// When it was opened.
    pub opened: u64,
    /// When a slot last sent a cell of it, and a forward cell; nothing before the first.
    pub last_sent: Option<u64>,
    pub last_forward: Option<u64>,
    /// The ready instant; nothing for never.
    pub ready: Option<u64>,
    /// When a backward cell was last made, and an out-of-rate cell written (document 02, L1
    /// and L5); nothing before the first.
    pub last_made: Option<u64>,
    pub last_out_of_rate: Option<u64>,
    /// The cells sent since the last forward cell.
    pub k: u32,
    /// Y: the forward cells since the last backward cell with BN 0.
    pub unanswered: u32,
    /// Whether a turned or a made cell is among those k.
    pub backward_sent: bool,
    /// The saved EFCI.
    pub efci: bool,
    /// Whether a turned cell waits.
    pub turned: bool,
    /// The level at which the made cell that waits was made; nothing if none waits.
    pub made_level: Option<u32>,
    /// The VCI of the path's member that was served last; nothing before any, and on a channel.
    pub served: Option<u32>,
}

/// A member of a path.
#[derive(Debug, Clone, Copy, PartialEq, Eq)]
pub struct Member {
    pub vpi: u32,
    pub vci: u32,
    /// The data cells that wait on it.
    pub waiting: u64,
}

/// What belongs to no single connection.
#[derive(Debug, Clone, Copy, PartialEq, Eq)]
pub struct Totals {
    /// The open connections, channels and paths.
    pub connections: usize,
    /// How many may be open.
    pub connections_max: usize,
    /// The members of all paths.
    pub members: usize,
    /// The congestion level.
    pub level: u32,
    /// The time of the last accepted open, slot, made or out-of-rate cell; 0 before any.
    pub last: u64,
}

impl Engine {
    /// A channel, a path or a member. Refusal: 11.
    pub fn status(&self, at: Address) -> Result<Status, Refusal> {
        let member = self.path_of(at).and_then(|path| path.waiting(at.vci).ok());
        let Some(waiting) = member else {
            return Ok(of_connection(self.entry(at)?));
        };
        let path = self.entry(Address::of_path(at.vpi))?;
        Ok(Status {
            sort: Sort::Member,
            vci: at.vci,
            waiting,
            ..of_connection(path)
        })
    }

    /// The channel or the path in a leaf. Refusal: 11 if there is none.
    pub fn at(&self, leaf: u32) -> Result<Status, Refusal> {
        let mut entries = self.table.values();
        let entry = entries.find(|entry| entry.leaf == leaf);
        entry.map(of_connection).ok_or(Refusal::NotOpen)
    }

    /// The member with this number, from 0 in the order of their names over all paths.
    /// Refusal: 11 if there are not so many.
    pub fn member_at(&self, number: u32) -> Result<Member, Refusal> {
        let connections = self.table.values().map(|entry| &entry.connection);
        let mut members = connections.flat_map(members_of);
        members.nth(number as usize).ok_or(Refusal::NotOpen)
    }

    /// What belongs to the whole link.
    pub fn link(&self) -> Totals {
        Totals {
            connections: self.connections(),
            connections_max: CONNECTIONS_MAX,
            members: self.member_count(),
            level: self.level,
            last: self.last,
        }
    }
}

/// An open connection in all its fields.
fn of_connection(entry: &Entry) -> Status {
    let Entry {
        leaf,
        params,
        ref connection,
        ..
    } = *entry;
    let (contract, allowed) = (connection.rate.contract, connection.allowed());
    let (history, destination) = (connection.history, &connection.destination);
    let members = connection.members();
    Status {
        sort: members.map_or(Sort::Channel, |_| Sort::Path),
        vpi: connection.at.vpi,
        vci: connection.at.vci,
        leaf,
        waiting: connection.waiting(),
        params,
        crm: contract.crm,
        icr_used: contract.icr_used,
        acr: allowed.acr,
        change: allowed.change,
        opened: connection.opened,
        last_sent: history.map(|history| history.last_sent),
        last_forward: history.map(|history| history.last_forward),
        ready: connection.ready(),
        last_made: destination.makings.last,
        last_out_of_rate: connection.out_of_rate.last,
        k: history.map_or(0, |history| history.k),
        unanswered: connection.unanswered,
        backward_sent: history.is_some_and(|history: History| history.turned),
        efci: destination.efci,
        turned: destination.turned.is_some(),
        made_level: destination.made.as_ref().and_then(|made| made.made_at),
        served: members.and_then(|members| members.served),
    }
}

/// The members of a connection in rising VCI; none if it is a channel.
fn members_of(connection: &Connection) -> impl Iterator<Item = Member> + '_ {
    let vpi = connection.at.vpi;
    let cells = connection.members().map(|members| &members.cells);
    cells
        .into_iter()
        .flatten()
        .map(move |(vci, waiting)| Member {
            vpi,
            vci: *vci,
            waiting: *waiting,
        })
}

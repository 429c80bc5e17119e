//! The table of connections and the calls on it (document 01, from "Opening"
//! to "Slots"; the orders of refusals are in "Refused because of the state", those
//! of a made cell and an out-of-rate cell in document 02's L1 and L5, and where 19
//! comes in L7, where 29 and 30 in L14; what an ACR is read with in L9, what a close
//! answers in L12, and all of paths and their members in L13). Calls that replay matches
//! answer the comparisons (document 02, L4). A connection is named by its VPI and VCI
//! together (document 02, L6).

use std::collections::BTreeMap;

use crate::address::{Address, PATH_VCI};
use crate::capacity::CONNECTIONS_MAX;
use crate::cell::{self, Cell, Octets};
use crate::connection::{Allowed, Connection, Departed, Kind};
use crate::double::Exported;
use crate::load::{Load, Members, MEMBERS_MAX};
use crate::params::Params;
use crate::refusal::Refusal;
use crate::tournament::Tournament;

/// The latest time.
pub const TIME_MAX: u64 = 1 << 62;

/// Stands for never among ready instants: later than any.
const NEVER: u64 = u64::MAX;

/// The highest congestion level.
pub const LEVEL_MAX: u32 = 2;

/// The least VCI that may be opened or made a member, on any VPI.
pub const VCI_MIN: u32 = 32;

/// The answer of an open.
#[derive(Debug, Clone, Copy, PartialEq, Eq)]
pub struct Opened {
    /// The comparisons made.
    pub comparisons: u32,
    /// The connection's leaf in the tournament, until its close.
    pub leaf: u32,
}

/// The kinds of cell that are received.
#[derive(Debug, Clone, Copy, PartialEq, Eq)]
pub enum Arrival {
    /// A forward RM cell, which is turned round.
    Forward,
    /// A backward RM cell, which moves the allowed rate.
    Backward,
    /// A data cell, whose mark is saved.
    Data,
}

/// The answer of a received cell.
#[derive(Debug, Clone, Copy, PartialEq, Eq)]
pub struct Received {
    /// What it is.
    pub kind: Arrival,
    /// The cell's own address; for data of a path that of the member.
    pub vpi: u32,
    pub vci: u32,
    /// The leaf of the connection that it is for.
    pub leaf: u32,
    /// The allowed rate of that connection afterwards.
    pub acr: u64,
    /// The comparisons made.
    pub comparisons: u32,
}

/// The answer of a slot that goes to a connection.
#[derive(Debug, Clone, Copy, PartialEq, Eq)]
pub struct Sent {
    /// The connection, by both numbers; for data of a path its member.
    pub vpi: u32,
    pub vci: u32,
    /// The leaf of the connection; for data of a path that of the path.
    pub leaf: u32,
    /// What it sends.
    pub kind: Kind,
    /// Whether it is a turned cell that was made (document 02, L1).
    pub made: bool,
    /// Its allowed rate before the cell, the one that a trace has (document 02, L11).
    pub acr_before: u64,
    /// Its allowed rate, after the moves of a forward cell.
    pub acr: u64,
    /// The comparisons made.
    pub comparisons: u32,
}

/// The answer of a close (document 02, L12) and of a removed member.
#[derive(Debug, Clone, Copy, PartialEq, Eq)]
pub struct Closed {
    /// The data cells that waited.
    pub cells: u64,
    /// The comparisons made.
    pub comparisons: u32,
}

/// An open connection with the parameters that its open gave, and its leaf in the tournament.
#[derive(Debug, Clone, PartialEq, Eq)]
pub(crate) struct Entry {
    name: u32,
    pub(crate) leaf: u32,
    pub(crate) params: Params,
    pub(crate) connection: Connection,
}

/// The whole engine: the open connections by address, the tournament, the congestion
/// level, and the time of the last accepted open, slot, made or out-of-rate cell
/// (0 before any, which refuses nothing).
#[derive(Debug, Clone, PartialEq, Eq, Default)]
pub struct Engine {
    pub(crate) table: BTreeMap<Address, Entry>,
    tournament: Tournament,
    pub(crate) level: u32,
    pub(crate) last: u64,
}

impl Engine {
    /// An engine with nothing open and level 0.
    pub fn new() -> Self {
        Self::default()
    }

    /// Opens a channel on the lowest free leaf and answers that leaf and the comparisons.
    /// Refusals: 10, 19, 7, 29, 30, 8, 12, 27, 13, 14.
    pub fn open(&mut self, at: Address, time: u64, params: &Params) -> Result<Opened, Refusal> {
        check_vci(at)?;
        self.open_with(Load::channel(), at, time, params)
    }

    /// Opens a path on the lowest free leaf, without members, and answers that leaf and the
    /// comparisons. Refusals: 19, 7, 29, 30, 8, 12, 13, 14.
    pub fn open_path(&mut self, vpi: u32, time: u64, params: &Params) -> Result<Opened, Refusal> {
        self.open_with(Load::path(), Address::of_path(vpi), time, params)
    }

    /// Opens a connection. Refusals: 19, 7, 29, 30, 8, 12, 27, 13, 14.
    fn open_with(
        &mut self,
        load: Load,
        at: Address,
        time: u64,
        params: &Params,
    ) -> Result<Opened, Refusal> {
        params.check()?; // 19 before 7, which the name has too
        let name = at.name().ok_or(Refusal::Range)?;
        let contract = params.contract()?;
        check_range(time)?;
        if self.table.contains_key(&at) {
            return Err(Refusal::AlreadyOpen);
        }
        if self.is_member(at) {
            return Err(Refusal::AlreadyMember);
        }
        if self.table.len() >= CONNECTIONS_MAX {
            return Err(Refusal::Full);
        }
        self.advance(time)?;
        let leaf = self.tournament.take().ok_or(Refusal::Full)? as u32;
        let connection = Connection::new(at, time, contract, load);
        let entry = Entry {
            name,
            leaf,
            params: *params,
            connection,
        };
        self.table.insert(at, entry);
        let comparisons = self.replay(at)?;
        Ok(Opened { comparisons, leaf })
    }

    /// Closes a connection, a path with all its members, drops all that waits on it and
    /// answers how many data cells that were, and the comparisons. Refusal: 11.
    pub fn close(&mut self, at: Address) -> Result<Closed, Refusal> {
        let entry = self.table.remove(&at).ok_or(Refusal::NotOpen)?;
        Ok(Closed {
            cells: entry.connection.waiting(),
            comparisons: self.tournament.release(entry.leaf as usize),
        })
    }

    /// Receives a cell and answers what it was; a data cell of a member is one of its
    /// path. Refusals: 1, 2, 4, for RM cells 5, 6 and 19, then 11.
    pub fn receive(&mut self, cell: &[u8]) -> Result<Received, Refusal> {
        let content = cell::read(cell)?;
        let octets: &Octets = cell.try_into().map_err(|_| Refusal::Length)?;
        let level = self.level;
        let at = self.receiver(&content)?;
        let connection = self.connection(at)?;
        let kind = match content {
            Cell::Data { efci, .. } => {
                connection.receive_data(efci);
                Arrival::Data
            }
            Cell::Rm(rm) if rm.dir == 0 => {
                connection.receive_forward(octets, level);
                Arrival::Forward
            }
            Cell::Rm(rm) => {
                connection.receive_backward(&rm);
                Arrival::Backward
            }
        };
        let comparisons = self.replay(at)?;
        let Address { vpi, vci } = content.address();
        let entry = self.entry(at)?;
        Ok(Received {
            kind,
            vpi,
            vci,
            leaf: entry.leaf,
            acr: entry.connection.acr(),
            comparisons,
        })
    }

    /// Adds data to what waits on a channel and answers the comparisons.
    /// Refusals: 11, 28 on a path's own name, 15.
    pub fn offer(&mut self, at: Address, cells: u64) -> Result<u32, Refusal> {
        self.connection(at)?.offer(cells)?;
        self.replay(at)
    }

    /// Adds a member to its path. The path's ready instant stays, so that no match is
    /// replayed. Refusals: 10, 11 also for a pair out of range, 12, 27, 26.
    pub fn add_member(&mut self, at: Address) -> Result<(), Refusal> {
        check_vci(at)?;
        if self.path_of(at).is_none() {
            return Err(Refusal::NotOpen);
        }
        if self.table.contains_key(&at) {
            return Err(Refusal::AlreadyOpen);
        }
        if self.is_member(at) {
            return Err(Refusal::AlreadyMember);
        }
        if self.member_count() >= MEMBERS_MAX {
            return Err(Refusal::MembersFull);
        }
        self.members(at.vpi)?.add(at.vci);
        Ok(())
    }

    /// Adds data to what waits on a member and answers the comparisons of its path.
    /// Refusals: 11, 28 whatever VCI is no member's, 15.
    pub fn offer_member(&mut self, at: Address, cells: u64) -> Result<u32, Refusal> {
        self.members(at.vpi)?.offer(at.vci, cells)?;
        self.replay(Address::of_path(at.vpi))
    }

    /// Removes a member, drops the data that waits on it and answers how many cells that
    /// were, and the comparisons of its path. Refusals: 11, 28 whatever VCI is no member's.
    pub fn remove_member(&mut self, at: Address) -> Result<Closed, Refusal> {
        let cells = self.members(at.vpi)?.remove(at.vci)?;
        let comparisons = self.replay(Address::of_path(at.vpi))?;
        Ok(Closed { cells, comparisons })
    }

    /// Sets the congestion level of the whole engine. Refusal: 9.
    pub fn set_level(&mut self, level: u32) -> Result<(), Refusal> {
        if level > LEVEL_MAX {
            return Err(Refusal::TooLarge);
        }
        self.level = level;
        Ok(())
    }

    /// Makes a backward cell on a connection and answers the comparisons.
    /// Refusals: 8, 11, 14, 16, 17.
    pub fn make(&mut self, at: Address, time: u64) -> Result<u32, Refusal> {
        check_range(time)?;
        let (level, order) = (self.level, self.in_order(time));
        let connection = self.connection(at)?;
        order?;
        connection.make(time, level)?;
        self.last = time;
        self.replay(at)
    }

    /// Writes an out-of-rate forward cell of a connection to the buffer. No
    /// ready instant changes, so that no match is replayed. Refusals: 1, 8, 11, 14,
    /// 18.
    pub fn out_of_rate(
        &mut self,
        at: Address,
        time: u64,
        buffer: &mut [u8],
    ) -> Result<(), Refusal> {
        let buffer: &mut Octets = buffer.try_into().map_err(|_| Refusal::Length)?;
        check_range(time)?;
        let order = self.in_order(time);
        let connection = self.connection(at)?;
        order?;
        *buffer = connection.out_of_rate(time)?;
        self.last = time;
        Ok(())
    }

    /// Gives a slot to a connection; nothing when the slot is idle. A forward,
    /// turned or made cell is written to the buffer, which is unchanged otherwise.
    /// Refusals: 1, 8, 14.
    pub fn slot(&mut self, time: u64, buffer: &mut [u8]) -> Result<Option<Sent>, Refusal> {
        let buffer: &mut Octets = buffer.try_into().map_err(|_| Refusal::Length)?;
        check_range(time)?;
        self.advance(time)?;
        let Some(at) = self.winner(time) else {
            return Ok(None);
        };
        let connection = self.connection(at)?;
        let acr_before = connection.acr();
        let Departed { kind, at: of, made } = connection.send(time, buffer);
        let acr = connection.acr();
        let comparisons = self.replay(at)?;
        Ok(Some(Sent {
            vpi: of.vpi,
            vci: of.vci,
            leaf: self.entry(at)?.leaf,
            kind,
            made,
            acr_before,
            acr,
            comparisons,
        }))
    }

    /// The earliest ready instant of all open connections; nothing if none of them is ever
    /// ready as things stand.
    pub fn next_ready(&self) -> Option<u64> {
        let connections = self.table.values().map(|entry| &entry.connection);
        connections.filter_map(Connection::ready).min()
    }

    /// The time to pass to a slot whose own is `now`, if the line grants a tolerance of `lag`:
    /// the ready instant of the cell that goes, but not before the last accepted time, nor
    /// more than `lag` before `now`, nor after it. Due then counts from that instant (document
    /// 01, "Slots"), so that a slot that comes late costs the connection nothing.
    pub fn slot_time(&self, now: u64, lag: u64) -> u64 {
        let ready = self.next_ready().unwrap_or(NEVER);
        now.min(ready.max(self.last).max(now.saturating_sub(lag)))
    }

    /// The allowed rate of a connection, and what its last backward cell made of it.
    /// Refusal: 11.
    pub fn allowed(&self, at: Address) -> Result<Allowed, Refusal> {
        Ok(self.entry(at)?.connection.allowed())
    }

    /// The allowed rate alone. Refusal: 11.
    pub fn acr(&self, at: Address) -> Result<u64, Refusal> {
        Ok(self.allowed(at)?.acr)
    }

    /// The peak, minimum and initial rate of a connection as doubles in cells per
    /// second. Refusal: 11.
    pub fn export(&self, at: Address) -> Result<Exported, Refusal> {
        Ok(self.entry(at)?.connection.export())
    }

    /// How many connections are open.
    pub fn connections(&self) -> usize {
        self.table.len()
    }

    /// Who wins the tournament, whatever the time: ready instant and name.
    #[cfg(test)]
    pub(crate) fn top(&self) -> Option<(u64, u32)> {
        self.tournament.top()
    }

    /// The entry with this address. Refusal: 11.
    pub(crate) fn entry(&self, at: Address) -> Result<&Entry, Refusal> {
        self.table.get(&at).ok_or(Refusal::NotOpen)
    }

    /// The connection with this address. Refusal: 11.
    fn connection(&mut self, at: Address) -> Result<&mut Connection, Refusal> {
        let entry = self.table.get_mut(&at).ok_or(Refusal::NotOpen)?;
        Ok(&mut entry.connection)
    }

    /// The members of the path that an address is on, if it is in range and open.
    pub(crate) fn path_of(&self, at: Address) -> Option<&Members> {
        let entry = self.table.get(&Address::of_path(at.vpi))?;
        entry.connection.members().filter(|_| at.fits())
    }

    /// The members of the path with this VPI, to be changed. Refusal: 11.
    fn members(&mut self, vpi: u32) -> Result<&mut Members, Refusal> {
        let path = self.connection(Address::of_path(vpi))?;
        path.members_mut().ok_or(Refusal::NotOpen)
    }

    /// Whether an address is that of a member.
    fn is_member(&self, at: Address) -> bool {
        let path = self.path_of(at);
        path.is_some_and(|path| path.waiting(at.vci).is_ok())
    }

    /// The members of all paths.
    pub(crate) fn member_count(&self) -> usize {
        let connections = self.table.values().map(|entry| &entry.connection);
        connections
            .flat_map(Connection::members)
            .map(Members::count)
            .sum()
    }

    /// The address of the connection that a cell is for: a member's data is its path's,
    /// and a path has no data under its own name, nor a member RM cells.
    fn receiver(&self, content: &Cell) -> Result<Address, Refusal> {
        let at = content.address();
        match content {
            Cell::Data { .. } if at.vci == PATH_VCI => Err(Refusal::NotOpen),
            Cell::Data { .. } if self.is_member(at) => Ok(Address::of_path(at.vpi)),
            _ => Ok(at),
        }
    }

    /// Replays the matches of a connection, whose ready instant may have changed,
    /// and gives the comparisons. Refusal: 11.
    fn replay(&mut self, at: Address) -> Result<u32, Refusal> {
        let entry = self.entry(at)?;
        let entrant = entry.connection.ready().map(|ready| (ready, entry.name));
        Ok(self.tournament.replay(entry.leaf as usize, entrant))
    }

    /// Refuses a time before the last accepted one with 14.
    fn in_order(&self, time: u64) -> Result<(), Refusal> {
        if time < self.last {
            return Err(Refusal::TimeBackward);
        }
        Ok(())
    }

    /// Sets the time of the last accepted open, slot, made or out-of-rate cell. Refusal: 14.
    fn advance(&mut self, time: u64) -> Result<(), Refusal> {
        self.in_order(time)?;
        self.last = time;
        Ok(())
    }

    /// The connection whose ready instant is the earliest, if it isn't after
    /// this time; of several the one with the lowest name.
    fn winner(&self, time: u64) -> Option<Address> {
        self.table
            .iter()
            .filter_map(|(at, entry)| Some((entry.connection.ready()?, entry.name, *at)))
            .filter(|(ready, ..)| *ready <= time)
            .min()
            .map(|(.., at)| at)
    }
}

/// Refuses a VCI under 32, on any VPI, with 10.
fn check_vci(at: Address) -> Result<(), Refusal> {
    if at.vci < VCI_MIN {
        return Err(Refusal::LowVci);
    }
    Ok(())
}

/// Refuses a time over 2^62 with 8.
fn check_range(time: u64) -> Result<(), Refusal> {
    if time > TIME_MAX {
        return Err(Refusal::Time);
    }
    Ok(())
}

//! What the readings of a table answer: a connection, a member, the whole link.

use crate::ffi;
use crate::{Address, Params};

/// What a VPI and a VCI stand for.
#[derive(Debug, Clone, Copy, PartialEq, Eq, Hash)]
pub enum ConnectionKind {
    /// An open channel.
    Channel,
    /// An open path.
    Path,
    /// A member of an open path.
    Member,
}

/// Everything of a connection (the manual, section 21). Of a member all but kind, VPI, VCI
/// and waiting data is its path's. A cell from a slot is one that [`crate::Table::slot`]
/// answered; out-of-rate cells are none.
#[derive(Debug, Clone, Copy, PartialEq, Eq, Hash)]
pub struct Connection {
    /// What it is.
    pub kind: ConnectionKind,
    /// The virtual path.
    pub vpi: u32,
    /// The virtual channel.
    pub vci: u32,
    /// Its leaf in the tournament.
    pub leaf: u32,
    /// The data cells that wait, of a path the sum of its members'.
    pub waiting: u32,
    /// The parameters as its open gave them.
    pub params: Params,
    /// CRM: TBE / Nrm, rounded up.
    pub crm: u32,
    /// The initial rate that is used, in units; `params` has the given one's code.
    pub icr_used: u64,
    /// The allowed rate.
    pub acr: u64,
    /// What its last accepted backward cell changed it by, as in [`crate::Allowed`].
    pub change: i64,
    /// The time of its open.
    pub opened: u64,
    /// The time of its last cell from a slot.
    pub last_sent: Option<u64>,
    /// The time of its last forward cell from a slot.
    pub last_forward: Option<u64>,
    /// Its ready instant; none if it is never ready as things stand.
    pub ready: Option<u64>,
    /// The time of its last accepted [`crate::Table::make`], that cell sent or not.
    pub last_made: Option<u64>,
    /// The time of its last out-of-rate cell.
    pub last_out_of_rate: Option<u64>,
    /// Its cells from slots since the last forward one.
    pub k: u32,
    /// Its forward cells from slots since the last backward cell with BN 0, up to 8,388,608.
    pub unanswered: u32,
    /// A turned or made cell is among those `k`.
    pub backward_sent: bool,
    /// The saved congestion mark.
    pub efci: bool,
    /// A turned cell waits.
    pub turned: bool,
    /// The congestion level at which the made cell that waits was made; 0 if none waits.
    pub made_level: u32,
    /// Of a path the VCI of the member whose data went last, removed since or not; 0 before
    /// any.
    pub served: u32,
}

impl Connection {
    /// The address that names it.
    pub const fn address(&self) -> Address {
        Address::new(self.vpi, self.vci)
    }
}

/// A member of a path.
#[derive(Debug, Clone, Copy, PartialEq, Eq, Hash)]
pub struct Member {
    /// The virtual path.
    pub vpi: u32,
    /// The virtual channel.
    pub vci: u32,
    /// Its data cells that wait.
    pub waiting: u32,
}

impl Member {
    /// The address that names it.
    pub const fn address(&self) -> Address {
        Address::new(self.vpi, self.vci)
    }
}

/// What belongs to no single connection, with the layout of the C struct.
#[repr(C)]
#[derive(Debug, Clone, Copy, PartialEq, Eq, Hash, Default)]
pub struct Totals {
    /// How many connections are open, channels and paths.
    pub connections: u32,
    /// How many can be: [`crate::CONNECTIONS_MAX`].
    pub connections_max: u32,
    /// How many members all paths have together.
    pub members: u32,
    /// The congestion level.
    pub level: u32,
    /// The last accepted time, before which a time is refused; 0 before any, a time like
    /// others.
    pub last: u64,
}

/// An instant of the C interface; none if it never comes or never was.
pub(crate) fn instant(time: u64) -> Option<u64> {
    (time != ffi::ABR_NEVER).then_some(time)
}

impl From<ffi::abr_connection> for Connection {
    /// The connection of an accepted reading.
    fn from(read: ffi::abr_connection) -> Self {
        let kind = match read.kind {
            ffi::ABR_CHANNEL => ConnectionKind::Channel,
            ffi::ABR_PATH => ConnectionKind::Path,
            ffi::ABR_MEMBER => ConnectionKind::Member,
            other => unreachable!("the library answered kind {other}"),
        };
        Connection {
            kind,
            vpi: read.vpi,
            vci: read.vci,
            leaf: read.leaf,
            waiting: read.waiting,
            params: read.params,
            crm: read.crm,
            icr_used: read.icr_used,
            acr: read.acr,
            change: read.change,
            opened: read.opened,
            last_sent: instant(read.last_sent),
            last_forward: instant(read.last_forward),
            ready: instant(read.ready),
            last_made: instant(read.last_made),
            last_out_of_rate: instant(read.last_out_of_rate),
            k: read.k,
            unanswered: read.unanswered,
            backward_sent: read.backward_sent == 1,
            efci: read.efci == 1,
            turned: read.turned == 1,
            made_level: read.made_level,
            served: read.served,
        }
    }
}

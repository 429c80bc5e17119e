//! What the calls on a table answer: opens, closes, received cells, slots, rates.

use crate::ffi;
use crate::Address;

/// What an open answers.
#[derive(Debug, Clone, Copy, PartialEq, Eq, Hash)]
pub struct Opened {
    /// The connection's leaf in the tournament, below [`crate::CONNECTIONS_MAX`]: the lowest
    /// free one, kept until its close. An index for arrays of the caller's own.
    pub leaf: u32,
    /// The comparisons made: 1.
    pub comparisons: u32,
}

/// What a close answers, and removing a member.
#[derive(Debug, Clone, Copy, PartialEq, Eq, Hash)]
pub struct Closed {
    /// The data cells that waited.
    pub cells: u64,
    /// The comparisons made.
    pub comparisons: u32,
}

/// The kinds of cell that are received.
#[derive(Debug, Clone, Copy, PartialEq, Eq, Hash)]
pub enum ReceivedKind {
    /// A forward RM cell, which is turned round.
    Forward,
    /// A backward RM cell, which moves the allowed rate.
    Backward,
    /// Data, whose congestion mark is saved.
    Data,
}

/// What an accepted received cell was.
#[derive(Debug, Clone, Copy, PartialEq, Eq, Hash)]
pub struct Received {
    /// The virtual path of the cell.
    pub vpi: u32,
    /// Its virtual channel; of a member's data cell that of the member.
    pub vci: u32,
    /// The leaf of its connection; for a member's data cell that of the path.
    pub leaf: u32,
    /// The kind of cell.
    pub kind: ReceivedKind,
    /// The allowed rate of that connection afterwards.
    pub acr: u64,
    /// The comparisons made.
    pub comparisons: u32,
}

impl Received {
    /// The address in the cell; of a member's data cell the member.
    pub const fn address(&self) -> Address {
        Address::new(self.vpi, self.vci)
    }
}

/// The kinds of cell that a slot sends.
#[derive(Debug, Clone, Copy, PartialEq, Eq, Hash)]
pub enum Kind {
    /// A forward RM cell; its octets are in the buffer.
    Forward,
    /// A received forward RM cell, turned round, or a made backward one; its
    /// octets are in the buffer.
    Turned,
    /// Data, which the caller sends; the buffer is unchanged.
    Data,
}

/// What a slot that goes to a connection sends.
#[derive(Debug, Clone, Copy, PartialEq, Eq, Hash)]
pub struct Sent {
    /// The virtual path of the connection.
    pub vpi: u32,
    /// Its virtual channel; for data of a path that of the member.
    pub vci: u32,
    /// Its leaf; for data of a path that of the path.
    pub leaf: u32,
    /// The kind of cell.
    pub kind: Kind,
    /// Whether the turned cell is one that [`crate::Table::make`] made.
    pub made: bool,
    /// Its allowed rate afterwards.
    pub acr: u64,
    /// Its allowed rate before the cell, which a trace for [`crate::judge()`] wants.
    pub acr_before: u64,
    /// The comparisons made: [`crate::COMPARISONS_MAX`].
    pub comparisons: u32,
}

impl Sent {
    /// The connection; for data of a path the member.
    pub const fn address(&self) -> Address {
        Address::new(self.vpi, self.vci)
    }
}

/// The allowed rate of a connection, and what its last feedback did.
#[derive(Debug, Clone, Copy, PartialEq, Eq, Hash)]
pub struct Allowed {
    /// The allowed rate; 0 is possible if the minimum is 0.
    pub acr: u64,
    /// The rate after the last accepted backward cell less the rate before it, below 0 if
    /// it fell; 0 before the first.
    pub change: i64,
}

impl From<ffi::abr_received> for Received {
    /// What an accepted cell was.
    fn from(received: ffi::abr_received) -> Self {
        let kind = match received.kind {
            ffi::ABR_RECEIVED_FORWARD => ReceivedKind::Forward,
            ffi::ABR_RECEIVED_BACKWARD => ReceivedKind::Backward,
            ffi::ABR_RECEIVED_DATA => ReceivedKind::Data,
            other => unreachable!("the library answered kind {other}"),
        };
        Received {
            vpi: received.vpi,
            vci: received.vci,
            leaf: received.leaf,
            kind,
            acr: received.acr,
            comparisons: received.comparisons,
        }
    }
}

impl From<ffi::abr_sent> for Option<Sent> {
    /// What an accepted slot sends; nothing for an idle one.
    fn from(sent: ffi::abr_sent) -> Self {
        let kind = match sent.kind {
            ffi::ABR_SENT_IDLE => return None,
            ffi::ABR_SENT_FORWARD => Kind::Forward,
            ffi::ABR_SENT_TURNED => Kind::Turned,
            ffi::ABR_SENT_DATA => Kind::Data,
            other => unreachable!("the library answered kind {other}"),
        };
        Some(Sent {
            vpi: sent.vpi,
            vci: sent.vci,
            leaf: sent.leaf,
            kind,
            made: sent.made == 1,
            acr: sent.acr,
            acr_before: sent.acr_before,
            comparisons: sent.comparisons,
        })
    }
}

//! The workloads that are measured, by name.

use abr::CONNECTIONS_MAX;

use crate::traces::Numbers;

/// A cell that is received or read.
#[derive(Debug, Clone, Copy, PartialEq, Eq)]
pub enum Sort {
    /// A backward RM cell under which the rate stays.
    Backward,
    /// Backward RM cells that lower the rate and raise it, in turn.
    Moving,
    /// A forward RM cell.
    Forward,
    /// A data cell.
    Data,
    /// A backward RM cell whose CRC-10 is wrong.
    Damaged,
}

/// A call, or two, made many times.
#[derive(Debug, Clone, Copy, PartialEq, Eq)]
pub enum Workload {
    /// A slot; all are busy at one rate, so that they send in turn; Nrm is 2^n.
    Turns { n: u32 },
    /// A slot; all are busy, each at a rate of its own, in no order.
    Mixed,
    /// A slot; all are due, each before those that were opened before it.
    LastFirst,
    /// A slot; a path is busy, with so many members, all with data.
    Members { members: u32 },
    /// A slot; a path is busy, and of so many members one has data.
    LoneMember { members: u32 },
    /// No data offered to the last of so many members of a path.
    OfferMember { members: u32 },
    /// A member added, below so many others, and removed.
    AddRemove { members: u32 },
    /// A slot; nothing waits.
    Idle,
    /// A cell for the last connection.
    Receive(Sort),
    /// A cell for a connection that is not open.
    Unknown(Sort),
    /// A cell read.
    Read(Sort),
    /// An RM cell written.
    Write,
    /// No data offered, which costs what any offer costs.
    Offer,
    /// An open and the close of it, of a name above all others.
    OpenClose,
    /// The same of a name below all others.
    OpenCloseLow,
    /// A backward cell made on the last connection, replacing the one before.
    Make,
    /// An out-of-rate cell of the last connection.
    OutOfRate,
    /// The rate of the last connection.
    Acr,
    /// All that can be read of the last connection.
    Status,
    /// The same of the last of so many members of a path.
    StatusMember { members: u32 },
    /// The contract of the last connection as doubles.
    Export,
    /// The next ready instant; data waits on every connection.
    Next,
    /// The time to pass to a slot, as there.
    SlotTime,
    /// The congestion level set.
    Level,
    /// The code of a rate.
    Code,
    /// The rate of a code.
    Rate,
    /// The code of a double, which is the rate of that code or between two.
    Import { exact: bool },
    /// The share of a capacity among so many demands.
    FairShare { demands: u32 },
    /// A backward cell whose ER is limited to a rate.
    Limit,
    /// A backward cell at a port with so many demands.
    Port { demands: u32 },
    /// A trace of so many cells judged.
    Judge { cells: u32, numbers: Numbers },
    /// The house set of parameters.
    House,
}

impl Workload {
    /// The cell that it receives or reads.
    pub fn sort(self) -> Option<Sort> {
        match self {
            Workload::Receive(sort) | Workload::Unknown(sort) | Workload::Read(sort) => Some(sort),
            _ => None,
        }
    }

    /// The demands that it shares a capacity among.
    pub fn demands(self) -> u32 {
        match self {
            Workload::FairShare { demands } | Workload::Port { demands } => demands,
            _ => 0,
        }
    }

    /// The members of the path that it opens; none if it opens no path.
    pub fn members(self) -> Option<u32> {
        match self {
            Workload::Members { members }
            | Workload::LoneMember { members }
            | Workload::OfferMember { members }
            | Workload::AddRemove { members }
            | Workload::StatusMember { members } => Some(members),
            _ => None,
        }
    }

    /// The trace that it judges, made by a function of its cells and their numbers.
    pub fn trace(self, octets: impl Fn(u32, Numbers) -> Vec<u8>) -> Vec<u8> {
        match self {
            Workload::Judge { cells, numbers } => octets(cells, numbers),
            _ => Vec::new(),
        }
    }

    /// The cells of that trace.
    pub fn cells(self) -> u32 {
        match self {
            Workload::Judge { cells, .. } => cells,
            _ => 0,
        }
    }

    /// Whether it is a slot in which a connection sends.
    pub fn sends(self) -> bool {
        matches!(
            self,
            Workload::Turns { .. }
                | Workload::Mixed
                | Workload::LastFirst
                | Workload::Members { .. }
                | Workload::LoneMember { .. }
        )
    }
}

/// A workload by name, with the text of its row in a table and the number of
/// open connections.
pub struct Row {
    pub name: &'static str,
    pub text: &'static str,
    pub connections: u32,
    pub workload: Workload,
}

/// The rows for as many connections as may be open.
pub fn rows() -> impl Iterator<Item = &'static Row> {
    let rows = ROWS.iter();
    rows.filter(|row| row.connections <= CONNECTIONS_MAX as u32)
}

/// All rows, each as a name, a text, the open connections and the workload.
macro_rules! rows {
    ($($name:literal: $text:literal, $connections:literal,
        $sort:ident $({ $($field:tt)* })? $(($of:expr))?;)*) => {
        static ROWS: &[Row] = &[$(Row {
            name: $name,
            text: $text,
            connections: $connections,
            workload: Workload::$sort $({ $($field)* })? $(($of))?,
        },)*];
    };
}

rows! {
    "slot-1": "slot, 1 busy connection", 1, Turns { n: 5 };
    "slot-64": "slot, 64 busy connections", 64, Turns { n: 5 };
    "slot-1024": "slot, 1,024 busy connections", 1_024, Turns { n: 5 };
    "slot-64-rm": "slot, 64 busy, every second cell forward", 64, Turns { n: 1 };
    "slot-1024-rm": "slot, 1,024 busy, every second cell forward", 1_024, Turns { n: 1 };
    "slot-64-mixed": "slot, 64 busy, each at a rate of its own", 64, Mixed;
    "slot-1024-mixed": "slot, 1,024 busy, each at a rate of its own", 1_024, Mixed;
    "slot-64-last": "slot, 64 busy, due from last to first", 64, LastFirst;
    "slot-path-1": "slot, a busy path with 1 member", 0, Members { members: 1 };
    "slot-path-256": "slot, a busy path with 256 members", 0, Members { members: 256 };
    "slot-path-lone": "slot, a busy path, 1 of 256 members with data", 0, LoneMember { members: 256 };
    "slot-idle-1": "slot, 1 open, nothing waits", 1, Idle;
    "slot-idle-64": "slot, 64 open, nothing waits", 64, Idle;
    "slot-idle-1024": "slot, 1,024 open, nothing waits", 1_024, Idle;
    "backward-1": "receive backward RM cell, 1 open", 1, Receive(Sort::Backward);
    "backward-64": "receive backward RM cell, last of 64", 64, Receive(Sort::Backward);
    "backward-1024": "receive backward RM cell, last of 1,024", 1_024, Receive(Sort::Backward);
    "moving-64": "receive backward RM cells that move the rate, last of 64", 64, Receive(Sort::Moving);
    "moving-1024": "receive backward RM cells that move the rate, last of 1,024", 1_024, Receive(Sort::Moving);
    "forward-1": "receive forward RM cell, 1 open", 1, Receive(Sort::Forward);
    "forward-64": "receive forward RM cell, last of 64", 64, Receive(Sort::Forward);
    "forward-1024": "receive forward RM cell, last of 1,024", 1_024, Receive(Sort::Forward);
    "data-1": "receive data cell, 1 open", 1, Receive(Sort::Data);
    "data-64": "receive data cell, last of 64", 64, Receive(Sort::Data);
    "data-1024": "receive data cell, last of 1,024", 1_024, Receive(Sort::Data);
    "crc-64": "receive RM cell with a wrong CRC-10, 64 open", 64, Receive(Sort::Damaged);
    "unknown-rm-1024": "receive backward RM cell, none of 1,024", 1_024, Unknown(Sort::Backward);
    "unknown-data-1024": "receive data cell, none of 1,024", 1_024, Unknown(Sort::Data);
    "write": "write RM cell", 0, Write;
    "read": "read RM cell", 0, Read(Sort::Backward);
    "read-data": "read data cell", 0, Read(Sort::Data);
    "offer-1": "offer, 1 open", 1, Offer;
    "offer-64": "offer, last of 64", 64, Offer;
    "offer-1024": "offer, last of 1,024", 1_024, Offer;
    "offer-member-256": "offer to a member, last of 256", 0, OfferMember { members: 256 };
    "add-remove-255": "add and remove a member below 255 others", 0, AddRemove { members: 255 };
    "open-close-0": "open and close, no other open", 0, OpenClose;
    "open-close-63": "open and close a name above 63 others", 63, OpenClose;
    "open-close-1023": "open and close a name above 1,023 others", 1_023, OpenClose;
    "open-close-low-1023": "open and close a name below 1,023 others", 1_023, OpenCloseLow;
    "make-1": "make a backward cell, 1 open", 1, Make;
    "make-64": "make a backward cell, last of 64", 64, Make;
    "make-1024": "make a backward cell, last of 1,024", 1_024, Make;
    "out-of-rate-1": "write an out-of-rate cell, 1 open", 1, OutOfRate;
    "out-of-rate-64": "write an out-of-rate cell, last of 64", 64, OutOfRate;
    "out-of-rate-1024": "write an out-of-rate cell, last of 1,024", 1_024, OutOfRate;
    "acr-1": "ask for the rate, 1 open", 1, Acr;
    "acr-64": "ask for the rate, last of 64", 64, Acr;
    "acr-1024": "ask for the rate, last of 1,024", 1_024, Acr;
    "status-1": "read a connection, 1 open", 1, Status;
    "status-64": "read a connection, last of 64", 64, Status;
    "status-1024": "read a connection, last of 1,024", 1_024, Status;
    "status-member-256": "read a member, last of 256", 0, StatusMember { members: 256 };
    "export-1": "export a contract as doubles, 1 open", 1, Export;
    "export-64": "export a contract as doubles, last of 64", 64, Export;
    "export-1024": "export a contract as doubles, last of 1,024", 1_024, Export;
    "next-1": "ask for the next ready instant, 1 open", 1, Next;
    "next-1024": "ask for the next ready instant, 1,024 open", 1_024, Next;
    "slot-time-1": "ask for the time to pass to a slot, 1 open", 1, SlotTime;
    "slot-time-1024": "ask for the time to pass to a slot, 1,024 open", 1_024, SlotTime;
    "level": "set the congestion level", 64, Level;
    "code": "code of a rate", 0, Code;
    "rate": "rate of a code", 0, Rate;
    "import": "import a double that is a code rate", 0, Import { exact: true };
    "import-rest": "import a double with a remainder", 0, Import { exact: false };
    "share-16": "share of a capacity, 16 demands", 0, FairShare { demands: 16 };
    "share-256": "share of a capacity, 256 demands", 0, FairShare { demands: 256 };
    "share-1024": "share of a capacity, 1,024 demands", 0, FairShare { demands: 1_024 };
    "limit": "limit ER of a backward RM cell", 0, Limit;
    "port-16": "port, backward RM cell, 16 demands", 0, Port { demands: 16 };
    "port-1024": "port, backward RM cell, 1,024 demands", 0, Port { demands: 1_024 };
    "judge": "judge a trace, 256 cells of 7 octets", 0, Judge { cells: 256, numbers: Numbers::Usual };
    "judge-long": "judge a trace, 256 cells of 15 octets", 0, Judge { cells: 256, numbers: Numbers::Long };
    "house": "house set of parameters", 0, House;
}

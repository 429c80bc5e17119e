//! A call with its arguments.

use abr::ffi::{abr_params, abr_received, abr_rm};
use abr_reference::{Address, Allowed, Closed, Opened, Refusal};

use crate::demands::Demands;
use crate::octets::Octets;

/// One call of the interface. Of a buffer to be written only the length is
/// given.
#[derive(Debug, Clone, Copy)]
pub enum Call {
    Open {
        at: Address,
        time: u64,
        params: abr_params,
    },
    Close {
        at: Address,
    },
    Receive {
        cell: Octets,
    },
    Offer {
        at: Address,
        cells: u64,
    },
    SetLevel {
        level: u32,
    },
    Slot {
        time: u64,
        len: usize,
    },
    Make {
        at: Address,
        time: u64,
    },
    OutOfRate {
        at: Address,
        time: u64,
        len: usize,
    },
    OpenPath {
        vpi: u32,
        time: u64,
        params: abr_params,
    },
    Add {
        at: Address,
    },
    OfferMember {
        at: Address,
        cells: u64,
    },
    Remove {
        at: Address,
    },
    Acr {
        at: Address,
    },
    Export {
        at: Address,
    },
    WriteRm {
        rm: abr_rm,
        len: usize,
    },
    Read {
        cell: Octets,
    },
    Code {
        rate: u64,
    },
    Rate {
        code: u32,
    },
    /// A double, given by its bits.
    Import {
        bits: u64,
    },
    FairShare {
        capacity: u64,
        demands: Demands,
    },
    /// The cell is written in place, and so are those of a port.
    Limit {
        rate: u64,
        cell: Octets,
    },
    Port {
        capacity: u64,
        demands: Demands,
        cell: Octets,
    },
    /// The trace is drawn from a seed.
    Judge {
        trace: u64,
    },
    House {
        pcr: u32,
        mcr: u32,
        icr: u32,
    },
}

/// The sorts of call, in the order of [`Call::sort`].
pub const SORTS: [&str; 24] = [
    "open",
    "close",
    "receive",
    "offer",
    "set_level",
    "slot",
    "make",
    "out_of_rate",
    "open_path",
    "add",
    "offer_member",
    "remove",
    "acr",
    "export",
    "write_rm",
    "read",
    "code",
    "rate",
    "import",
    "fair_share",
    "limit",
    "port",
    "judge",
    "house",
];

impl Call {
    /// The place of its sort in [`SORTS`].
    pub fn sort(&self) -> usize {
        match self {
            Call::Open { .. } => 0,
            Call::Close { .. } => 1,
            Call::Receive { .. } => 2,
            Call::Offer { .. } => 3,
            Call::SetLevel { .. } => 4,
            Call::Slot { .. } => 5,
            Call::Make { .. } => 6,
            Call::OutOfRate { .. } => 7,
            Call::OpenPath { .. } => 8,
            Call::Add { .. } => 9,
            Call::OfferMember { .. } => 10,
            Call::Remove { .. } => 11,
            Call::Acr { .. } => 12,
            Call::Export { .. } => 13,
            Call::WriteRm { .. } => 14,
            Call::Read { .. } => 15,
            Call::Code { .. } => 16,
            Call::Rate { .. } => 17,
            Call::Import { .. } => 18,
            Call::FairShare { .. } => 19,
            Call::Limit { .. } => 20,
            Call::Port { .. } => 21,
            Call::Judge { .. } => 22,
            Call::House { .. } => 23,
        }
    }

    /// Whether it is given a table.
    pub fn has_table(&self) -> bool {
        self.sort() < 14
    }

    /// Whether it writes the table when it is accepted.
    pub fn may_change_table(&self) -> bool {
        self.sort() < 12
    }

    /// The time that it is given, if it is given one.
    pub fn time(&self) -> Option<u64> {
        match *self {
            Call::Open { time, .. }
            | Call::OpenPath { time, .. }
            | Call::Slot { time, .. }
            | Call::Make { time, .. }
            | Call::OutOfRate { time, .. } => Some(time),
            _ => None,
        }
    }

    /// The connection or the member that it names, if it names one.
    pub fn address(&self) -> Option<Address> {
        match *self {
            Call::OpenPath { vpi, .. } => Some(Address::of_path(vpi)),
            Call::Open { at, .. }
            | Call::Close { at }
            | Call::Offer { at, .. }
            | Call::Make { at, .. }
            | Call::OutOfRate { at, .. }
            | Call::Add { at }
            | Call::OfferMember { at, .. }
            | Call::Remove { at }
            | Call::Acr { at }
            | Call::Export { at } => Some(at),
            Call::Receive { cell } => address_of(cell.as_slice()),
            _ => None,
        }
    }
}

/// The VPI and VCI in the header of some octets, if there are enough.
pub fn address_of(octets: &[u8]) -> Option<Address> {
    let header = u32::from_be_bytes(octets.get(..4)?.try_into().ok()?);
    Some(Address::new(header >> 20 & 0xFF, header >> 4 & 0xFFFF))
}

/// What a call that is accepted answers.
#[derive(Debug, Clone, Copy, PartialEq, Eq)]
pub enum Answer {
    /// Nothing but that it was accepted.
    Done,
    /// The comparisons of an offer, a made cell or an added member.
    Comparisons(u32),
    /// The leaf and the comparisons of an open.
    Opened(Opened),
    /// A received cell.
    Received(abr_received),
    /// The data cells and the comparisons of a close or a removal.
    Closed(Closed),
    /// A slot.
    Sent(abr::ffi::abr_sent),
    /// An allowed rate, and what the last feedback did.
    Allowed(Allowed),
    /// A number: a rate or a code.
    Number(u64),
    /// A cell that was read.
    Cell(abr::ffi::abr_cell),
    /// Peak, minimum and initial rate of a contract, by the bits of their doubles.
    Exported([u64; 3]),
    /// A double as a rate code, and the remainder by its bits.
    Imported { code: u32, remainder: u64 },
    /// A share of a capacity.
    Share(abr::ffi::abr_share),
    /// A verdict on a trace.
    Verdict(abr::ffi::abr_verdict),
    /// The house set.
    Params(abr_params),
}

impl Answer {
    /// The comparisons made; 0 if it says none.
    pub fn comparisons(&self) -> u32 {
        match self {
            Answer::Comparisons(comparisons) => *comparisons,
            Answer::Opened(opened) => opened.comparisons,
            Answer::Received(received) => received.comparisons,
            Answer::Closed(closed) => closed.comparisons,
            Answer::Sent(sent) => sent.comparisons,
            _ => 0,
        }
    }
}

/// An answer, or the refusal.
pub type Outcome = Result<Answer, Refusal>;

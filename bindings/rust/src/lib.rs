//! Safe Rust binding of the ABR end-system rate engine.
//!
//! A transmitter asks once per cell slot which of up to [`CONNECTIONS_MAX`] connections of one
//! link sends, what kind of cell, and what rate it is allowed afterwards. The environment variable
//! `ABR_CONNECTIONS` says for how many the linked library was built, 16, 64, 256 or 1024. All
//! state is in a [`Table`]. Rates are whole numbers of 1/512 cell per second,
//! times are nanoseconds. An accepted open, close, receive, offer or make answers
//! the comparisons that it made between ready instants, 1 to [`COMPARISONS_MAX`], and a
//! close the data cells that waited. A connection is named by its [`Address`], its VPI
//! and its VCI together, a path, which serves many channels at one rate, by its VPI and
//! [`PATH_VCI`]. From its open to its close it has a leaf, a number below
//! [`CONNECTIONS_MAX`], which each cell sent or received for it answers.
//!
//! ```
//! use abr::{Address, Kind, Params, Table, CELL_OCTETS};
//!
//! # fn main() -> Result<(), abr::Refusal> {
//! let mut table = Table::new();
//! let thousand = abr::code(512_000)?; // 1,000 cells per second
//! let at = Address::new(1, 32);
//! table.open(at, 0, &Params::house(thousand, abr::code(512)?, thousand))?;
//! table.offer(at, 10)?;
//!
//! let mut cell = [0; CELL_OCTETS];
//! let sent = table.slot(0, &mut cell)?.expect("data waits");
//! assert_eq!(sent.address(), at);
//! assert_eq!((sent.kind, sent.acr), (Kind::Forward, 512_000));
//! // The next cell is allowed a millisecond later.
//! assert_eq!(table.next_ready(), Some(1_000_000));
//! assert_eq!(table.slot(999_999, &mut cell)?, None);
//! let sent = table.slot(1_000_000, &mut cell)?.expect("data waits");
//! assert_eq!(sent.kind, Kind::Data);
//! # Ok(())
//! # }
//! ```

#![warn(missing_docs)]

mod address;
mod answers;
mod cell;
mod connection;
mod double;
pub mod ffi;
mod judge;
mod params;
mod port;
mod rate;
mod refusal;
mod table;

pub use address::{Address, PATH_VCI, VCI_MAX, VCI_MIN, VPI_MAX};
pub use answers::{Allowed, Closed, Kind, Opened, Received, ReceivedKind, Sent};
pub use cell::{read, write_rm, Cell, Rm, CELL_OCTETS};
pub use connection::{Connection, ConnectionKind, Member, Totals};
pub use double::{import, Contract, Imported};
pub use judge::{judge, Rule, Verdict};
pub use params::{Params, ADTF_MAX, CDF_ZERO, FRTT_MAX, TBE_MAX};
pub use port::{fair_share, limit, port, Share, DEMANDS_MAX};
pub use rate::{code, rate, CODE_MAX, RATE_MAX, RATE_ONE};
pub use refusal::Refusal;
pub use table::{
    Table, COMPARISONS_MAX, CONNECTIONS_MAX, LEVEL_MAX, MAKE_INTERVAL, MEMBERS_MAX,
    OUT_OF_RATE_INTERVAL, TIME_MAX, WAITING_MAX,
};

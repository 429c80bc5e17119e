//! A reference version of the ABR end-system rate engine, written from documents
//! 01 and 02 alone.
//!
//! It follows the document's text before speed: nothing is cached, every slot
//! computes every ready instant again and compares them all. The tournament of
//! document 02 only counts comparisons.
//!
//! * [`mod@rate`]: rate codes and the gap between cells;
//! * [`double`]: rates as doubles, exported and imported;
//! * [`capacity`]: how many connections may be open;
//! * [`address`]: VPI and VCI, and the name that they make;
//! * [`params`]: the parameters of an open, their ranges, the house set;
//! * [`cell`]: header check, CRC-10, writing, reading and turning cells;
//! * [`spacing`]: the 100 ms between made cells, and between out-of-rate cells;
//! * [`destination`]: the saved EFCI, turned and made cells;
//! * [`load`]: the waiting data of a channel, and of a path's members in their turns;
//! * [`connection`]: the four moves of the allowed rate, and pacing;
//! * [`tournament`]: the matches between ready instants, and their count;
//! * [`engine`]: the table of connections and the calls on it;
//! * [`status`]: what a connection, a member and the whole link are at the moment;
//! * [`port`]: the share of a capacity, and the port of a switch that limits ER by it;
//! * [`trace`], [`judge`]: the numbers of a trace, and the judge of one;
//! * [`refusal`]: the refusals and their numbers.

#![forbid(unsafe_code)]

pub mod address;
pub mod capacity;
pub mod cell;
pub mod connection;
pub mod destination;
pub mod double;
pub mod engine;
pub mod judge;
pub mod load;
pub mod params;
pub mod port;
pub mod rate;
pub mod refusal;
pub mod spacing;
pub mod status;
pub mod tournament;
pub mod trace;

#[cfg(test)]
mod address_tests;
#[cfg(test)]
mod change_tests;
#[cfg(test)]
mod closing_tests;
#[cfg(test)]
mod comparison_tests;
#[cfg(test)]
mod engine_tests;
#[cfg(test)]
mod export_tests;
#[cfg(test)]
mod make_tests;
#[cfg(test)]
mod next_tests;
#[cfg(test)]
mod no_minimum_tests;
#[cfg(test)]
mod out_of_rate_tests;
#[cfg(test)]
mod path_tests;
#[cfg(test)]
mod reserved_bit_tests;
#[cfg(test)]
mod setup_tests;
#[cfg(test)]
mod slot_time_tests;
#[cfg(test)]
mod status_tests;

pub use address::Address;
pub use capacity::{COMPARISONS_MAX, CONNECTIONS_MAX};
pub use cell::{read, write_rm, Cell, Rm};
pub use connection::{Allowed, Kind};
pub use double::{import, Exported, Imported};
pub use engine::{Arrival, Closed, Engine, Opened, Received, Sent};
pub use judge::Breach;
pub use params::Params;
pub use port::{fair_share, limit};
pub use rate::{code_of, gap, rate, rate_of};
pub use refusal::Refusal;
pub use status::{Member, Sort, Status, Totals};

//! The library compared with the reference, call by call.
//!
//! * [`rng`]: a small generator of random numbers from a printed seed;
//! * [`octets`]: cells made octet by octet, with checks computed bit by bit;
//! * [`call`], [`demands`]: a call with its arguments;
//! * [`library`], [`expected`]: a call made on the library, and on the
//!   reference, whose outcome is the expected one;
//! * [`trace`], [`drawn`]: the numbers and octets of a trace, and traces drawn with the
//!   verdict that they must get;
//! * [`edges`]: the edges of the rules that the cells of a trace are on;
//! * [`slot_times`]: what is asked of the time to be passed to a slot;
//! * [`leaves`]: the leaf of each connection, from calls and answers;
//! * [`readings`]: what is read after each call, and what was met;
//! * [`both`]: one call made on both sides and everything compared;
//! * [`accounts`]: the data cells of each name, counted from calls and answers;
//! * [`observation`]: what is known of a list's connections from its calls;
//! * [`profile`], [`generate`]: lists of calls at the edges;
//! * [`recorder`]: the traces of a list's connections;
//! * [`coverage`]: what the lists reached;
//! * [`policer`]: a network's policer, GCRA and DGCRA;
//! * [`parallel`]: jobs on all processors;
//! * [`lists`]: whole lists, each repeatable by its number;
//! * [`pairs`]: two lists, the second at least as congested.

pub mod accounts;
pub mod both;
pub mod call;
pub mod coverage;
pub mod demands;
pub mod drawn;
pub mod edges;
pub mod expected;
pub mod generate;
pub mod leaves;
pub mod library;
pub mod lists;
pub mod observation;
pub mod octets;
pub mod pairs;
pub mod parallel;
pub mod policer;
pub mod profile;
pub mod readings;
pub mod recorder;
pub mod rng;
pub mod slot_times;
pub mod trace;

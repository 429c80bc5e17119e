//! What `abr-judge` and `abr-trace` are made of. The verdict is always the library's; these
//! modules read and write traces, say in a sentence what the verdict means, and draw it.
//!
//! * [`arguments`], [`console`]: how the programs are called, and what they print;
//! * [`number`]: the numbers of a trace in their octets;
//! * [`trace`], [`fault`]: its cells, and where it can't be read further;
//! * [`history`]: what the rules look at before a cell;
//! * [`text`]: traces written as decimal numbers;
//! * [`input`], [`progress`]: files read, and the progress line of all that is done with one;
//! * [`excerpt`]: what is said of a trace, from one reading of its cells;
//! * [`explain`], [`json`], [`draw`]: the verdict in a sentence and for programs, and the picture;
//! * [`record`], [`scenario`], [`random`], [`log`]: traces recorded from a transmitter, one that
//!   runs here and one that printed what it did.

pub mod arguments;
pub mod draw;
pub mod excerpt;
pub mod explain;
pub mod fault;
pub mod history;
pub mod input;
pub mod json;
pub mod log;
pub mod number;
pub mod progress;
pub mod random;
pub mod record;
pub mod scenario;
pub mod text;
pub mod trace;

pub use abr_support::console;

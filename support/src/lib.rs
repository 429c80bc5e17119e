//! What the tools, the pictures and the benchmark share.
//!
//! * [`console`]: what a program prints, and its exit status;
//! * [`svg`], [`plot`]: the parts of a picture, and a part with time to the right;
//! * [`scenario`]: two connections on one link, and a network that answers them;
//! * [`delay`], [`refusals`]: RM cells under way, and refusals that are no failure.

pub mod console;
pub mod delay;
pub mod plot;
pub mod refusals;
pub mod scenario;
pub mod svg;

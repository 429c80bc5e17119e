//! Ten sources that share a port, each on a link of its own. Their forward RM cells go by the
//! port to a far end, which turns them; on the way back the port writes its share into them
//! (document 02, L10).

pub mod draw;
pub mod feedbacks;
mod network;
mod port;
pub mod report;
mod sources;
mod station;
mod total;

pub use network::{run, shares};
pub use port::CAPACITY;
pub use sources::{changes, Source, END, SOURCES};
pub use station::History;
pub use total::sum;

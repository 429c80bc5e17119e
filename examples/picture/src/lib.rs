//! Pictures of allowed rates over time. Two connections on one link and a network that answers
//! them: drawn by `draw`. Ten sources that share a port: `closed_loop`, which draws itself.

pub mod closed_loop;
pub mod draw;
pub mod track;

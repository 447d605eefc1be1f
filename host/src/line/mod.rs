//! A simulated line between two ends that are called with values: the demonstration and the runs over it, what happens in
//! them, and demand 3 judged on that.

pub mod demand;
pub mod demo;
pub mod ends;
pub mod faced;
pub mod live;
pub mod log;
pub mod odds;
pub mod runs;
pub mod simulated;
pub mod timeline;

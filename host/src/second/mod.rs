//! The second version: reading, writing, cutting, listing, the log, its replay and the two ends, written from the rules
//! (docs/RULES.md) alone, and the C face, written from its header. It uses nothing of the other folders.

pub mod behind;
pub mod blocks;
pub mod clock;
pub mod cutting;
pub mod desk;
pub mod face;
pub mod faults;
pub mod framing;
pub mod listing;
pub mod logs;
pub mod master;
pub mod numbers;
pub mod reading;
pub mod records;
pub mod replay;
pub mod script;
pub mod words;

pub use behind::Second;

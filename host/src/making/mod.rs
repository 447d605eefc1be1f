//! Makes what the project's programs and its library are tried with, from fixed seeds: telegrams, captures, logs,
//! scripts, and inputs for the calls of the C face.

pub mod calls;
pub mod captures;
pub mod damage;
pub mod exchange;
pub mod logs;
pub mod random;
pub mod scripts;
pub mod states;
pub mod telegrams;
pub mod times;

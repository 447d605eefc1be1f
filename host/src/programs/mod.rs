//! Programs: the words that those of `bin/` are called with, and how the built ones are found, run and asked.

pub mod answers;
pub mod arguments;
pub mod built;
pub mod scenes;

//! A second version of what the library does, written from the rules alone, and what tries the project's programs and
//! its library with it. Each folder uses those before it, and none behind it.

pub mod second;

pub mod fast;

pub mod making;

pub mod line;

pub mod comparing;

pub mod programs;

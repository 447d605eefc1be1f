//! The two ends of a line, as a simulated line calls them. The library, the second version and the program `scenes` can
//! stand behind them.

use crate::second::desk::{Hearing, Refusal};
use crate::second::master::Told;
use crate::second::records::Record;

/// A desk and a master. The master's calls give what it told and what it sent.
pub trait Ends {
    /// Starts both on a line.
    fn start(&mut self, line: u8, now: u32);
    /// Whether the desk noted the line lost.
    fn desk_tick(&mut self, now: u32) -> Result<bool, Refusal>;
    fn desk_queue(&mut self, record: &Record) -> Result<(), Refusal>;
    fn desk_set(&mut self, record: &Record) -> Result<(), Refusal>;
    fn desk_key(&mut self, key: u8) -> Result<(), Refusal>;
    fn desk_hear(&mut self, now: u32, room: usize, frame: &[u8]) -> Result<Hearing, Refusal>;
    fn master_offer(&mut self, now: u32, room: usize, record: &Record) -> (Told, Vec<u8>);
    fn master_tick(&mut self, now: u32, room: usize) -> (Told, Vec<u8>);
    fn master_hear(&mut self, now: u32, room: usize, frame: &[u8]) -> (Told, Vec<u8>);
}

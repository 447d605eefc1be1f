//! Cuts telegrams out of a byte stream in two ways, which the tests compare: rules C1 to C8.

use crate::second::faults::is_on;
use crate::second::reading::{CR, LF, LONGEST};

/// A heard item.
#[derive(Debug, Clone, Copy, PartialEq, Eq)]
pub enum Heard {
    Byte(u8),
    Hit,
}

/// Gathers a telegram item by item; nothing is gathered outside a telegram.
#[derive(Debug, Clone, Default, PartialEq, Eq)]
pub struct Cutter {
    gathered: Vec<u8>,
}

impl Cutter {
    /// A cutter that has gathered these bytes.
    pub fn holding(gathered: &[u8]) -> Cutter {
        Cutter {
            gathered: gathered.to_vec(),
        }
    }

    /// The bytes gathered so far.
    pub fn gathered(&self) -> &[u8] {
        &self.gathered
    }

    /// Takes the next heard item and hands out the telegram that it ends.
    pub fn hear(&mut self, heard: Heard) -> Option<Vec<u8>> {
        match heard {
            Heard::Hit => self.gathered.clear(),
            Heard::Byte(LF) if self.gathered.is_empty() || !is_on("telegram goes on over LF") => {
                self.gathered = vec![LF]
            }
            Heard::Byte(_) if self.gathered.is_empty() => {}
            Heard::Byte(CR) => {
                self.gathered.push(CR);
                return Some(std::mem::take(&mut self.gathered));
            }
            Heard::Byte(byte) => {
                self.gathered.push(byte);
                if self.gathered.len() == LONGEST {
                    self.gathered.clear();
                }
            }
        }
        None
    }
}

/// The next telegram in a slice at or after an offset, with its own offset. A telegram ends with a
/// CR and begins with the LF among the 65 bytes before it, with neither LF nor CR between.
pub fn next_telegram(bytes: &[u8], from: usize) -> Option<(usize, &[u8])> {
    let behind = bytes.get(from..)?;
    for (index, _) in behind.iter().enumerate().filter(|(_, byte)| **byte == CR) {
        let end = from + index;
        let first = from.max((end + 1).saturating_sub(LONGEST));
        let before = bytes.get(first..end)?;
        let near = before.iter().rposition(|byte| matches!(*byte, LF | CR));
        if let Some(start) = near.map(|near| first + near) {
            if bytes.get(start) == Some(&LF) {
                return Some((start, bytes.get(start..=end)?));
            }
        }
    }
    None
}

/// All telegrams of a slice, each with its offset.
pub fn telegrams(bytes: &[u8]) -> Vec<(usize, &[u8])> {
    let mut found = Vec::new();
    let mut from = 0;
    while let Some((offset, telegram)) = next_telegram(bytes, from) {
        from = offset + telegram.len();
        found.push((offset, telegram));
    }
    found
}

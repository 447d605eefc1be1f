//! The capture log: a reader and a writer of its records, from request 1 alone.

use crate::second::reading::LONGEST;

pub const UNKNOWN_MARK: u8 = 18;
pub const WRONG_LENGTH: u8 = 19;
pub const CUT_OFF: u8 = 20;

/// The bytes of a record in front of its own: mark, time and length.
pub const HEAD: usize = 7;

/// What a record is: a sending by the master, one by the slave, or a hit.
#[derive(Debug, Clone, Copy, PartialEq, Eq)]
pub enum Mark {
    Master,
    Slave,
    Hit,
}

/// All marks, in the order of their numbers in the C face.
pub const MARKS: [Mark; 3] = [Mark::Master, Mark::Slave, Mark::Hit];

impl Mark {
    /// Its two bytes in a log.
    pub fn bytes(self) -> [u8; 2] {
        match self {
            Mark::Master => *b"M>",
            Mark::Slave => *b"S>",
            Mark::Hit => *b"H!",
        }
    }

    /// Its number in the C face, from 1.
    pub fn number(self) -> u32 {
        self as u32 + 1
    }

    /// The mark of a number of the C face.
    pub fn numbered(number: u32) -> Option<Mark> {
        MARKS.into_iter().find(|mark| mark.number() == number)
    }

    /// True where a record with this mark may have so many bytes.
    fn takes(self, length: usize) -> bool {
        length <= if self == Mark::Hit { 0 } else { LONGEST }
    }
}

/// A record of a log; its bytes are a part of the log.
#[derive(Debug, Clone, Copy, PartialEq, Eq)]
pub struct Entry<'a> {
    pub mark: Mark,
    pub time: u32,
    pub bytes: &'a [u8],
}

impl Entry<'_> {
    /// How long the record is in a log.
    pub fn length(&self) -> usize {
        HEAD + self.bytes.len()
    }
}

/// A refusal, and the offset of its record.
pub type Refused = (u8, usize);

/// The record that begins at an offset; none at the log's end and behind it.
pub fn entry_at(log: &[u8], from: usize) -> Result<Option<Entry<'_>>, Refused> {
    let no = |refusal| (refusal, from);
    let (mark, behind) = match log.get(from..).unwrap_or_default() {
        [] => return Ok(None),
        [_] => return Err(no(CUT_OFF)),
        [first, second, behind @ ..] => ([*first, *second], behind),
    };
    let known = MARKS.into_iter().find(|known| known.bytes() == mark);
    let mark = known.ok_or(no(UNKNOWN_MARK))?;
    let [highest, high, low, lowest, length, behind @ ..] = behind else {
        return Err(no(CUT_OFF));
    };
    let length = usize::from(*length);
    if !mark.takes(length) {
        return Err(no(WRONG_LENGTH));
    }
    Ok(Some(Entry {
        mark,
        time: u32::from_be_bytes([*highest, *high, *low, *lowest]),
        bytes: behind.get(..length).ok_or(no(CUT_OFF))?,
    }))
}

/// All records of a log with their offsets, and the refusal that ends it where there is one.
pub fn entries(log: &[u8]) -> (Vec<(usize, Entry<'_>)>, Option<Refused>) {
    let (mut found, mut from) = (Vec::new(), 0);
    loop {
        match entry_at(log, from) {
            Ok(Some(entry)) => {
                found.push((from, entry));
                from += entry.length();
            }
            Ok(None) => return (found, None),
            Err(refused) => return (found, Some(refused)),
        }
    }
}

/// Writes a record to the front of an output, and says how many bytes it has; or refuses, and
/// writes nothing.
pub fn write(entry: &Entry, out: &mut [u8]) -> Result<usize, u8> {
    if !entry.mark.takes(entry.bytes.len()) {
        return Err(WRONG_LENGTH);
    }
    let record = [
        &entry.mark.bytes()[..],
        &entry.time.to_be_bytes(),
        &[entry.bytes.len() as u8],
        entry.bytes,
    ]
    .concat();
    let front = out.get_mut(..record.len()).ok_or(14)?;
    front.copy_from_slice(&record);
    Ok(record.len())
}

/// Adds a record to a log.
pub fn add(log: &mut Vec<u8>, entry: &Entry) -> Result<(), u8> {
    let mut room = [0; HEAD + LONGEST];
    let length = write(entry, &mut room)?;
    log.extend(room.iter().take(length));
    Ok(())
}

//! Lists the telegrams of a capture (P1 to P5): bytes come in large pieces, and lines leave in large pieces.

use super::cutting::{next_telegram, unfinished};
use super::reading::check;
use super::Refusal;
use std::io::{ErrorKind, Read, Result, Write};

/// The most bytes of a line (P10).
const LINE: usize = 87;
/// The bytes that are read at a time, and those that are kept until they are written.
const PIECE: usize = 1 << 16;

/// Lines on their way out.
struct Lines<W> {
    kept: Vec<u8>,
    length: usize,
    to: W,
}

impl<W: Write> Lines<W> {
    fn to(to: W) -> Lines<W> {
        let kept = vec![0; PIECE];
        Lines {
            kept,
            length: 0,
            to,
        }
    }

    /// Adds the line of a telegram.
    fn add(
        &mut self,
        ordinal: u64,
        offset: u64,
        said: &std::result::Result<(u8, u8), Refusal>,
    ) -> Result<()> {
        if self.length + LINE > self.kept.len() {
            self.flush()?;
        }
        let line = &mut self.kept[self.length..][..LINE];
        let mut end = number(line, 0, ordinal);
        line[end] = b' ';
        end = number(line, end + 1, offset);
        match said {
            Ok((type_byte, number)) => {
                line[end..end + 8].copy_from_slice(&[
                    b' ',
                    b'o',
                    b'k',
                    b' ',
                    *type_byte,
                    b' ',
                    b'0' + number,
                    b'\n',
                ]);
                end += 8;
            }
            Err(refusal) => {
                line[end..end + 4].copy_from_slice(b" no ");
                end = number(line, end + 4, refusal.number.into());
                line[end] = b' ';
                end = number(line, end + 1, refusal.place.into());
                line[end] = b'\n';
                end += 1;
            }
        }
        self.length += end;
        Ok(())
    }

    /// Writes out what is kept.
    fn flush(&mut self) -> Result<()> {
        self.to.write_all(&self.kept[..self.length])?;
        self.length = 0;
        Ok(())
    }
}

/// The numbers 0 to 99 in two digits each.
static PAIRS: [u8; 200] = {
    let mut pairs = [0; 200];
    let mut number = 0;
    while number < 100 {
        pairs[number * 2] = b'0' + (number / 10) as u8;
        pairs[number * 2 + 1] = b'0' + (number % 10) as u8;
        number += 1;
    }
    pairs
};

/// Puts a number in decimal at a place, and answers the place behind it.
fn number(line: &mut [u8], at: usize, mut number: u64) -> usize {
    if number < 10 {
        line[at] = b'0' + number as u8;
        return at + 1;
    }
    let end = at + number.ilog10() as usize + 1;
    let mut place = end;
    while number >= 10 {
        let pair = (number % 100) as usize * 2;
        number /= 100;
        place -= 2;
        line[place..place + 2].copy_from_slice(&PAIRS[pair..pair + 2]);
    }
    if place > at {
        line[at] = b'0' + number as u8;
    }
    end
}

/// Where a listing stands: the line, the ordinal of the last telegram, and the bytes behind the digit that have gone.
struct Place {
    line: u8,
    ordinal: u64,
    gone: u64,
}

impl Place {
    /// The place behind the digit; none where it names no line.
    fn behind(digit: Option<&u8>) -> Option<Place> {
        let line = match digit {
            Some(digit @ b'1'..=b'3') => digit - b'0',
            _ => return None,
        };
        Some(Place {
            line,
            ordinal: 0,
            gone: 0,
        })
    }

    /// Lists the telegrams that end in these bytes, and answers where one begins that may go on behind them.
    fn list<W: Write>(&mut self, bytes: &[u8], lines: &mut Lines<W>) -> Result<usize> {
        let mut from = 0;
        while let Some((start, telegram)) = next_telegram(bytes, from) {
            from = start + telegram.len();
            self.ordinal += 1;
            let offset = self.gone + start as u64;
            lines.add(self.ordinal, offset, &check(self.line, telegram))?;
        }
        Ok(unfinished(bytes, from))
    }
}

/// What an input is told that begins with no line's digit.
const NO_LINE: &[u8] = b"no 15 0\n";

/// Lists a capture that is at hand as a whole.
pub fn list_slice(input: &[u8], output: &mut impl Write) -> Result<()> {
    let Some(mut place) = Place::behind(input.first()) else {
        return output.write_all(NO_LINE);
    };
    let mut lines = Lines::to(output);
    place.list(&input[1..], &mut lines)?;
    lines.flush()
}

/// Lists a capture that is read in pieces.
pub fn list(input: &mut impl Read, output: &mut impl Write) -> Result<()> {
    let mut bytes = vec![0; PIECE];
    let mut more = |room: &mut [u8]| loop {
        match input.read(room) {
            Err(trouble) if trouble.kind() == ErrorKind::Interrupted => {}
            got => return got,
        }
    };
    let got = more(&mut bytes)?;
    let Some(mut place) = Place::behind(bytes[..got].first()) else {
        return output.write_all(NO_LINE);
    };
    bytes.copy_within(1..got, 0);
    let mut held = got - 1;
    let mut lines = Lines::to(output);
    loop {
        let going_on = place.list(&bytes[..held], &mut lines)?;
        bytes.copy_within(going_on..held, 0);
        place.gone += going_on as u64;
        held -= going_on;
        let got = more(&mut bytes[held..])?;
        if got == 0 {
            return lines.flush();
        }
        held += got;
    }
}

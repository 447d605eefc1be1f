//! `capture LINE MIB SEED quiet|busy` writes a capture of MIB mebibytes, the line digit included, to
//! standard output; the listing program is timed with it. A quiet capture has mostly
//! bytes outside telegrams, a busy one telegram after telegram.

use host::making::captures::piece;
use host::making::random::Random;
use host::programs::arguments::{arguments, stop};
use std::io::Write;
use std::process::ExitCode;

const MIB: usize = 1 << 20;

/// Writes the line digit and then pieces, until all bytes are written.
fn write_capture(line: u8, mut left: usize, seed: u64, busy: bool) -> std::io::Result<()> {
    let mut random = Random::seeded(seed);
    let mut output = std::io::BufWriter::with_capacity(MIB, std::io::stdout().lock());
    let mut bytes = vec![b'0' + line];
    while left > 0 {
        let part = bytes.get(..left).unwrap_or(&bytes);
        output.write_all(part)?;
        left -= part.len();
        bytes = piece(&mut random, line, busy);
    }
    output.flush()
}

/// The line, the bytes, the seed and whether it is busy, as the arguments say.
fn asked(words: &[String]) -> Option<(u8, usize, u64, bool)> {
    let [line, mebibytes, seed, kind] = words else {
        return None;
    };
    let line = line.parse().ok().filter(|line| matches!(line, 1..=3))?;
    let length = mebibytes.parse::<usize>().ok()?.checked_mul(MIB)?;
    let busy = match kind.as_str() {
        "busy" => true,
        "quiet" => false,
        _ => return None,
    };
    Some((line, length, seed.parse().ok()?, busy))
}

fn main() -> ExitCode {
    let Some((line, length, seed, busy)) = asked(&arguments()) else {
        stop("usage: capture LINE MIB SEED quiet|busy");
    };
    match write_capture(line, length, seed, busy) {
        Ok(()) => ExitCode::SUCCESS,
        Err(error) => {
            eprintln!("capture: {error}");
            ExitCode::FAILURE
        }
    }
}

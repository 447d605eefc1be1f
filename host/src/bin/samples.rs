//! `samples FOLDER` writes captures of the kind that a help desk gets into a folder: line1.cap,
//! line2.cap, line3.cap and noise.cap, and the log school.log. Each begins with the line digit of
//! the listing (rule P1).

use host::line::log::school;
use host::making::captures::noise;
use host::making::damage::damaged;
use host::making::exchange::exchange;
use host::making::random::Random;
use host::making::telegrams::any_form;
use host::programs::arguments::{arguments, stop};
use std::path::Path;
use std::process::ExitCode;

/// The telegrams of each sample.
const TELEGRAMS: usize = 300;

/// A capture of line 1 that is mostly noise, with some telegrams in it.
fn mostly_noise(random: &mut Random) -> Vec<u8> {
    let mut bytes = vec![b'1'];
    for _ in 0..40 {
        let length = random.from_to(20, 300);
        bytes.extend(noise(random, length));
        bytes.extend(match random.below(3) {
            0 => any_form(random, 1),
            1 => damaged(random, 1),
            _ => Vec::new(),
        });
    }
    bytes
}

/// Writes the samples into the folder.
fn write_samples(folder: &Path) -> std::io::Result<()> {
    std::fs::create_dir_all(folder)?;
    for line in 1..=3u8 {
        let mut random = Random::seeded(656 + u64::from(line));
        let mut bytes = vec![b'0' + line];
        bytes.extend(exchange(&mut random, line, TELEGRAMS));
        std::fs::write(folder.join(format!("line{line}.cap")), bytes)?;
    }
    let bytes = mostly_noise(&mut Random::seeded(656));
    std::fs::write(folder.join("noise.cap"), bytes)?;
    std::fs::write(folder.join("school.log"), school())
}

fn main() -> ExitCode {
    let [folder] = &arguments()[..] else {
        stop("usage: samples FOLDER");
    };
    match write_samples(Path::new(folder)) {
        Ok(()) => ExitCode::SUCCESS,
        Err(error) => {
            eprintln!("samples: {error}");
            ExitCode::FAILURE
        }
    }
}

//! Which programs may use the library, asked of both.

use super::Pair;
use crate::making::random::Random;

/// Asks for a number of versions; the first chunk asks for all near the library's own.
pub fn ask(pair: &mut Pair, seed: u64, items: usize) {
    let mut random = Random::seeded(0x0A00_0000 + seed);
    if pair.is_whole() && seed == 0 {
        for edition in (0..=4).chain([255, 256, 257, 0x0101, 65_535]) {
            for rest in (0..65_536).step_by(17).chain(0..600).chain([65_535]) {
                pair.edition(edition * 65_536 + rest);
            }
        }
    }
    for _ in 0..items {
        let version = match random.below(4) {
            0 => random.draw() as u32,
            1 => 0x1_0000 + random.below(600) as u32,
            2 => 0x1_0000 ^ 1 << random.below(32),
            _ => 0x1_0000 + random.below(65_536) as u32,
        };
        pair.edition(version);
    }
}

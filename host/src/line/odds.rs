//! What a demonstration is asked for, and what its line and its panel do.

use crate::line::simulated::Arrival;
use crate::making::random::Random;

/// How many things, of how many, the line loses, spoils or hits, when it is dead, in milliseconds,
/// and in how many turns the panel does something; 0 for a panel that does nothing.
pub struct Odds {
    pub lost: usize,
    pub spoiled: usize,
    pub hit: usize,
    pub of: usize,
    pub dead: std::ops::Range<u32>,
    pub panel: usize,
}

/// The line of the demonstration: dead for longer than T1.
pub const SHOWN: Odds = Odds {
    lost: 1,
    spoiled: 1,
    hit: 0,
    of: 12,
    dead: 30_000..64_000,
    panel: 400,
};

/// A line that hits too, with a panel that nobody touches: its log replays to the same answers,
/// because a replay begins with a fresh desk.
pub const IDLE: Odds = Odds {
    hit: 1,
    panel: 0,
    ..SHOWN
};

/// The line, seed and seconds that three words ask for, or what is wrong with them. The seconds
/// fit a clock of 32 bits of milliseconds.
pub fn asked(line: &str, seed: &str, seconds: &str) -> Result<(u8, u64, u32), String> {
    let number = |word: &str, most: u64| word.parse().ok().filter(|n| (1..=most).contains(n));
    let most = u64::from(u32::MAX / 1_000);
    let Some(on) = number(line, 3) else {
        return Err(format!("LINE is 1, 2 or 3, not '{line}'"));
    };
    let Ok(from) = seed.parse() else {
        return Err(format!("SEED is a number, not '{seed}'"));
    };
    let Some(time) = number(seconds, most) else {
        return Err(format!("SECONDS is 1 to {most}, not '{seconds}'"));
    };
    Ok((on as u8, from, time as u32))
}

impl Odds {
    /// Draws how a thing arrives now; `spoil` makes the frame where it arrives spoiled.
    pub fn arrival(
        &self,
        random: &mut Random,
        now: u32,
        spoil: impl FnOnce(&mut Random) -> Vec<u8>,
    ) -> Arrival {
        let drawn = random.below(self.of);
        if drawn < self.lost || self.dead.contains(&now) {
            return Arrival::Lost;
        }
        match drawn - self.lost {
            over if over < self.spoiled => Arrival::Spoiled(spoil(random)),
            over if over < self.spoiled + self.hit => Arrival::Hit,
            _ => Arrival::Whole,
        }
    }
}

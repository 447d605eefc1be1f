//! Times for clocks: where they are set, how far they step, and when a master ticks.

use crate::making::random::Random;
use crate::second::clock::elapsed;
use crate::second::master::Master;

/// Steps of the clock: short ones, and those next to the limits of T2, of T0 on each line, and of T1.
pub const STEPS: [u32; 16] = [
    0, 7, 90, 400, 1_999, 2_000, 2_001, 4_999, 5_000, 9_999, 10_000, 19_999, 20_000, 27_999,
    28_000, 40_000,
];

/// The limits of T0, and the times before them.
const POLLS: [u32; 6] = [4_999, 5_000, 9_999, 10_000, 19_999, 20_000];

/// The time of a master's tick: while it is free mostly next to a limit of T0, where that is not
/// over, else now.
pub fn tick_time(random: &mut Random, now: u32, master: &Master) -> u32 {
    let limit = POLLS[random.below(POLLS.len())];
    if master.count == 0 && elapsed(now, master.t0) <= limit && !random.one_in(4) {
        return master.t0.wrapping_add(limit);
    }
    now
}

/// What a clock is set to: zero, any time, or shortly before it starts again at zero.
pub const CLOCKS: [u32; 4] = [0, 1_000_000, 4_294_960_000, u32::MAX];

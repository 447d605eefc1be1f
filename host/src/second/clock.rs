//! Time: rules K1 to K4 and K6.

/// Now less start, modulo 2^32.
pub fn elapsed(now: u32, start: u32) -> u32 {
    let round = 1u64 << 32;
    ((u64::from(now) + round - u64::from(start)) % round) as u32
}

/// True where elapsed time is at or above the limit.
pub fn run_out(now: u32, start: u32, limit: u32) -> bool {
    elapsed(now, start) >= limit
}

/// How many milliseconds from now on the timer runs out; 0 where it has.
pub fn left(now: u32, start: u32, limit: u32) -> u32 {
    limit.saturating_sub(elapsed(now, start))
}

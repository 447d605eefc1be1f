//! Deliberate faults of the second version. The environment variable HOST_FAULT switches one on,
//! and the comparison must find it. Most are readings of the rules that look right and are not.

use std::sync::OnceLock;

/// The names of the faults.
pub const FAULTS: [&str; 13] = [
    "lower case taken",
    "telegram goes on over LF",
    "fault stored",
    "queue popped on a repeat",
    "number changed",
    "key taken from every A",
    "T0 restarted by the key",
    "a repeat's contents untold",
    "due a millisecond late",
    "queue cleared with the record set",
    "queue looked at from its end",
    "gatherer without its mark",
    "words without their 0",
];

/// Whether this fault is switched on.
pub fn is_on(fault: &str) -> bool {
    static NAMED: OnceLock<String> = OnceLock::new();
    NAMED.get_or_init(|| std::env::var("HOST_FAULT").unwrap_or_default()) == fault
}

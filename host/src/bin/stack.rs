//! `stack [CHUNKS [DIVIDED]]` measures the stack that each call of the library needs: the most of all calls that so many
//! chunks of the comparison make, each so many times smaller. It prints a row for each call.

use host::comparing::linked::library;
use host::comparing::stack::most;
use host::programs::arguments::{arguments, stop};

fn main() {
    let words = arguments();
    let number = |index: usize, otherwise| match words.get(index) {
        Some(word) => word.parse().ok().filter(|number: &u64| *number > 0),
        None => Some(otherwise),
    };
    let (Some(chunks), Some(divided), true) = (number(0, 2), number(1, 1), words.len() < 3) else {
        stop("usage: stack [CHUNKS [DIVIDED]]");
    };
    if let Err(why) = library() {
        return println!("skipped: {why}");
    }
    let needed = most(chunks, divided as usize);
    for (call, bytes) in &needed {
        println!("{:<24} {bytes:>5}", format!("in656_{call}"));
    }
    let most = needed.values().max().copied().unwrap_or(0);
    println!("{:<24} {most:>5} bytes of stack", "the most");
}

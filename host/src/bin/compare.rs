//! `compare [CHUNKS [DIVIDED [itself]]]` compares the library with the second version, and judges
//! demand 3 on runs of its two ends. The gate compares 100 chunks; further ones have other seeds.
//! DIVIDED makes every chunk that many times smaller. With `itself` the second version stands in for
//! the library: a fault that both have is then left to the judge of demand 3 to find.

use host::comparing::linked::library;
use host::comparing::runs::judge_runs;
use host::comparing::{compare, figures, sums, Size, Tally, GATE, PARTS};
use host::programs::arguments::{arguments, stop};
use host::second::face::Face;
use host::second::Second;
use std::time::Instant;

/// How much is to be compared, and whether the second version with itself, as the arguments say.
fn asked(words: &[String]) -> Option<(Size, bool)> {
    let number = |index: usize, otherwise| match words.get(index) {
        Some(word) => word.parse::<u64>().ok().filter(|n| *n > 0),
        None => Some(otherwise),
    };
    let size = Size {
        chunks: number(0, GATE.chunks)?,
        divided: number(1, GATE.divided as u64)? as usize,
    };
    match words.get(2..).unwrap_or_default() {
        [] => Some((size, false)),
        [word] if word == "itself" => Some((size, true)),
        _ => None,
    }
}

fn main() {
    let Some((size, itself)) = asked(&arguments()) else {
        stop("usage: compare [CHUNKS [DIVIDED [itself]]]");
    };
    let face: &dyn Face = match library() {
        _ if itself => &Second,
        Ok(library) => library,
        Err(why) => return println!("skipped: {why}"),
    };
    let mut all = Tally::new();
    for (part, ..) in PARTS {
        let from = Instant::now();
        let tally = compare(part, size, face, &Second);
        say(part, from, &figures(&tally));
        for (told, count) in tally {
            *all.entry(told).or_default() += count;
        }
    }
    println!("all calls compared\n{}", sums(&all).trim_end());
    let from = Instant::now();
    say(
        "runs judged by demand 3",
        from,
        &figures(&judge_runs(face, size)),
    );
}

fn say(part: &str, from: Instant, figures: &str) {
    let seconds = from.elapsed().as_secs_f32();
    println!(
        "{part}, no difference, {seconds:.1} s\n{}",
        figures.trim_end()
    );
}

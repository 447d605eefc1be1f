//! Demand 3 on a live line (rules J12 to J16): within its limits the supposition holds in every run, one millisecond past them it fails in
//! some. By the second version and, where it is linked, by the library.

use host::comparing::linked::library;
use host::line::demand::{history, judge, supposed, Item};
use host::line::ends::Ends;
use host::line::faced::BothEnds;
use host::line::live::{run, Clocked, Limits};
use host::making::times::CLOCKS;
use host::second::face::Face;
use host::second::Second;

/// The runs of each limits.
const RUNS: u64 = 4_000;

/// T2: the master waits on a sending for less than this.
const T2: u32 = 2_000;

/// The faces that are there.
fn faces() -> Vec<&'static dyn Face> {
    [Ok(&Second as &dyn Face), library()]
        .into_iter()
        .flatten()
        .collect()
}

/// What the runs within some limits made.
fn histories(face: &dyn Face, gap: u32, quick: Option<u32>) -> Vec<Vec<Item>> {
    let one = |seed| history(&run(&mut BothEnds::new(face), Limits { gap, quick }, seed));
    (0..RUNS).map(one).collect()
}

/// Supposition and promise hold in each run.
fn kept(gap: u32, quick: Option<u32>) {
    for face in faces() {
        let runs = histories(face, gap, quick);
        for (seed, history) in runs.iter().enumerate() {
            assert!(
                supposed(history),
                "run {seed}, ticks every {gap}: {history:?}"
            );
            for (sentence, holds) in judge(history) {
                assert!(holds, "run {seed}, ticks every {gap}: not '{sentence}'");
            }
        }
        let all = |is: fn(&Item) -> bool| runs.iter().flatten().filter(|item| is(item)).count();
        assert!(
            all(|item| matches!(item, Item::Noted)) > 1_000,
            "lost lines"
        );
        assert!(
            all(|item| matches!(item, Item::Answered(_, _, 3))) > 1_000,
            "answered at the third sending"
        );
        assert!(
            all(|item| matches!(item, Item::GivenUp(..))) > 1_000,
            "given up"
        );
    }
}

/// In some runs the supposition fails, and of these there are some in which a telegram is handled twice.
fn broken(gap: u32, quick: Option<u32>) {
    for face in faces() {
        let runs = histories(face, gap, quick);
        let broken: Vec<_> = runs.iter().filter(|history| !supposed(history)).collect();
        assert!(!broken.is_empty(), "ticks every {gap}");
        assert!(
            broken.iter().any(|history| !judge(history)[0].1),
            "ticks every {gap}"
        );
    }
}

/// Ticks at least every 11,001, and each sending lost or arrived while the master waits on it.
#[test]
fn within_the_limits() {
    kept(11_001, Some(T2));
}

/// One millisecond more between two ticks, or until a sending arrives.
#[test]
fn past_the_limits() {
    broken(11_002, Some(T2));
    broken(11_001, Some(T2 + 1));
}

/// Ticks at least every 7,334 where a sending may arrive until the next, and one millisecond more.
#[test]
fn arrivals_until_the_next_sending() {
    kept(7_334, None);
    broken(7_335, None);
}

/// A desk whose clock is set back by one millisecond behind a handling notes a lost line at once.
#[test]
fn a_clock_set_back() {
    for face in faces() {
        for clock in CLOCKS {
            let mut ends = BothEnds::new(face);
            let mut desk = Clocked::new(&mut ends, 0, clock);
            desk.start(2, 0);
            let poll = b"\n08t0Bt3E\r";
            assert!(desk.desk_hear(10, 66, poll).is_ok_and(|heard| !heard.0));
            assert_eq!(desk.desk_tick(10), Ok(false));
            assert_eq!(desk.desk_tick(9), Ok(true), "a clock from {clock}");
        }
    }
}

//! Demand 3 judged on runs of both ends behind a face.

use crate::comparing::{in_chunks, Size, Tally};
use crate::line::demand::{history, judge, supposed, Item};
use crate::line::ends::Ends;
use crate::line::faced::BothEnds;
use crate::line::runs::run;
use crate::making::random::Random;
use crate::second::desk::{Hearing, Refusal};
use crate::second::face::{Call, Face};
use crate::second::master::Told;
use crate::second::records::Record;

/// The runs of a chunk.
const RUNS: usize = 1_000;

/// Both ends with a panel that clears the queue and the record set at times, and looks before each of its calls.
struct Cleared<'a> {
    ends: BothEnds<'a>,
    random: Random,
    cleared: usize,
}

impl<'a> Cleared<'a> {
    fn new(face: &'a dyn Face, seed: u64) -> Cleared<'a> {
        Cleared {
            ends: BothEnds::new(face),
            random: Random::seeded(0x0C00_0000_0000 + seed),
            cleared: 0,
        }
    }

    /// The desk, at times cleared before.
    fn panel(&mut self) -> &mut BothEnds<'a> {
        let call = match self.random.below(8) {
            0 => Call::DeskClearQueue,
            1 => Call::DeskClearSet,
            _ => Call::DeskLook,
        };
        let answer = self.ends.on_desk(call);
        assert_eq!(answer.refusal, 0, "{call:?} differs: it is refused");
        self.cleared += usize::from(!matches!(call, Call::DeskLook));
        &mut self.ends
    }
}

impl Ends for Cleared<'_> {
    fn start(&mut self, line: u8, now: u32) {
        self.ends.start(line, now);
    }

    fn desk_tick(&mut self, now: u32) -> Result<bool, Refusal> {
        self.panel().desk_tick(now)
    }

    fn desk_queue(&mut self, record: &Record) -> Result<(), Refusal> {
        self.panel().desk_queue(record)
    }

    fn desk_set(&mut self, record: &Record) -> Result<(), Refusal> {
        self.panel().desk_set(record)
    }

    fn desk_key(&mut self, key: u8) -> Result<(), Refusal> {
        self.panel().desk_key(key)
    }

    fn desk_hear(&mut self, now: u32, room: usize, frame: &[u8]) -> Result<Hearing, Refusal> {
        self.ends.desk_hear(now, room, frame)
    }

    fn master_offer(&mut self, now: u32, room: usize, record: &Record) -> (Told, Vec<u8>) {
        self.ends.master_offer(now, room, record)
    }

    fn master_tick(&mut self, now: u32, room: usize) -> (Told, Vec<u8>) {
        self.ends.master_tick(now, room)
    }

    fn master_hear(&mut self, now: u32, room: usize, frame: &[u8]) -> (Told, Vec<u8>) {
        self.ends.master_hear(now, room, frame)
    }
}

/// Judges the demand's sentences on a run. Where the supposition fails only the reported counts
/// are judged.
fn judged(history: &[Item], seed: u64) -> bool {
    let supposed = supposed(history);
    let verdicts = judge(history);
    for (index, (sentence, holds)) in verdicts.iter().enumerate() {
        let demanded = supposed || index + 1 == verdicts.len();
        assert!(
            *holds || !demanded,
            "run {seed} differs: not '{sentence}' in {history:?}"
        );
    }
    supposed
}

/// Judges a number of runs of a chunk, and counts what happened in them.
pub fn judge_runs(face: &dyn Face, size: Size) -> Tally {
    in_chunks(size, |chunk| {
        let mut tally = Tally::new();
        let mut add = |what, count: usize| {
            *tally.entry((what, 0, 0, 0, 0)).or_default() += count as u64;
        };
        let runs = RUNS / size.divided;
        for seed in 0..runs as u64 {
            let seed = chunk * RUNS as u64 + seed;
            let mut ends = Cleared::new(face, seed);
            let history = history(&run(&mut ends, seed));
            let supposed = judged(&history, seed);
            let count = |is: fn(&Item) -> bool| history.iter().filter(|item| is(item)).count();
            let given_up = count(|item| matches!(item, Item::GivenUp(..)));
            let breaks = judge(&history).iter().any(|(_, holds)| !holds);
            add("runs", 1);
            add("cleared", ends.cleared);
            add("runs as supposed", supposed.into());
            add(
                "runs as supposed, none given up",
                (supposed && given_up == 0).into(),
            );
            add("other runs that break a sentence", breaks.into());
            add("sent", count(|item| matches!(item, Item::Sent(_))));
            add("sent again", count(|item| matches!(item, Item::Again(_))));
            add("handled", count(|item| matches!(item, Item::Handled(..))));
            add("answered", count(|item| matches!(item, Item::Answered(..))));
            add("given up", given_up);
            add("noted lost", count(|item| matches!(item, Item::Noted)));
        }
        tally
    })
}

//! Compares the library with the second version: makes the same calls on the same bytes, and after
//! each call compares all that it answers and all that it may change.

pub mod cuts;
pub mod dues;
pub mod editions;
pub mod ends;
#[cfg(archive)]
pub mod library;
pub mod linked;
pub mod logs;
pub mod packets;
pub mod runs;
pub mod stack;
pub mod states;
pub mod telegrams;
pub mod words;

use crate::second::face::{Answer, Call, Face};
use std::collections::BTreeMap;
use std::sync::atomic::{AtomicU64, Ordering};
use std::sync::Mutex;

/// Bytes behind each lent part, which no call may touch.
const GUARDS: usize = 16;

/// How much is compared: a number of chunks, each divided by a number. The gate compares 100 whole
/// chunks.
#[derive(Clone, Copy)]
pub struct Size {
    pub chunks: u64,
    pub divided: usize,
}

/// The gate's share.
pub const GATE: Size = Size {
    chunks: 100,
    divided: 1,
};

/// Lent bytes with guards behind them. In a divided chunk there are none, so that a tool that
/// watches the memory notices an access behind the end.
#[derive(Debug, Clone, PartialEq, Eq)]
pub struct Lent {
    bytes: Vec<u8>,
    length: usize,
}

impl Lent {
    fn lend(&mut self) -> &mut [u8] {
        self.bytes.get_mut(..self.length).unwrap_or_default()
    }

    pub fn bytes(&self) -> &[u8] {
        self.bytes.get(..self.length).unwrap_or_default()
    }
}

/// A call's name and what it told: refusal, outcome, detail, and whether the line was noted lost. Of a heard frame that was
/// refused there is another one, with its refusal as the detail.
pub type Told = (&'static str, u32, u32, u32, u32);

/// How often each call told what.
pub type Tally = BTreeMap<Told, u64>;

/// Whether a call only looks at its state.
fn looks(call: &Call) -> bool {
    let name = call.name();
    ["_due", "_look", "_waiting"]
        .iter()
        .any(|end| name.ends_with(end))
}

/// Whether a call's detail is a time, a value, a letter or the key, each of which is not counted by itself.
fn counts(call: &Call) -> bool {
    matches!(
        call,
        Call::LogRead(..)
            | Call::Packet(..)
            | Call::Value(..)
            | Call::DeskDue(_)
            | Call::DeskLook
            | Call::MasterDue(_)
    )
}

/// The two faces, and what they answered so far.
pub struct Pair<'a> {
    library: &'a dyn Face,
    second: &'a dyn Face,
    guards: usize,
    pub tally: Tally,
}

impl Pair<'_> {
    /// Whether the chunk is a whole one.
    pub fn is_whole(&self) -> bool {
        self.guards == GUARDS
    }

    /// Lends bytes.
    pub fn lent(&self, bytes: &[u8]) -> Lent {
        let mut all = Vec::with_capacity(bytes.len() + self.guards);
        all.extend(bytes);
        all.resize(bytes.len() + self.guards, 0xA5);
        Lent {
            bytes: all,
            length: bytes.len(),
        }
    }

    /// Makes a call on both, and compares all that it answers and all that it may change.
    pub fn call(
        &mut self,
        call: Call,
        state: &mut Lent,
        out: &mut Lent,
        record: &mut Lent,
    ) -> Answer {
        let before = (state.clone(), out.clone(), record.clone());
        let (mut s, mut o, mut r) = before.clone();
        let got = self
            .library
            .call(call, state.lend(), out.lend(), record.lend());
        let want = self.second.call(call, s.lend(), o.lend(), r.lend());
        if got != want || *state != s || *out != o || *record != r {
            panic!(
                "{call:?} differs\nbefore: {before:?}\nlibrary: {got:?}\n{state:?}\n{out:?}\n{record:?}\n\
                 second version: {want:?}\n{s:?}\n{o:?}\n{r:?}"
            );
        }
        let same = (*state == before.0, *out == before.1, *record == before.2);
        if got.refusal != 0 && same != (true, true, true) || looks(&call) && !same.0 {
            panic!("{call:?} differs from what it must leave\nbefore: {before:?}\nafter: {state:?}\n{out:?}\n{record:?}");
        }
        let detail = if counts(&call) { 0 } else { got.detail };
        self.told((call.name(), got.refusal, got.outcome, detail, got.lost));
        if got.contents != 0 {
            let name = match call {
                Call::DeskHear(..) => "desk_hear, contents",
                _ => "master_hear, contents",
            };
            self.told((name, 0, got.outcome, got.contents, 0));
        }
        got
    }

    fn told(&mut self, told: Told) {
        *self.tally.entry(told).or_default() += 1;
    }

    /// Asks both whether a program with this version may use them, and which version they are.
    pub fn edition(&mut self, version: u32) {
        let got = self.library.same_edition(version);
        let want = self.second.same_edition(version);
        assert_eq!(got, want, "in656_same_edition {version:#x} differs\n");
        self.told(("same_edition", 0, got, 0, 0));
        let (got, want) = (self.library.version(), self.second.version());
        assert_eq!(got, want, "in656_version differs\n");
        self.told(("version", 0, 0, 0, 0));
    }

    /// A call that is lent nothing but a state.
    pub fn on(&mut self, call: Call, state: &mut Lent) -> Answer {
        let (mut out, mut record) = (self.lent(&[]), self.lent(&[]));
        self.call(call, state, &mut out, &mut record)
    }
}

/// Leaves the other threads no further chunk where one thread finds a difference.
struct Stop<'a>(&'a AtomicU64);

impl Drop for Stop<'_> {
    fn drop(&mut self) {
        if std::thread::panicking() {
            self.0.store(u64::MAX / 2, Ordering::Relaxed);
        }
    }
}

/// Runs the chunks of a part on all processors, each from its own seed, and adds what they count.
pub fn in_chunks(size: Size, work: impl Fn(u64) -> Tally + Sync) -> Tally {
    let next = AtomicU64::new(0);
    let sum = Mutex::new(Tally::new());
    let processors = std::thread::available_parallelism().map_or(1, usize::from);
    std::thread::scope(|scope| {
        for _ in 0..processors {
            scope.spawn(|| loop {
                let _stop = Stop(&next);
                let seed = next.fetch_add(1, Ordering::Relaxed);
                if seed >= size.chunks {
                    return;
                }
                let tally = work(seed);
                let mut sum = sum.lock().unwrap_or_else(|held| held.into_inner());
                for (told, count) in tally {
                    *sum.entry(told).or_default() += count;
                }
            });
        }
    });
    sum.into_inner().unwrap_or_else(|held| held.into_inner())
}

/// A part of the comparison: a number of items of a chunk, from a seed.
pub type Part = fn(&mut Pair, u64, usize);

/// The parts, each with its name and the items of a whole chunk.
pub const PARTS: [(&str, usize, Part); 10] = [
    ("frames read", 20_000, telegrams::read),
    ("records written", 10_000, telegrams::write),
    ("streams cut", 1_000, cuts::cut),
    ("sequences of calls", 2_000, ends::call),
    ("logs replayed", 1_000, logs::replay),
    ("records of a log written", 10_000, logs::write),
    ("packets and values", 10_000, packets::ask),
    ("states looked at", 1_000, states::look),
    ("words", 10_000, words::say),
    ("editions", 10_000, editions::ask),
];

/// Compares a part of the library with the second version.
pub fn compare(part: &str, size: Size, library: &dyn Face, second: &dyn Face) -> Tally {
    let known = PARTS.iter().find(|(name, ..)| *name == part);
    let (_, items, run) = *known.expect("a part of the comparison");
    in_chunks(size, |seed| {
        let guards = if size.divided == 1 { GUARDS } else { 0 };
        let mut pair = Pair {
            library,
            second,
            guards,
            tally: Tally::new(),
        };
        run(&mut pair, seed, items / size.divided);
        pair.tally
    })
}

/// A line for each call of all parts: how often it was made.
pub fn sums(tally: &Tally) -> String {
    let mut sums: BTreeMap<&str, u64> = BTreeMap::new();
    let calls = |((name, ..), _): &(&Told, &u64)| !name.contains(',');
    for ((name, ..), count) in tally.iter().filter(calls) {
        *sums.entry(name).or_default() += count;
    }
    let line = |(name, sum): (&&str, &u64)| format!("  {name} {sum}\n");
    sums.iter().map(line).collect()
}

/// A line for each call: how often it was made, refused with which number, and did what.
pub fn figures(tally: &Tally) -> String {
    let mut lines: BTreeMap<&str, (u64, String)> = BTreeMap::new();
    for ((name, refusal, outcome, detail, lost), count) in tally {
        let lost = if *lost == 0 { "" } else { " lost" };
        let (sum, text) = lines.entry(name).or_default();
        *sum += count;
        text.push_str(&match (refusal, outcome, detail) {
            (0, 0, 0) => format!(" done {count}"),
            (0, outcome, 0) => format!(" outcome {outcome}{lost}: {count}"),
            (0, outcome, detail) => format!(" outcome {outcome}.{detail}{lost}: {count}"),
            (refusal, ..) => format!(" no {refusal}: {count}"),
        });
    }
    let line = |(name, (sum, text)): (&&str, &(u64, String))| match text {
        text if *text == format!(" done {sum}") => format!("  {name} {sum}\n"),
        text => format!("  {name} {sum}:{text}\n"),
    };
    lines.iter().map(line).collect()
}

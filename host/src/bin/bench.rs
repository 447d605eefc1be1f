//! Times the library, through its C face, and the program that lists captures; and on the same inputs, in the same
//! run, the second version and the fast plain version. Prints two tables. Document 01 has no section for it.
//!
//! `bench second` and `bench fast` list standard input by that version, as the program does: bench starts itself so.

use host::comparing::linked::{library, Linked};
use host::fast;
use host::making::captures::piece;
use host::making::random::Random;
use host::making::telegrams::any_form;
use host::programs::arguments::{arguments, stop};
use host::programs::built::started;
use host::second::blocks::{record_block, DESK, GATHERER, RECORD};
use host::second::cutting::{telegrams, Cutter, Heard};
use host::second::desk::{Desk, ROOM};
use host::second::face::{Call, Face};
use host::second::listing::listing;
use host::second::reading::{read, CR, LF};
use host::second::records::{by_master, Record};
use std::fs::File;
use std::hint::black_box;
use std::io::{stdin, stdout, Read, Write};
use std::path::Path;
use std::process::{Command, Stdio};
use std::time::Instant;

/// How often all works of a row are timed, one after the other.
const TURNS: usize = 9;
/// The runs of a work in a turn: of calls, and of a program.
const CALLS: usize = 5;
const PROGRAM: usize = 1;
/// The bytes of a capture.
const BYTES: usize = 1 << 20;
/// How often a capture stands in the file that the program lists.
const COPIES: usize = 64;
/// The telegrams read, written and heard in a turn.
const TELEGRAMS: usize = 20_000;

/// Some work that is timed; none where a version cannot do it.
type Work<'a> = Option<&'a mut dyn FnMut()>;

/// The seconds that some work takes: the least of some runs, since other work on the machine only adds.
fn seconds(runs: usize, work: &mut dyn FnMut()) -> f64 {
    let run = |_| {
        let from = Instant::now();
        work();
        from.elapsed().as_secs_f64()
    };
    (0..runs).map(run).fold(f64::INFINITY, f64::min)
}

/// The lowest, the median and the highest.
fn spread(mut values: Vec<f64>) -> [f64; 3] {
    values.sort_by(f64::total_cmp);
    [
        values[0],
        values[values.len() / 2],
        values[values.len() - 1],
    ]
}

/// Times our work and the others in turns, and prints our time for one thing, and the ratio of our time to that of
/// each other: the median, the lowest and the highest.
fn row<const N: usize>(
    what: &str,
    things: usize,
    runs: usize,
    ours: &mut dyn FnMut(),
    mut others: [Work; N],
) {
    let mut turns = Vec::new();
    for turn in 0..TURNS {
        let (mut our, mut their) = (0.0, [f64::NAN; N]);
        // each goes first in its turn
        for place in 0..=N {
            match (turn + place) % (N + 1) {
                0 => our = seconds(runs, ours),
                other => {
                    if let Some(work) = &mut others[other - 1] {
                        their[other - 1] = seconds(runs, work);
                    }
                }
            }
        }
        turns.push((our, their));
    }
    let [_, each, _] = spread(turns.iter().map(|turn| turn.0).collect());
    let mut line = format!("{what:<36} {:>8.1} ns", each / things as f64 * 1e9);
    for (index, other) in others.iter().enumerate() {
        let ratios = turns.iter().map(|(our, their)| our / their[index]);
        let [lowest, median, highest] = spread(ratios.collect());
        let span = format!("({lowest:.2} to {highest:.2})");
        line += &match other {
            Some(_) => format!("  {median:>6.2} {span:<18}"),
            None => format!("  {:>6} {:<18}", "-", ""),
        };
    }
    println!("{}", line.trim_end());
}

/// The row of what both versions do.
fn compared(
    what: &str,
    things: usize,
    mut by_library: impl FnMut(),
    mut by_second: impl FnMut(),
    mut by_fast: impl FnMut(),
) {
    let others: [Work; 2] = [Some(&mut by_second), Some(&mut by_fast)];
    row(what, things, CALLS, &mut by_library, others);
}

/// The head of a table.
fn head(what: &str, others: &[&str]) {
    let others = others.iter().map(|other| format!("  / {other:<23}"));
    let line = format!("{what:<36} {:>11}{}", "each", others.collect::<String>());
    println!("{}", line.trim_end());
}

/// Reading, writing and the desk's hearing, telegram by telegram.
fn each_telegram(face: &impl Face) {
    let mut random = Random::seeded(1);
    let frames: Vec<Vec<u8>> = (0..TELEGRAMS).map(|_| any_form(&mut random, 1)).collect();
    let reading = |frame: &Vec<u8>| read(1, frame).ok();
    let readings: Vec<_> = frames.iter().filter_map(reading).collect();
    let records: Vec<Record> = readings
        .iter()
        .map(|reading| Record::read(1, reading))
        .collect();
    let blocks: Vec<[u8; RECORD]> = records.iter().map(record_block).collect();
    let fast_records: Vec<_> = frames
        .iter()
        .filter_map(|frame| fast::reading::read(1, frame).ok())
        .collect();
    assert_eq!(fast_records.len(), records.len(), "both read all");
    let (mut out, mut block) = ([0; ROOM], [0; RECORD]);
    let by_library = || {
        for frame in &frames {
            black_box(face.call(Call::Read(1, frame), &mut [], &mut [], &mut block));
        }
    };
    let by_second = || {
        for frame in &frames {
            black_box(read(1, frame).map(|reading| Record::read(1, &reading)).ok());
        }
    };
    let by_fast = || {
        for frame in &frames {
            black_box(fast::reading::read(1, frame).ok());
        }
    };
    compared(
        "reading, a telegram",
        TELEGRAMS,
        by_library,
        by_second,
        by_fast,
    );
    let by_library = || {
        for block in &blocks {
            black_box(face.call(Call::Write(1, block, 1), &mut [], &mut out, &mut []));
        }
    };
    let by_second = || {
        for record in &records {
            black_box(record.telegram(1, 1));
        }
    };
    let mut room = [0; ROOM];
    let by_fast = || {
        for (record, _) in &fast_records {
            black_box(fast::writing::write(1, record, 1, &mut room).ok());
        }
    };
    compared(
        "writing, a telegram",
        TELEGRAMS,
        by_library,
        by_second,
        by_fast,
    );
    hearing(face, &records);
}

/// The desk's hearing of the master's telegrams, with numbers 0 and 1 in turn, every third sent again.
fn hearing(face: &impl Face, records: &[Record]) {
    let mut heard = Vec::new();
    let mut number = 0;
    for record in records
        .iter()
        .filter(|record| by_master(1, record.type_byte))
    {
        heard.extend(record.telegram(1, number));
        if heard.len() % 3 != 0 {
            number = 1 - number;
        }
    }
    let (mut out, mut block, mut state) = ([0; ROOM], [0; RECORD], [0; DESK]);
    let mut by_library = || {
        face.call(Call::DeskStart(1), &mut state, &mut [], &mut []);
        for frame in &heard {
            black_box(face.call(Call::DeskHear(7, frame), &mut state, &mut out, &mut block));
        }
    };
    let mut by_second = || {
        let (mut desk, _) = Desk::start(1);
        for frame in &heard {
            black_box(desk.hear(7, ROOM, frame).ok());
        }
    };
    row(
        "the desk's hearing, a frame",
        heard.len(),
        CALLS,
        &mut by_library,
        [Some(&mut by_second), None],
    );
}

/// The telegrams of a capture by the library's search.
fn searched(face: &impl Face, bytes: &[u8], mut found: impl FnMut(usize, &[u8])) {
    let mut from = 0;
    loop {
        let answer = face.call(Call::Next(bytes, from), &mut [], &mut [], &mut []);
        if answer.outcome == 0 {
            return;
        }
        let start = answer.place as usize;
        from = start + answer.written as usize;
        found(start, bytes.get(start..from).unwrap_or_default());
    }
}

/// Cutting a capture by the search.
fn searching(face: &impl Face, name: &str, bytes: &[u8]) {
    let by_library = || searched(face, bytes, |_, telegram| _ = black_box(telegram));
    let by_second = || _ = black_box(telegrams(bytes));
    let by_fast = || {
        let mut from = 0;
        while let Some((start, telegram)) = fast::cutting::next_telegram(bytes, from) {
            from = start + telegram.len();
            black_box(telegram);
        }
    };
    let what = format!("search, a byte, {name}");
    compared(&what, bytes.len(), by_library, by_second, by_fast);
}

/// Cutting a capture by the step, which takes a byte at a time.
fn stepping(face: &impl Face, name: &str, bytes: &[u8]) {
    let mut state = [0; GATHERER];
    let by_library = || {
        face.call(Call::GathererStart, &mut state, &mut [], &mut []);
        for byte in bytes {
            let answer = face.call(Call::GathererByte(*byte), &mut state, &mut [], &mut []);
            // what a caller looks at
            black_box((answer.refusal, answer.outcome, answer.written));
        }
    };
    let by_second = || {
        let mut cutter = Cutter::default();
        for byte in bytes {
            black_box(cutter.hear(Heard::Byte(*byte)));
        }
    };
    let by_fast = || {
        let mut gatherer = fast::cutting::Gatherer::start();
        for byte in bytes {
            black_box(gatherer.byte(*byte));
        }
    };
    let what = format!("step, a byte, {name}");
    compared(&what, bytes.len(), by_library, by_second, by_fast);
}

/// The program that lists captures, the two versions as programs and `wc -l`, all on one file of a capture many times
/// over. The program and the two versions print the same.
fn programs(name: &str, bytes: &[u8]) -> std::io::Result<()> {
    let path = std::env::temp_dir().join(format!("bench-{}.cap", std::process::id()));
    std::fs::write(&path, [b"1".as_slice(), &bytes.repeat(COPIES)].concat())?;
    let bench = std::env::current_exe()?;
    let program = || started(Path::new("dist/listing"));
    let version = |name: &str| {
        let mut command = Command::new(&bench);
        command.arg(name);
        command
    };
    let printed = |mut command: Command| {
        let output = command.stdin(File::open(&path)?).output()?;
        Ok::<_, std::io::Error>(output.stdout)
    };
    let lines = printed(program())?;
    for other in ["second", "fast"] {
        let same = printed(version(other))? == lines;
        assert!(same, "the {other} version lists {name} in the same way");
    }
    let run = |mut command: Command| {
        let file = File::open(&path).expect("the file is there");
        let ended = command.stdin(file).stdout(Stdio::null()).status();
        assert!(ended.is_ok_and(|status| status.success()), "{command:?}");
    };
    let count = || {
        let mut command = Command::new("wc");
        command.arg("-l");
        command
    };
    row(
        &format!("listing, a byte, {name}"),
        bytes.len() * COPIES,
        PROGRAM,
        &mut || run(program()),
        [
            Some(&mut || run(version("second"))),
            Some(&mut || run(version("fast"))),
            Some(&mut || run(count())),
        ],
    );
    std::fs::remove_file(&path)
}

/// Lists standard input by one of the two versions.
fn list(version: &str) -> std::io::Result<()> {
    if version == "fast" {
        return fast::listing::list(&mut stdin().lock(), &mut stdout().lock());
    }
    let mut input = Vec::new();
    stdin().lock().read_to_end(&mut input)?;
    stdout().lock().write_all(listing(&input).as_bytes())
}

/// A capture of `BYTES` bytes, made of pieces.
fn made(mut piece: impl FnMut() -> Vec<u8>) -> Vec<u8> {
    let mut bytes = Vec::new();
    while bytes.len() < BYTES {
        bytes.extend(piece());
    }
    bytes.truncate(BYTES);
    bytes
}

fn main() {
    let words = arguments();
    match words.iter().map(String::as_str).collect::<Vec<_>>()[..] {
        [] => {}
        [version @ ("second" | "fast")] => {
            return list(version).unwrap_or_else(|trouble| stop(&format!("bench: {trouble}")));
        }
        _ => stop("usage: bench [second|fast]"),
    }
    let mut random = Random::seeded(2);
    let quiet = made(|| piece(&mut random, 1, false));
    let busy = made(|| piece(&mut random, 1, true));
    let full = made(|| vec![if random.one_in(2) { LF } else { random.byte() }]);
    let without = made(|| {
        vec![match random.byte() {
            LF | CR => 0,
            byte => byte,
        }]
    });
    let captures = [
        ("quiet", quiet),
        ("busy", busy),
        ("noise full of LF", full),
        ("noise without LF", without),
    ];
    match library() {
        Err(why) => println!("the library is skipped: {why}"),
        Ok(_) => {
            // by its type, so that each call is the library's function and nothing before it
            let face = &Linked;
            head("the library through its C face", &["second", "fast"]);
            each_telegram(face);
            for (name, bytes) in &captures {
                searching(face, name, bytes);
            }
            for (name, bytes) in &captures {
                stepping(face, name, bytes);
            }
        }
    }
    head("the program", &["second", "fast", "wc -l"]);
    for (name, bytes) in &captures {
        if let Err(trouble) = programs(name, bytes) {
            stop(&format!("bench: {trouble}"));
        }
    }
    println!("each ratio: our time over the other's, the median of {TURNS} turns, the lowest and the highest; under 1 we are quicker");
}

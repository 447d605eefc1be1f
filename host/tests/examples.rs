//! The C examples, built against the header and the library by the machine's own compilers.
//! Where the machine lacks something a test says so in one line and passes.

mod compiling;
mod machine;

use compiling::{build, compile, run, said, talker, C99, CPP17, DATA};
use machine::{has, repository, text};
use std::fs;
use std::path::Path;

#[test]
fn every_example_compiles_without_a_warning() {
    let none = [Path::new("-fsyntax-only")];
    if has("gcc") {
        let sources = fs::read_dir(repository("examples")).expect("examples");
        let mut names: Vec<_> = sources
            .map(|entry| {
                entry
                    .expect("an entry")
                    .file_name()
                    .into_string()
                    .expect("a name")
            })
            .filter(|name| name.ends_with(".c"))
            .collect();
        names.sort();
        for name in &names {
            compile(&C99, &[name], &none);
            assert!(
                text(&format!("examples/{name}")).lines().count() < 250,
                "{name} is short"
            );
        }
    }
    if has("g++") {
        compile(&CPP17[..], &["read.c"], &none);
    }
}

/// Cases a and i (rule W10), an empty input, and one of 67 bytes.
#[test]
fn read_reads_one_telegram_as_c_and_as_cpp() {
    for compiler in [&C99[..], &CPP17[..]] {
        let Some(read) = build(compiler, &format!("read-{}", compiler[0]), "read.c", false) else {
            continue;
        };
        let long = [&b"\n"[..], &[b'A'; 66]].concat();
        let cases: [(&[u8], &str); 4] = [
            (b"\n08A0AAA5\r", "ok A 0\n"),
            (b"\n08A0AAA6\r", "no 6 7\n"),
            (b"", "no 1 0\n"),
            (&long, "no 2 0\n"),
        ];
        for (input, expected) in cases {
            let output = run(&read, &[], input);
            assert_eq!(said(&output), expected);
            assert_eq!(output.status.success(), expected.starts_with("ok"));
        }
    }
}

#[test]
fn exchange_fetches_the_train_data() {
    let Some(exchange) = build(&C99, "exchange", "exchange.c", false) else {
        return;
    };
    let output = run(&exchange, &[], b"");
    let last = "length 125, braking 90, speed 120, direction 88; sending count 1\n";
    assert!(said(&output).ends_with(last), "{}", said(&output));
    assert!(output.status.success());
}

/// The answer is lost on the way: the telegram is sent again, the desk repeats its answer, and the record arrives once.
#[test]
fn a_lost_answer_and_the_record_arrives_once() {
    let Some(simulated) = build(&C99, "simulated-once", "simulated.c", true) else {
        return;
    };
    let output = run(&simulated, &[".x", DATA], b"");
    let said = said(&output);
    assert!(output.status.success(), "{said}");
    for (words, times) in [
        ("again, sending 2", 1),
        ("answered with the oldest record of the queue", 1),
        ("a repeat", 1),
        ("answered, sendings 2: B L125%090H120R88", 1),
        ("since no record waits", 1),
    ] {
        assert_eq!(said.matches(words).count(), times, "{words} in\n{said}");
    }
    assert!(
        said.ends_with("simulated: 1 queued, 1 arrived once, 0 more than once\n"),
        "{said}"
    );
}

/// Every way in which the first six sendings arrive, are lost or have a parity error: both records arrive, each once,
/// unless the master gave up. The first answer after that may be an old one (docs/DEMAND3.md).
#[test]
fn whatever_is_lost_each_record_arrives_once() {
    let Some(simulated) = build(&C99, "simulated-lost", "simulated.c", true) else {
        return;
    };
    let (mut whole, mut given_up) = (0, 0);
    for number in 0..3usize.pow(6) {
        let fates: String = (0..6)
            .map(|place| ['.', 'x', '!'][number / 3usize.pow(place) % 3])
            .collect();
        let said = said(&run(&simulated, &[&fates, DATA, "B 0 1 999 0"], b""));
        if said.contains("given up") {
            given_up += 1;
            continue;
        }
        whole += 1;
        let last = "simulated: 2 queued, 2 arrived once, 0 more than once\n";
        assert!(said.ends_with(last), "{fates}: {said}");
    }
    assert!(whole > 100 && given_up > 100, "{whole} {given_up}");
}

/// The panel and the bench as they are, over pseudo-terminals at the line's speed, with the first answer lost: some seconds.
#[test]
fn the_panel_and_the_bench_talk() {
    let programs = ["try", "panel", "bench"].map(|name| talker(name, &format!("{name}.c")));
    let [Some(tried), Some(panel), Some(bench)] = programs else {
        return;
    };
    let words = [
        panel.to_str().expect("a path"),
        bench.to_str().expect("a path"),
    ];
    let output = run(&tried, &words, b"");
    let said = said(&output);
    let last = "try: well: the first answer was lost, and the train data arrived once\n";
    assert!(said.ends_with(last), "{said}");
    assert!(output.status.success());
    assert_eq!(said.matches("shows  fault code 288").count(), 1, "{said}");
    let times = said
        .lines()
        .map(|line| line.split(' ').next().unwrap_or(""));
    let times: Vec<&str> = times.filter(|time| time.contains(':')).collect();
    let midnight = times.windows(2).filter(|pair| pair[0] > pair[1]).count();
    assert!(
        times.len() > 15 && midnight <= usize::from(times[0].starts_with("23:59")),
        "in the order of time: {said}"
    );
}

/// A row that is no record, or that the desk cannot send, is refused with words; nothing is taken as 0.
#[test]
fn a_row_is_whole_or_refused() {
    let Some(simulated) = build(&C99, "simulated-rows", "simulated.c", true) else {
        return;
    };
    for (row, words) in [
        (
            "B 1 2",
            "no record: B has 4 values, L % H R, and this row has 2",
        ),
        (
            "B 1 2 3 0 5",
            "no record: B has 4 values, L % H R, and this row has 5",
        ),
        ("r", "no record: r has 1 value, B, and this row has 0"),
        (
            "B 99999999999 1 1 0",
            "no record: 99999999999 is too long for a value",
        ),
        (
            "",
            "no record: a row is a type of one character, and its values",
        ),
        (
            "BB 1 2 3 0",
            "no record: a row is a type of one character, and its values",
        ),
        (
            "? 1",
            "refused 12, this end does not send this record on this line",
        ),
        (
            "G 288",
            "refused 12, this end does not send this record on this line",
        ),
        (
            "B 1 2 3 4",
            "refused 13, a value, a number or the key position is out of its range",
        ),
    ] {
        let output = run(&simulated, &[".", row], b"");
        let line = String::from_utf8_lossy(&output.stderr).into_owned();
        assert_eq!(line, format!("{row}: {words}\n"));
        assert_eq!(output.status.code(), Some(2), "{row}");
    }
}

/// Each example says on standard error how it is called, and ends with status 2.
#[test]
fn each_example_says_how_it_is_called() {
    for (name, shares, words, usage) in [
        ("read", false, "x", " < TELEGRAM"),
        ("exchange", false, "x", ""),
        ("panel", true, "", " DEVICE [\"B 125 90 120 88\"]..."),
        ("bench", true, "", " DEVICE [\"t t\"]..."),
        ("simulated", true, "", " FATES \"B 125 90 120 88\"..."),
        ("try", true, "x", " PANEL BENCH"),
    ] {
        let source = format!("{name}.c");
        let Some(program) = build(&C99, &format!("{name}-usage"), &source, shares) else {
            continue;
        };
        let output = run(
            &program,
            words.split_whitespace().collect::<Vec<_>>().as_slice(),
            b"",
        );
        let line = String::from_utf8_lossy(&output.stderr).into_owned();
        assert!(line.starts_with("usage: "), "{line}");
        assert!(line.ends_with(&format!("{usage}\n")), "{line}");
        assert_eq!(output.status.code(), Some(2), "{name}");
        assert_eq!(said(&output), "");
    }
}

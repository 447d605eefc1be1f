//! Shows an exchange: `demo LINE SEED SECONDS [PROGRAM [LOG [PANEL]]]` runs both ends over a
//! simulated line and prints the time line. The ends are those of the library where it is linked,
//! else those of PROGRAM, which is `scenes`. LOG names a file for the log of what is shown. Where
//! PANEL is `idle` the panel does nothing, and the line hits too; either may be empty.

use host::comparing::linked::library;
use host::line::demo::run;
use host::line::faced::BothEnds;
use host::line::log::written;
use host::line::odds::{asked, IDLE, SHOWN};
use host::line::timeline::timeline;
use host::programs::arguments::{arguments, stop};
use host::programs::scenes::Scenes;
use host::second::Second;

fn main() {
    let words = arguments();
    let [line, seed, seconds, rest @ ..] = &words[..] else {
        usage()
    };
    if rest.len() > 3 {
        usage();
    }
    let word = |index: usize| rest.get(index).map_or("", String::as_str);
    let (path, file, panel) = (word(0), word(1), word(2));
    let wanted = asked(line, seed, seconds);
    let (line, seed, seconds) = wanted.unwrap_or_else(|trouble| refuse(&trouble));
    let odds = match panel {
        "" => SHOWN,
        "idle" => IDLE,
        other => refuse(&format!("PANEL is idle or nothing, not '{other}'")),
    };
    let duration = seconds * 1_000;
    let happened = match (library(), path) {
        (Ok(face), _) => run(&mut BothEnds::new(face), &odds, line, seed, duration),
        (Err(why), "") => refuse(&format!("{why}: name the program scenes")),
        (Err(_), path) => {
            let started = Scenes::start(path);
            let mut ends = started.unwrap_or_else(|why| refuse(&format!("{path}: {why}")));
            run(&mut ends, &odds, line, seed, duration)
        }
    };
    if !file.is_empty() {
        let bytes = written(library().unwrap_or(&Second), line, &happened);
        let done = std::fs::write(file, bytes);
        done.unwrap_or_else(|why| refuse(&format!("{file}: {why}")));
    }
    print!("{}", timeline(line, &happened));
}

fn usage() -> ! {
    stop("usage: demo LINE SEED SECONDS [PROGRAM [LOG [PANEL]]]")
}

/// Says what is wrong, and ends.
fn refuse(trouble: &str) -> ! {
    stop(&format!("demo: {trouble}"))
}

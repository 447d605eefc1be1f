//! The arguments of the programs in `bin/`, and what a program says of wrong ones.

/// The arguments behind the program's name.
pub fn arguments() -> Vec<String> {
    let words = std::env::args_os().skip(1);
    words.map(|w| w.to_string_lossy().into_owned()).collect()
}

/// Says a line on standard error and ends the program with status 2.
pub fn stop(line: &str) -> ! {
    eprintln!("{line}");
    std::process::exit(2);
}

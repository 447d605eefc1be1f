//! What a bad line costs: `losses PROGRAM FILE.svg` runs both ends, as the program `scenes` has
//! them, over lines that lose and spoil more and more. It prints which share of the telegrams
//! ended in which way, and draws it.

use host::line::demand::{history, Item};
use host::line::demo::run;
use host::line::odds::Odds;
use host::programs::arguments::{arguments, stop};
use host::programs::scenes::Scenes;
use std::fmt::Write;

/// How a telegram ended: answered after one, two or three sendings, or given up.
const ENDS: [(&str, &str); 4] = [
    ("answered at the first sending", "#2a7f62"),
    ("at the second", "#7fb069"),
    ("at the third", "#e6aa68"),
    ("given up", "#ca3c25"),
];

/// The shares of the four ends on a line that hits this many things of a hundred: half of them it
/// loses, half it spoils.
fn shares(program: &mut Scenes, percent: usize) -> [f64; 4] {
    let odds = Odds {
        lost: percent,
        spoiled: percent,
        hit: 0,
        of: 200,
        dead: 0..0,
        panel: 400,
    };
    let mut ended = [0usize; 4];
    for line in 1..=3 {
        for seed in 0..4 {
            for item in history(&run(program, &odds, line, seed, 600_000)) {
                match item {
                    Item::Answered(_, _, count) => ended[count.clamp(1, 3) - 1] += 1,
                    Item::GivenUp(..) => ended[3] += 1,
                    _ => {}
                }
            }
        }
    }
    let sum: usize = ended.iter().sum();
    ended.map(|count| count as f64 / sum.max(1) as f64)
}

/// The picture: a bar for each row, stacked from the bottom.
fn picture(rows: &[(usize, [f64; 4])]) -> String {
    let mut svg = String::from(
        "<svg xmlns=\"http://www.w3.org/2000/svg\" viewBox=\"0 0 640 400\" font-family=\"sans-serif\" font-size=\"13\">\n\
         <rect width=\"640\" height=\"400\" fill=\"white\"/>\n",
    );
    for (index, (percent, shares)) in rows.iter().enumerate() {
        let left = 60 + index * 42;
        let mut top = 320.0;
        for (share, (_, colour)) in shares.iter().zip(ENDS) {
            let height = share * 280.0;
            top -= height;
            let _ = writeln!(svg, "<rect x=\"{left}\" y=\"{top:.1}\" width=\"34\" height=\"{height:.1}\" fill=\"{colour}\"/>");
        }
        let _ = writeln!(
            svg,
            "<text x=\"{}\" y=\"338\" text-anchor=\"middle\">{percent}</text>",
            left + 17
        );
    }
    for share in [0, 25, 50, 75, 100] {
        let y = 320.0 - f64::from(share) * 2.8;
        let _ = writeln!(
            svg,
            "<text x=\"52\" y=\"{:.1}\" text-anchor=\"end\">{share} %</text>",
            y + 4.0
        );
    }
    for (index, (name, colour)) in ENDS.iter().enumerate() {
        let left = 60 + [0, 210, 320, 420][index];
        let _ = writeln!(svg, "<rect x=\"{left}\" y=\"372\" width=\"12\" height=\"12\" fill=\"{colour}\"/><text x=\"{}\" y=\"383\">{name}</text>", left + 18);
    }
    svg.push_str("<text x=\"340\" y=\"358\" text-anchor=\"middle\">of a hundred things on the line, lost or spoiled</text>\n");
    svg.push_str("<text x=\"60\" y=\"24\">how telegrams end</text>\n</svg>\n");
    svg
}

fn main() {
    let [path, file] = &arguments()[..] else {
        stop("usage: losses PROGRAM FILE.svg");
    };
    let mut program =
        Scenes::start(path).unwrap_or_else(|why| stop(&format!("losses: {path}: {why}")));
    let percents = (0..=60).step_by(5);
    let rows: Vec<(usize, [f64; 4])> = percents
        .map(|percent| (percent, shares(&mut program, percent)))
        .collect();
    for (percent, shares) in &rows {
        let shown: Vec<String> = shares
            .iter()
            .map(|share| format!("{:5.1} %", share * 100.0))
            .collect();
        println!("{percent:>3}  {}", shown.join("  "));
    }
    std::fs::write(file, picture(&rows)).expect("the picture is written");
}

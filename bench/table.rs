//! The lines of several runs as one table: medians over the runs, and the least and the greatest ratio.

use crate::measure::{Times, median};
use std::fs;

/// What stands between the parts of a line of one run.
const BETWEEN: char = '\t';

/// A line of one run.
pub fn row(name: &str, times: Times) -> String {
    let Times {
        original,
        bounded,
        port,
    } = times;
    format!("{name}{BETWEEN}{original}{BETWEEN}{bounded}{BETWEEN}{port}")
}

/// A task's name and the times of one run.
fn read(line: &str) -> (&str, Times) {
    let parts: Vec<&str> = line.split(BETWEEN).collect();
    let time = |place: usize| {
        parts[place]
            .parse()
            .expect("a line of a run has three times")
    };
    let times = Times {
        original: time(1),
        bounded: time(2),
        port: time(3),
    };
    (parts[0], times)
}

pub fn print(files: &[String]) {
    let open = |file: &String| fs::read_to_string(file).expect("a run's lines are in its file");
    let runs: Vec<String> = files.iter().map(open).collect();
    let runs: Vec<Vec<(&str, Times)>> = runs
        .iter()
        .map(|run| run.lines().map(read).collect())
        .collect();
    println!(
        "| task | the Rust, ns | the Rust behind C, ns | Pennyquill, ns | / the Rust | / the Rust behind C |"
    );
    println!("|---|---:|---:|---:|---:|---:|");
    for (place, (name, _)) in runs[0].iter().enumerate() {
        let over = |of: fn(&Times) -> f64| -> Vec<f64> {
            runs.iter().map(|run| of(&run[place].1)).collect()
        };
        println!(
            "| {name} | {:.1} | {:.1} | {:.1} | {} | {} |",
            median(over(|times| times.original)),
            median(over(|times| times.bounded)),
            median(over(|times| times.port)),
            spread(over(|times| times.port / times.original)),
            spread(over(|times| times.port / times.bounded)),
        );
    }
}

/// The median, and in parentheses the least and the greatest where they are not the same to two places.
fn spread(ratios: Vec<f64>) -> String {
    let least = ratios.iter().copied().fold(f64::INFINITY, f64::min);
    let greatest = ratios.iter().copied().fold(0.0, f64::max);
    let (least, greatest) = (format!("{least:.2}"), format!("{greatest:.2}"));
    let middle = format!("{:.2}", median(ratios));
    if least == greatest {
        middle
    } else {
        format!("{middle} ({least}–{greatest})")
    }
}

//! The lines of `datelist`, which the original lacks: the program's output against the second reading.

use crate::drawn::{self, Draft, KINDS};
use crate::long_texts;
use crate::random::Random;
use crate::report::{Covers, Extent, Report};
use crate::tally::Tally;
use second_reading::listing;
use std::io::Write;
use std::process::{Command, Stdio};

/// The words of the command that runs the program; without it no line is compared.
pub const COMMAND: &str = "DATELIST";
pub const LONGEST_INPUT: usize = 65_535;

pub fn run(extent: Extent, report: &mut Report) {
    let Ok(command) = std::env::var(COMMAND) else {
        eprintln!("lines: {COMMAND} names no program, so none is compared");
        return;
    };
    let mut tally = Tally::default();
    for number in 0..extent.pick(3, 100) {
        let input = input(&mut Random::new(number));
        compare(&mut tally, &command, &input);
    }
    let mut input = input(&mut Random::new(0));
    input.resize(LONGEST_INPUT, b'\n');
    compare(&mut tally, &command, &input);
    input.push(b'\n');
    compare(&mut tally, &command, &input);
    compare(&mut tally, &command, b"");
    report.row(
        "lines of `datelist`, by the second reading",
        Covers::Sample,
        tally,
    );
}

/// Line by line, and that there are as many.
fn compare(tally: &mut Tally, command: &str, input: &[u8]) {
    let (right, told) = (listing::output(input), output(command, input));
    let lines = |bytes: &[u8]| -> Vec<String> {
        bytes
            .split_inclusive(|&byte| byte == b'\n')
            .map(|line| line.escape_ascii().to_string())
            .collect()
    };
    let (right, told) = (lines(&right), lines(&told));
    tally.hold(right.len(), told.len(), || {
        "the number of lines".to_string()
    });
    for (place, (right, told)) in right.iter().zip(&told).enumerate() {
        tally.hold(right, told, || format!("line {place}"));
    }
}

pub fn output(command: &str, input: &[u8]) -> Vec<u8> {
    let mut words = command.split_whitespace();
    let mut program = Command::new(words.next().expect("a command has a word"));
    program
        .args(words)
        .stdin(Stdio::piped())
        .stdout(Stdio::piped());
    let mut child = program.spawn().expect("the program can be run");
    let mut stdin = child.stdin.take().expect("the input is a pipe");
    let input = input.to_vec();
    let writer = std::thread::spawn(move || stdin.write_all(&input));
    let output = child.wait_with_output().expect("the program ends");
    // A program that has seen too much input may close the pipe.
    let _ = writer.join().expect("the writer ends");
    output.stdout
}

fn input(random: &mut Random) -> Vec<u8> {
    let mut input = Vec::new();
    while input.len() < LONGEST_INPUT - 100 {
        input.extend(line(random));
    }
    input
}

/// A line of any kind and way with its byte 10, now and then of another shape.
pub fn line(random: &mut Random) -> Vec<u8> {
    let kind = random.pick(&KINDS);
    let way = random.pick(b"tttbbg");
    let mut line = vec![kind as u8, b' ', way, b' '];
    let rest = match way {
        b't' => text(random, kind),
        _ => number(random),
    };
    line.extend(rest.text());
    if random.chance(10) {
        let place = random.index(line.len());
        line[place] = random.byte();
    }
    line.push(b'\n');
    line
}

/// One in four has 17 to 70 bytes.
fn text(random: &mut Random, kind: char) -> Draft {
    if random.index(4) > 0 {
        return drawn::text(random, kind);
    }
    let length = 17 + random.index(54);
    long_texts::text(random, kind, length)
}

/// One in four has zeros before it, where 9, 10, 11 or 12 digits need them.
fn number(random: &mut Random) -> Draft {
    let number = match random.index(6) {
        0 => random.between(i32::MIN.into(), i32::MAX.into()),
        1 => random.between(-20_000_000_000, 20_000_000_000),
        2 => random.between(-28_000, 0) * 8760,
        _ => random.between(0, 330_847_679),
    };
    let width = match random.index(4) {
        0 => 9 + random.index(4),
        _ => 1,
    };
    let mut draft = Draft::new();
    if number < 0 {
        draft.push(b'-');
    }
    draft.number(number.unsigned_abs(), width);
    draft
}

//! listing/NAME.in: inputs for `datelist`.

use crate::kinds::{Date, DateHour, Eu5Date, RawDate, UniformDate, Vic3Date};
use crate::listing_lines::{self, KINDS, NUMBER_WAYS};
use crate::numbers;
use crate::random::Random;
use crate::text_edges;
use crate::texts::some_text;
use std::fs;
use std::path::Path;

/// The longest input that is read.
const LONGEST: usize = 65_535;

/// The longest of the lines of `full` that are any bytes at all.
const LONGEST_JUMBLE: i64 = 300;

/// A date, so that an input cut short is seen in the output. It lacks its byte 10.
const LAST_LINE: &[u8] = b"D t 1444.11.11";

/// What the drawn lines are taken from.
struct Edges {
    lines: Vec<Vec<u8>>,
    texts: Vec<Vec<u8>>,
}

/// Writes the inputs and gives each one's name and number of bytes.
pub fn write(folder: &Path, stream: u64) -> Vec<(&'static str, usize)> {
    let lines = listing_lines::all();
    let texts = text_edges::all().into_iter().collect();
    let edges = Edges { lines, texts };
    let full = full(&edges, &mut Random::new(stream));
    let long = [full.as_slice(), b"\n"].concat();
    let inputs = [
        ("empty.in", Vec::new()),
        ("newline.in", b"\n".to_vec()),
        ("lines.in", edges.lines.join(&b'\n')),
        ("full.in", full),
        ("long.in", long),
    ];
    fs::create_dir_all(folder).expect("the folder can be made");
    let mut sizes = Vec::new();
    for (name, input) in inputs {
        fs::write(folder.join(name), &input).expect("the file can be written");
        sizes.push((name, input.len()));
    }
    sizes
}

/// Drawn lines, then one that fills what is left, then the last line: as long as an input may be.
fn full(edges: &Edges, random: &mut Random) -> Vec<u8> {
    let end = LONGEST - LAST_LINE.len();
    let mut input = Vec::new();
    loop {
        let line = some_line(edges, random);
        if input.len() + line.len() + 2 > end {
            break;
        }
        input.extend(line);
        input.push(b'\n');
    }
    input.resize(end - 1, b'.');
    input.push(b'\n');
    input.extend(LAST_LINE);
    input
}

fn some_line(edges: &Edges, random: &mut Random) -> Vec<u8> {
    match random.index(20) {
        0 => Vec::new(),
        1 => one_of(&edges.lines, random),
        2 => damaged(one_of(&edges.lines, random), random),
        3 if random.chance(10) => jumble(random),
        4..=7 => edge_text(edges, random),
        8..=13 => sample_text(random),
        _ => {
            let number = numbers::some_number(random);
            format!("{} {number}", random.pick(&NUMBER_WAYS)).into_bytes()
        }
    }
}

fn one_of(items: &[Vec<u8>], random: &mut Random) -> Vec<u8> {
    items[random.index(items.len())].clone()
}

/// Any edge text of any kind. Byte 10 stays, which makes two lines of it.
fn edge_text(edges: &Edges, random: &mut Random) -> Vec<u8> {
    let text = one_of(&edges.texts, random);
    [format!("{} t ", random.pick(&KINDS)).as_bytes(), &text].concat()
}

fn sample_text(random: &mut Random) -> Vec<u8> {
    let kind = random.pick(&KINDS);
    let text = match kind {
        'R' => some_text::<RawDate>(random),
        'D' => some_text::<Date>(random),
        'H' => some_text::<DateHour>(random),
        'U' => some_text::<UniformDate>(random),
        'E' => some_text::<Eu5Date>(random),
        _ => some_text::<Vic3Date>(random),
    };
    [format!("{kind} t ").as_bytes(), &text].concat()
}

fn damaged(mut line: Vec<u8>, random: &mut Random) -> Vec<u8> {
    let place = random.index(line.len() + 1);
    line.insert(place, random.byte());
    line
}

fn jumble(random: &mut Random) -> Vec<u8> {
    let length = random.between(0, LONGEST_JUMBLE);
    (0..length).map(|_| random.byte()).collect()
}

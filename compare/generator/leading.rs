//! leading.txt and leading-long.txt: `leading "TEXT" VALUE REST_LENGTH` or `leading "TEXT" refused`, from
//! the original's `to_i64_t`.

use crate::answers::{Answers, Row, quoted};
use crate::padded::filled;
use crate::random::Random;
use crate::text_edges::{self, SHORT};
use jomini::leaves;

const SAMPLES: usize = 500;
const LONG_SAMPLES: usize = 200;

/// Both sides of 64 bits, with and without a sign, and values that come back after wrapping: two of them
/// with as many digits as a text may have before `.1.1`, or nearly.
const MAGNITUDES: [&str; 22] = [
    "99999999999999999",
    "999999999999999999",
    "1000000000000000000",
    "9223372036854775806",
    "9223372036854775807",
    "9223372036854775808",
    "9223372036854775809",
    "9999999999999999999",
    "10000000000000000000",
    "18446744073709551615",
    "18446744073709551616",
    "18446744073709553060",
    "99999999999999999999",
    "100000000000000000000",
    "184467440737095516161444",
    "00000000000000001444",
    "000000000000000000001444",
    "00000000000000000000000000000001444",
    "00000000009223372036854775808",
    "00000000018446744073709551616",
    "6277101735386680763835789423207666416102355444464034514340",
    "100000000000000000000000000000000000000000000000000000001444",
];

/// Zeros before these up to so many bytes, past the limit of texts too: the leading number has none.
const FILLED: [(&str, usize); 10] = [
    ("0", 64),
    ("1444", 60),
    ("1444", 64),
    ("1444", 75),
    ("43808760", 64),
    ("9223372036854775807", 60),
    ("9223372036854775808", 60),
    ("18446744073709553060", 60),
    ("18446744073709553060", 75),
    ("184467440737095517604", 60),
];

pub fn ask(answers: &mut Answers) {
    for text in text_edges::all() {
        answers.edge(row(&text));
    }
    for _ in 0..SAMPLES {
        let text = number_and_rest(&mut answers.random, 0, SHORT);
        answers.sample(row(&text));
    }
}

/// Each magnitude behind every sign and before some rests.
pub fn ask_long(answers: &mut Answers) {
    for magnitude in magnitudes() {
        for sign in ["", "-", "+"] {
            for rest in ["", ".", ".1.1", "x", "-1"] {
                let text = format!("{sign}{magnitude}{rest}");
                answers.edge(row(text.as_bytes()));
            }
        }
    }
    for _ in 0..LONG_SAMPLES {
        let text = number_and_rest(&mut answers.random, SHORT + 1, 40);
        answers.sample(row(&text));
    }
}

fn magnitudes() -> impl Iterator<Item = String> {
    let as_they_are = MAGNITUDES.into_iter().map(String::from);
    as_they_are.chain(FILLED.map(|(magnitude, length)| filled(magnitude, length)))
}

fn row(text: &[u8]) -> Row {
    let question = format!("leading {}", quoted(text));
    match leaves::leading_number(text) {
        Some((value, rest)) => Row::new(question, format!("{value} {rest}")),
        None => Row::new(question, "refused"),
    }
}

/// A text of so many bytes: perhaps a sign, then digits, then anything.
fn number_and_rest(random: &mut Random, shortest: usize, longest: usize) -> Vec<u8> {
    let length = shortest + random.index(longest - shortest + 1);
    let digits = random.index(length + 1);
    let is_zeros = random.chance(30);
    let mut text = Vec::new();
    for place in 0..length {
        text.push(match place {
            0 if random.chance(40) => random.pick(b"-+"),
            _ if place >= digits => random.pick(b".-+x0159 \xff"),
            _ if is_zeros && place + 4 < digits => b'0',
            _ => random.pick(b"0123456789"),
        });
    }
    text
}

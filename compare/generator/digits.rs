//! digits.txt: `digits WORD VALUE` or `digits WORD none`, from the original's `fast_digit_parse`. The word has 16
//! hexadecimal digits; the first digit character of the text is its lowest byte.

use crate::answers::{Answers, Row};
use crate::random::Random;
use jomini::leaves;

const SAMPLES: usize = 200;

/// Words of digits alone.
const PLAIN: [&[u8; 8]; 5] = [
    b"00000000",
    b"99999999",
    b"12345678",
    b"14441111",
    b"09999990",
];

pub fn ask(answers: &mut Answers) {
    for digits in PLAIN {
        answers.edge(row(u64::from_le_bytes(*digits)));
    }
    for byte in 0..=255 {
        answers.edge(row(with_byte(b"14441111", 3, byte)));
    }
    for place in 0..8 {
        for byte in [0x00, 0x2f, 0x30, 0x39, 0x3a, 0x3f, 0xf9, 0xfa, 0xff] {
            answers.edge(row(with_byte(b"00000000", place, byte)));
            answers.edge(row(with_byte(b"99999999", place, byte)));
        }
    }
    for word in carrying_words() {
        answers.edge(row(word));
    }
    for _ in 0..SAMPLES {
        let word = some_word(&mut answers.random);
        answers.sample(row(word));
    }
}

fn row(word: u64) -> Row {
    let question = format!("digits {word:016x}");
    match leaves::eight_digits(word) {
        Some(value) => Row::new(question, value),
        None => Row::new(question, "none"),
    }
}

fn with_byte(digits: &[u8; 8], place: usize, byte: u8) -> u64 {
    let mut bytes = *digits;
    bytes[place] = byte;
    u64::from_le_bytes(bytes)
}

/// Adding 6 to each byte carries out of one byte into the next, which stands at a bound.
fn carrying_words() -> Vec<u64> {
    let mut words = Vec::new();
    for place in 0..7 {
        for byte in [0xfa, 0xff] {
            for next in [0x29, 0x2f, 0x30, 0x39] {
                let mut bytes = *b"14441111";
                bytes[place] = byte;
                bytes[place + 1] = next;
                words.push(u64::from_le_bytes(bytes));
            }
        }
    }
    words.extend((0xfa..=0xff).map(|byte| u64::from_le_bytes([byte; 8])));
    words
}

/// Mostly digits.
fn some_word(random: &mut Random) -> u64 {
    let mut bytes = [0; 8].map(|_: u8| random.pick(b"0123456789"));
    match random.index(10) {
        0 => random.word(),
        1..=2 => {
            bytes[random.index(8)] = random.byte();
            u64::from_le_bytes(bytes)
        }
        _ => u64::from_le_bytes(bytes),
    }
}

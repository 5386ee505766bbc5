//! Random texts of 17 bytes and more, made fast: half of them are dates with zeros before the year, or
//! nearly so; the others have leading numbers near or past 15 to 64 bits, or are jumble.

use crate::drawn::{self, Draft, LETTERS};
use crate::random::Random;

const DIGITS: &[u8] = b"0123456789";

/// So many bits a number might be cut to, and the digits that hold as many.
const CUTS: [(u32, usize); 4] = [(16, 5), (32, 10), (63, 19), (64, 20)];

/// One text of so many bytes, 17 at least, or of 18 in the place of 17. The letter is that of the kind
/// whose dates are spelled. One in sixteen has a byte replaced.
pub fn text(random: &mut Random, kind: char, length: usize) -> Draft {
    let mut draft = match random.index(20) {
        0..=9 => padded(random, kind, length),
        10..=13 => telling(random, kind, length),
        14..=16 => filled(random, kind, length),
        17 => drawn::jumble(random, LETTERS, length),
        18 => drawn::jumble(random, DIGITS, length),
        _ => followed(random, kind, length),
    };
    if random.index(16) == 0 {
        let (place, byte) = (random.index(length), random.byte());
        let letter = random.pick(LETTERS);
        draft.replace(place, if random.chance(50) { byte } else { letter });
    }
    draft
}

/// A date of the kind with zeros before its year; also a number or a damaged text.
fn padded(random: &mut Random, kind: char, length: usize) -> Draft {
    let short = match random.index(10) {
        0 => drawn::number(random),
        1 => drawn::damaged(random, kind),
        _ => drawn::spelled(random, kind),
    };
    let zeros = length.saturating_sub(short.text().len());
    drawn::with_zeros(short.text(), zeros)
}

/// A sign or none; and what follows a year, or nothing.
fn around(random: &mut Random, kind: char) -> (&'static [u8], Draft) {
    let sign = match random.index(6) {
        0..=2 => b"".as_slice(),
        3..=4 => b"-",
        _ => b"+",
    };
    let mut rest = Draft::new();
    if random.index(4) > 0 {
        let widths = random.word();
        drawn::after_year(&mut rest, random, kind, widths);
    }
    (sign, rest)
}

/// A leading number near a power of two, or past one by a good number, with zeros before it.
fn telling(random: &mut Random, kind: char, length: usize) -> Draft {
    let (sign, rest) = around(random, kind);
    let room = length - sign.len() - rest.text().len();
    let number = loop {
        let mut number = Draft::new();
        number.wide_number(match random.index(2) {
            0 => near_power(random),
            _ => past_power(random, rest.text().is_empty()),
        });
        if number.text().len() <= room {
            break number;
        }
    };
    let mut draft = Draft::new();
    draft.extend(sign);
    draft.zeros(room - number.text().len());
    draft.extend(number.text());
    draft.extend(rest.text());
    draft
}

fn near_power(random: &mut Random) -> u128 {
    let power = 1_u128 << random.pick(&[15, 16, 31, 32, 63, 64]);
    power - 3 + random.index(7) as u128
}

/// A good number more than a multiple of a power of two, or less.
fn past_power(random: &mut Random, is_alone: bool) -> u128 {
    let power = 1_u128 << random.pick(&CUTS).0;
    let times = 1 + (random.word() >> (17 + random.index(47)));
    let multiple = u128::from(times) * power;
    let good = u128::from(good(random, is_alone));
    match random.index(4) {
        0 => multiple.abs_diff(good),
        _ => multiple + good,
    }
}

/// A year; or, alone, the number of a whole day.
fn good(random: &mut Random, is_alone: bool) -> u64 {
    if is_alone {
        24 * random.index(13_785_320) as u64
    } else {
        drawn::year(random).unsigned_abs().into()
    }
}

/// A leading number of as many digits as there is room for, the first not 0, that a cut makes good.
fn filled(random: &mut Random, kind: char, length: usize) -> Draft {
    let (sign, rest) = around(random, kind);
    let room = length - sign.len() - rest.text().len();
    let (bits, last) = loop {
        let (bits, last) = random.pick(&CUTS);
        if last < room {
            break (bits, last);
        }
    };
    let mut draft = Draft::new();
    draft.extend(sign);
    let mut before = 1 + random.index(9) as u64;
    draft.push(b'0' + before as u8);
    for _ in 1..room - last {
        let digit = random.index(10) as u64;
        draft.push(b'0' + digit as u8);
        before = before.wrapping_mul(10).wrapping_add(digit);
    }
    // What the last digits must be, so that the whole is a good number more than a multiple of 2^bits.
    let above = before.wrapping_mul(10_u64.wrapping_pow(last as u32));
    let good = good(random, rest.text().is_empty());
    let number = good.wrapping_sub(above) & (u64::MAX >> (64 - bits));
    draft.number(number, last);
    draft.extend(rest.text());
    draft
}

/// A date of the kind, and anything after it.
fn followed(random: &mut Random, kind: char, length: usize) -> Draft {
    let mut draft = drawn::spelled(random, kind);
    let is_any = random.chance(50);
    while draft.text().len() < length {
        let (byte, letter) = (random.byte(), random.pick(LETTERS));
        draft.push(if is_any { byte } else { letter });
    }
    draft
}

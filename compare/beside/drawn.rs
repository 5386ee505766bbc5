//! Random texts, made fast: most of them are spelled as dates, the others nearly so.

use crate::random::Random;

/// The longest text that is made.
const ROOM: usize = 100;

/// A text that is being made. What passes the room is dropped.
pub struct Draft {
    bytes: [u8; ROOM],
    length: usize,
}

impl Draft {
    pub fn new() -> Self {
        Draft {
            bytes: [0; ROOM],
            length: 0,
        }
    }

    pub fn text(&self) -> &[u8] {
        &self.bytes[..self.length]
    }

    pub fn push(&mut self, byte: u8) {
        if let Some(place) = self.bytes.get_mut(self.length) {
            *place = byte;
            self.length += 1;
        }
    }

    pub fn extend(&mut self, bytes: &[u8]) {
        bytes.iter().for_each(|&byte| self.push(byte));
    }

    pub fn zeros(&mut self, count: usize) {
        (0..count).for_each(|_| self.push(b'0'));
    }

    pub fn replace(&mut self, place: usize, byte: u8) {
        self.bytes[place] = byte;
    }

    /// A number in at least `width` digits.
    pub fn number(&mut self, number: u64, width: usize) {
        let mut digits = [b'0'; 20];
        let (mut rest, mut count) = (number, 0);
        while rest > 0 {
            count += 1;
            digits[20 - count] = b'0' + (rest % 10) as u8;
            rest /= 10;
        }
        let count = count.max(width).clamp(1, 20);
        self.extend(&digits[20 - count..]);
    }

    /// A number below 2^112 in its fewest digits.
    pub fn wide_number(&mut self, number: u128) {
        const DIGITS: usize = 19;
        const POWER: u128 = 10_u128.pow(DIGITS as u32);
        match (number / POWER) as u64 {
            0 => self.number(number as u64, 1),
            high => {
                self.number(high, 1);
                self.number((number % POWER) as u64, DIGITS);
            }
        }
    }
}

/// The kinds' letters, in the order of their codes.
pub const KINDS: [char; 6] = ['R', 'D', 'H', 'U', 'E', 'V'];

/// What a text may have.
pub const LETTERS: &[u8] = b"0123456789.-+";

/// The sign, if there is one, and what follows it.
pub fn split_sign(text: &[u8]) -> (&[u8], &[u8]) {
    text.split_at(usize::from(matches!(text.first(), Some(b'-' | b'+'))))
}

/// The text with so many zeros before its year, after the sign.
pub fn with_zeros(text: &[u8], zeros: usize) -> Draft {
    let (sign, rest) = split_sign(text);
    let mut draft = Draft::new();
    draft.extend(sign);
    draft.zeros(zeros);
    draft.extend(rest);
    draft
}

/// One text. The letter is that of the kind whose dates are spelled.
pub fn text(random: &mut Random, kind: char) -> Draft {
    match random.index(20) {
        0..=1 => number(random),
        2..=3 => damaged(random, kind),
        4 => {
            let length = random.index(17);
            jumble(random, LETTERS, length)
        }
        _ => spelled(random, kind),
    }
}

/// A date of the kind, in one of the ways that the readers take.
pub fn spelled(random: &mut Random, kind: char) -> Draft {
    let mut draft = Draft::new();
    let year = year(random);
    if year < 0 {
        draft.push(b'-');
    } else if random.chance(3) {
        draft.push(b'+');
    }
    let widths = random.word();
    let width = [1, 1, 1, 4, 4, 5, 6, 7][(widths % 8) as usize];
    draft.number(year.unsigned_abs().into(), width);
    after_year(&mut draft, random, kind, widths >> 8);
    draft
}

/// Month, day and perhaps hour; the two lowest bits of `widths` say in how many digits the first two are.
pub fn after_year(draft: &mut Draft, random: &mut Random, kind: char, widths: u64) {
    let month = 1 + random.index(12);
    draft.push(b'.');
    draft.number(month as u64, 1 + (widths & 1) as usize);
    draft.push(b'.');
    draft.number(day(random, kind, month), 1 + (widths >> 1 & 1) as usize);
    let hour = hour(random, kind);
    if hour != 0 {
        draft.push(b'.');
        draft.number(hour, 1);
    }
}

pub fn year(random: &mut Random) -> i16 {
    let year = match random.index(10) {
        0..=1 => random.between(i16::MIN.into(), i16::MAX.into()),
        2 => random.between(-120, 120),
        _ => random.between(1, 2500),
    };
    year as i16
}

fn day(random: &mut Random, kind: char, month: usize) -> u64 {
    const LENGTHS: [usize; 12] = [31, 28, 31, 30, 31, 30, 31, 31, 30, 31, 30, 31];
    let days = match kind {
        'R' => 31,
        'U' => 30,
        _ => LENGTHS[month - 1],
    };
    1 + random.index(days) as u64
}

fn hour(random: &mut Random, kind: char) -> u64 {
    match kind {
        'D' | 'U' => 0,
        'H' => 1 + random.index(24) as u64,
        'V' => 6 * random.index(4) as u64,
        'E' => random.index(24) as u64,
        _ => random.index(25) as u64,
    }
}

/// Mostly whole days.
pub fn number(random: &mut Random) -> Draft {
    let number = match random.index(5) {
        0 => random.between(-300_000_000, 4_400_000_000),
        1 => random.between(0, 330_847_679),
        2 => random.between(-28_000, 0) * 8760,
        _ => random.between(0, 13_785_319) * 24,
    };
    let mut draft = Draft::new();
    if number < 0 {
        draft.push(b'-');
    }
    draft.number(number.unsigned_abs(), 1);
    draft
}

/// A byte replaced, added or taken out.
pub fn damaged(random: &mut Random, kind: char) -> Draft {
    let whole = spelled(random, kind);
    let (place, way) = (random.index(whole.length), random.index(4));
    let mut draft = Draft::new();
    for (at, &byte) in whole.text().iter().enumerate() {
        match way {
            0 if at == place => draft.push(random.byte()),
            1 if at == place => draft.push(random.pick(LETTERS)),
            2 if at == place => {
                draft.push(random.pick(LETTERS));
                draft.push(byte);
            }
            3 if at == place => {}
            _ => draft.push(byte),
        }
    }
    draft
}

pub fn jumble(random: &mut Random, letters: &[u8], length: usize) -> Draft {
    let mut draft = Draft::new();
    for _ in 0..length {
        draft.push(random.pick(letters));
    }
    draft
}

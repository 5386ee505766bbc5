//! Texts of 17 bytes and more by the six readers (request #104). Up to 64 bytes: leading numbers with zeros
//! before them or of as many digits as fit, each byte of valid texts replaced by every other, and
//! generated texts. There the number's true value has to decide, so the original's answers are held
//! against the second reading too. Above 64 bytes a text is 1, whatever it says.

use crate::counts::Counts;
use crate::drawn::{self, KINDS, split_sign};
use crate::long_numbers::{RESTS, SIGNS, of_digits, telling};
use crate::long_texts;
use crate::original::{Coded, gives, read, refused};
use crate::port;
use crate::random::Random;
use crate::report::{Covers, Extent, Report, grouped};
use crate::tally::{Listed, Tally, share, share_with};
use crate::texts::{SHORT, question, replaced};
use crate::valid_texts;
use pennyquill::ffi::Answer;
use second_reading::kinds;
use second_reading::text::{self, LONGEST_TEXT};
use std::ops::RangeInclusive;

/// The lengths that the request added, and some above them.
const ADDED: RangeInclusive<usize> = SHORT + 1..=LONGEST_TEXT;
const TOO_LONG: RangeInclusive<usize> = LONGEST_TEXT + 1..=100;

const ZEROS: [u8; 100] = [b'0'; 100];

/// Of the generated texts: as many as there are random streams that nothing else draws from.
const PARTS: u64 = 16;
const FIRST_STREAM: u64 = 240;

/// Leading numbers are counted that are at least 2 to one of these, whatever their sign.
const POWERS: [u32; 4] = [16, 32, 63, 64];

/// The generated texts, and those among them with zeros before the number or with a great number.
#[derive(Default)]
struct Generated {
    counts: Counts,
    padded: u64,
    at_least: [u64; POWERS.len()],
}

pub fn run(extent: Extent, report: &mut Report) {
    let (numbers, rests) = (telling().len(), RESTS.len());
    let around = format!("3 signs, {rests} rests, six kinds");
    let name = format!("texts of 17 to 64 bytes: {numbers} numbers after zeros, {around}");
    report.row(&name, Covers::All, after_zeros(ADDED, ask_all));
    let name =
        format!("texts of 17 to 64 bytes: up to 18 numbers of as many digits as fit, {around}");
    report.row(&name, Covers::All, filling(ADDED, ask_all));
    let texts = valid_texts::all(ADDED, extent.pick(1, 10));
    let count = texts.len();
    let name = format!("each byte of {count} valid texts of 17 to 64 bytes, all 256, six kinds");
    report.row(&name, Covers::All, replaced(&texts, ask_all));
    generated(extent.pick(2_000_000, 100_000_000), report);
    let name = format!("texts of 65 bytes: {numbers} numbers after zeros, {around}");
    report.row(&name, Covers::All, after_zeros(65..=65, ask_all_long));
    let count = extent.pick(20_000, 500_000);
    let name = "texts of 65 to 100 bytes, six kinds";
    report.row(name, Covers::Sample, too_long(count));
}

fn ask_all(tally: &mut Tally, text: &[u8]) {
    for_all_six!(ask(tally, text));
}

/// Two comparisons: the port's answer with the original's, and the original's with the second reading's.
#[inline]
fn ask<K: Coded>(tally: &mut Tally, text: &[u8]) -> bool {
    let original = read::<K>(text);
    let asked = || question::<K>(text);
    tally.hold(original, port::read(K::CODE, text), asked);
    let asked = || format!("the original, {}", question::<K>(text));
    tally.hold(second::<K>(text), original, asked);
    original.refusal == 0
}

fn second<K: Coded>(text: &[u8]) -> Answer {
    let kind = kinds::KINDS[K::CODE as usize - 1];
    match text::read(kind, text, K::read) {
        Ok(date) => gives(date.bits()),
        Err(refusal) => refused(refusal.into()),
    }
}

/// Asks every number at every length with zeros before it, between every sign and every rest: where it
/// fits, so perhaps without a zero.
fn after_zeros(lengths: RangeInclusive<usize>, ask: impl Fn(&mut Tally, &[u8]) + Sync) -> Tally {
    let numbers = telling();
    each_frame(lengths, |tally, room, sign, rest| {
        for number in &numbers {
            if let Some(zeros) = room.checked_sub(number.len()) {
                ask(tally, &[sign, &ZEROS[..zeros], number, rest].concat());
            }
        }
    })
}

/// Asks at every length the numbers that have as many digits as there is room for between every sign and
/// every rest.
fn filling(lengths: RangeInclusive<usize>, ask: impl Fn(&mut Tally, &[u8]) + Sync) -> Tally {
    each_frame(lengths, |tally, room, sign, rest| {
        for number in of_digits(room) {
            ask(tally, &[sign, &number, rest].concat());
        }
    })
}

/// Every length, sign and rest, with the room that is left for the number.
fn each_frame(
    lengths: RangeInclusive<usize>,
    fill: impl Fn(&mut Tally, usize, &[u8], &[u8]) + Sync,
) -> Tally {
    let lengths: Vec<usize> = lengths.collect();
    share(lengths.len() as u64, |part, tally| {
        for sign in SIGNS {
            for rest in RESTS {
                let room = lengths[part as usize] - sign.len() - rest.len();
                fill(tally, room, sign, rest);
            }
        }
    })
}

fn generated(count: u64, report: &mut Report) {
    let (tally, parts) = share_with::<Generated>(PARTS, |part, tally, own| {
        let mut random = Random::new(FIRST_STREAM + part);
        for number in 0..count / PARTS {
            let length = ADDED.start() + random.index(ADDED.count());
            let kind = KINDS[(number % 6) as usize];
            let draft = long_texts::text(&mut random, kind, length);
            let mut accepting = [false; 6];
            for_all_six!(note(tally, draft.text(), &mut accepting));
            own.add(draft.text(), accepting);
        }
    });
    let count = grouped(count);
    let name = format!("{count} generated texts of 17 to 64 bytes, six kinds");
    report.row(&name, Covers::Sample, tally);
    let sum = parts.into_iter().fold(Generated::default(), Generated::and);
    report.later(&sum.told());
}

fn note<K: Coded>(tally: &mut Tally, text: &[u8], accepting: &mut [bool; 6]) {
    accepting[K::CODE as usize - 1] = ask::<K>(tally, text);
}

impl Generated {
    fn add(&mut self, text: &[u8], accepting: [bool; 6]) {
        self.counts.add(text.len(), accepting);
        let (_, digits) = split_sign(text);
        self.padded += u64::from(matches!(digits, [b'0', b'0'..=b'9', ..]));
        let size = leading_size(digits);
        for (count, power) in self.at_least.iter_mut().zip(POWERS) {
            *count += u64::from(size >= 1 << power);
        }
    }

    fn and(mut self, more: Generated) -> Generated {
        self.counts = self.counts.and(&more.counts);
        self.padded += more.padded;
        for (sum, count) in self.at_least.iter_mut().zip(more.at_least) {
            *sum += count;
        }
        self
    }

    fn told(&self) -> String {
        let bands: Vec<_> = ADDED.step_by(8).map(|least| least..=least + 7).collect();
        let padded = grouped(self.padded);
        let [over_16, over_32, over_63, over_64] = self.at_least.map(grouped);
        format!(
            "{}In {padded} of them zeros stand before the number's other digits. Without its sign the number is 2^16 \
             or more in {over_16}, 2^32 or more in {over_32}, 2^63 or more in {over_63}, 2^64 or more in {over_64}.\n",
            self.counts.table(&bands),
        )
    }
}

/// The value of the digits that come first, or 2^64 where it is more.
fn leading_size(digits: &[u8]) -> u128 {
    const MOST: u128 = 1 << 64;
    let mut size = 0_u64;
    for digit in digits.iter().take_while(|byte| byte.is_ascii_digit()) {
        let times_ten = size.checked_mul(10);
        match times_ten.and_then(|size| size.checked_add((digit - b'0').into())) {
            Some(more) => size = more,
            None => return MOST,
        }
    }
    size.into()
}

fn too_long(count: u64) -> Tally {
    const PARTS: u64 = 20;
    share(PARTS, |part, tally| {
        let mut random = Random::new(100 + part);
        for _ in 0..count / PARTS {
            let kind = random.pick(&KINDS);
            let draft = drawn::text(&mut random, kind);
            let text = valid_texts::lengthened(&mut random, draft.text(), TOO_LONG);
            ask_all_long(tally, &text);
        }
    })
}

fn ask_all_long(tally: &mut Tally, text: &[u8]) {
    for_all_six!(ask_long(tally, text));
}

/// A listed difference where the original reads it.
fn ask_long<K: Coded>(tally: &mut Tally, text: &[u8]) {
    if K::read(text).is_some() {
        tally.met(Listed::LongText);
    }
    tally.hold(refused(1), port::read(K::CODE, text), || {
        question::<K>(text)
    });
}

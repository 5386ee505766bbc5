//! Every 32-bit number, by the five full decoders and the four guesses.

use crate::kinds::{Decoded, Guessed};
use crate::original::{Coded, gives, or_refused, refused};
use crate::report::{Covers, Extent, Report};
use crate::tally::{Tally, share};
use pennyquill::ffi::{pq_guess_number, pq_read_number};
use second_reading::marks::Mark;

/// Numbers of one part.
const PART: u32 = 1 << 20;
const PARTS: u64 = (1 << 32) / PART as u64;

/// The quick form asks every so many numbers, and each of those near an end of what is read.
const QUICK_STEP: usize = 61;
const ENDS: [i32; 12] = [
    i32::MIN,
    -243_256_440,
    -243_247_680,
    -8760,
    0,
    42_924_000,
    43_791_240,
    43_808_760,
    58_700_760,
    59_568_000,
    330_847_679,
    i32::MAX,
];
const NEAR: i64 = 20_000;

pub fn run(extent: Extent, report: &mut Report) {
    let step = extent.pick(QUICK_STEP, 1);
    let decoded = share(PARTS, |part, tally| {
        for number in numbers(part, step) {
            decoders(tally, number);
        }
    });
    report.row(
        "32-bit numbers, five full decoders",
        extent.covers_all(),
        decoded,
    );
    let guessed = share(PARTS, |part, tally| {
        for number in numbers(part, step) {
            guesses(tally, number);
        }
    });
    report.row(
        "32-bit numbers, four guesses, each with its mark",
        extent.covers_all(),
        guessed,
    );
    if !extent.is_full() {
        near_ends(report);
    }
}

fn near_ends(report: &mut Report) {
    let tally = share(ENDS.len() as u64, |part, tally| {
        let end = i64::from(ENDS[part as usize]);
        for number in (end - NEAR..=end + NEAR).filter_map(|number| i32::try_from(number).ok()) {
            decoders(tally, number);
            guesses(tally, number);
        }
    });
    report.row("numbers near the ends, nine ways", Covers::Sample, tally);
}

fn numbers(part: u64, step: usize) -> impl Iterator<Item = i32> {
    let first = part as u32 * PART;
    // The steps of different parts start at different places.
    let start = first + part as u32 % step as u32;
    (start..=first + (PART - 1))
        .step_by(step)
        .map(|number| number as i32)
}

#[inline]
fn decoders(tally: &mut Tally, number: i32) {
    for_each!(decoder(tally, number): RawDate, Date, DateHour, Eu5Date, Vic3Date);
}

#[inline]
fn guesses(tally: &mut Tally, number: i32) {
    for_each!(guess(tally, number): Date, DateHour, Eu5Date, Vic3Date);
}

#[inline]
fn decoder<K: Coded + Decoded>(tally: &mut Tally, number: i32) {
    let right = or_refused(K::decode(number), 3);
    let asked = || format!("{} b {number}", K::LETTER);
    tally.hold(right, pq_read_number(K::CODE, number), asked);
}

/// The original's date, with the mark that a guess sets.
#[inline]
fn guess<K: Coded + Guessed>(tally: &mut Tally, number: i32) {
    let right = match K::guess(number) {
        Some(date) => gives(date.bits_with(Mark::of_reader(true))),
        None => refused(3),
    };
    let asked = || format!("{} g {number}", K::LETTER);
    tally.hold(right, pq_guess_number(K::CODE, number), asked);
}

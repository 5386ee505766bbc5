//! The original's private functions, each held against what the boundary shows it by.

use crate::kinds::{Date, Fields, RawDate, UniformDate};
use crate::original::{Coded, bits, gives, or_refused, refused};
use crate::port;
use crate::report::{Covers, Extent, Report};
use crate::tally::{Tally, share};
use crate::texts::{SHORT, question};
use crate::years::years;
use jomini::leaves;
use pennyquill::ffi::{self, Answer, Number};
use second_reading::text::LONGEST_TEXT;

const QUICK_STEP: i16 = 97;

/// So many bytes stand before `.1.1` in the longest short text, and in the longest text that is read.
const BEFORE_PARTS: [usize; 2] = [SHORT - 4, LONGEST_TEXT - 4];

pub fn run(extent: Extent, report: &mut Report) {
    let name = "leaf `to_i64_t`, through R's years and U's number texts";
    report.row(name, Covers::All, leading_numbers(extent.pick(5, 6)));
    let name = "leaf `fast_digit_parse` (and `fallback`), through D's YYYY.MM.DD";
    report.row(name, extent.covers_all(), eight_digits(extent.pick(101, 1)));
    let name = "leaf `ExpandedRawDate::from_binary`, through R's full decoder";
    report.row(
        name,
        extent.covers_all(),
        number_parts(extent.pick(1009, 1)),
    );
    let name = "leaf `month_day_from_julian`, through R's numbers, every year from -5000";
    report.row(name, extent.covers_all(), months_and_days(extent));
    let name = "leaves `julian_ordinal_day` and `to_binary`, through D's and H's numbers";
    report.row(name, extent.covers_all(), binaries(extent));
    let name = "leaf `Date::days`, through D's differences from 0.1.1";
    report.row(name, extent.covers_all(), day_numbers(extent));
}

fn parts_of((year, month, day, hour): (i16, u8, u8, u8)) -> Fields {
    Fields::new(year, month, day, hour)
}

/// Every text of up to so many bytes over digits and signs, alone and twice after zeros: so many of them
/// that `TEXT.1.1` has 16 bytes, and 64.
fn leading_numbers(longest: u32) -> Tally {
    const LETTERS: &[u8; 12] = b"0123456789+-";
    let count: u64 = (0..=longest).map(|length| 12_u64.pow(length)).sum();
    const PARTS: u64 = 64;
    share(PARTS, |part, tally| {
        for place in (part..count).step_by(PARTS as usize) {
            let text = nth_text(LETTERS, place);
            leading_number(tally, &text);
            for length in BEFORE_PARTS {
                let zeros = vec![b'0'; length - text.len()];
                leading_number(tally, &[zeros, text.clone()].concat());
            }
        }
    })
}

/// The text at a place in the list of all, the shortest first.
fn nth_text(letters: &[u8; 12], mut place: u64) -> Vec<u8> {
    let mut length = 0;
    while place >= 12_u64.pow(length) {
        place -= 12_u64.pow(length);
        length += 1;
    }
    (0..length)
        .map(|digit| letters[(place / 12_u64.pow(digit) % 12) as usize])
        .collect()
}

/// Before `.1.1` the leading number is the year, alone it is a number text. Where something follows it,
/// that begins with a sign and makes no date.
fn leading_number(tally: &mut Tally, text: &[u8]) {
    let whole = leaves::leading_number(text).filter(|&(_, rest)| rest == 0);
    let year = whole.and_then(|(value, _)| i16::try_from(value).ok());
    let right = match year {
        Some(year) => gives(bits(Fields::new(year, 1, 1, 0))),
        None => refused(2),
    };
    let dotted = [text, b".1.1"].concat();
    hold_text::<RawDate>(tally, right, &dotted);
    let number = whole.and_then(|(value, _)| i32::try_from(value).ok());
    let parts = number.and_then(leaves::number_parts).map(parts_of);
    let date = parts
        .filter(|parts| parts.hour == 0)
        .and_then(<UniformDate as crate::kinds::Kind>::make);
    hold_text::<UniformDate>(tally, or_refused(date, 2), text);
}

fn hold_text<K: Coded>(tally: &mut Tally, right: Answer, text: &[u8]) {
    tally.hold(right, port::read(K::CODE, text), || question::<K>(text));
}

/// All words of digits, and words with one byte of any value.
fn eight_digits(step: usize) -> Tally {
    const PART: u64 = 100_000;
    let digits = share(100_000_000 / PART, |part, tally| {
        for number in (part * PART..(part + 1) * PART).step_by(step) {
            let mut word = [0; 8];
            let mut rest = number;
            for byte in word.iter_mut().rev() {
                *byte = b'0' + (rest % 10) as u8;
                rest /= 10;
            }
            eight(tally, word);
        }
    });
    let others = share(256, |part, tally| {
        for base in [
            *b"00000000",
            *b"99999999",
            *b"14441111",
            *b"00010101",
            *b"20201231",
        ] {
            for place in 0..8 {
                let mut word = base;
                word[place] = part as u8;
                (0..=255).for_each(|next| {
                    word[(place + 1) % 8] = next;
                    eight(tally, word);
                });
            }
        }
    });
    digits.and(others)
}

/// Where the leaf has a value, that is D's date or none; else D's plain way answers.
fn eight(tally: &mut Tally, word: [u8; 8]) {
    let [a, b, c, d, e, f, g, h] = word;
    let text = [a, b, c, d, b'.', e, f, b'.', g, h];
    let date = match leaves::eight_digits(u64::from_le_bytes(word)) {
        Some(value) => {
            let (month, day) = (value / 100 % 100, value % 100);
            Date::from_ymd_opt((value / 10_000) as i16, month as u8, day as u8)
        }
        None => Date::by_plain_path(&text),
    };
    hold_text::<Date>(tally, or_refused(date, 2), &text);
}

fn number_parts(step: usize) -> Tally {
    const PARTS: u64 = 4096;
    share(PARTS, |part, tally| {
        let first = part << 20;
        for number in (first..first + (1 << 20)).step_by(step) {
            let number = number as u32 as i32;
            let right = match leaves::number_parts(number) {
                Some(parts) => gives(bits(parts_of(parts))),
                None => refused(3),
            };
            let port = ffi::pq_read_number(RawDate::CODE, number);
            tally.hold(right, port, || format!("R b {number}"));
        }
    })
}

fn months_and_days(extent: Extent) -> Tally {
    let years: Vec<i16> = years(extent, QUICK_STEP)
        .into_iter()
        .filter(|&year| year >= -5000)
        .collect();
    share(years.len() as u64, |part, tally| {
        let year = years[part as usize];
        for day_of_year in 0..365 {
            let (month, day) = leaves::month_and_day(day_of_year);
            let number = (i32::from(year) + 5000) * 8760 + day_of_year * 24;
            let right = gives(bits(Fields::new(year, month, day, 0)));
            let port = ffi::pq_read_number(RawDate::CODE, number);
            tally.hold(right, port, || format!("R b {number}"));
        }
    })
}

fn binaries(extent: Extent) -> Tally {
    let years = years(extent, QUICK_STEP);
    share(years.len() as u64, |part, tally| {
        let year = years[part as usize];
        for day_of_year in 0..365 {
            let (month, day) = leaves::month_and_day(day_of_year);
            let ordinal = leaves::days_before_first(month) + i32::from(day);
            for hour in 0..=24 {
                let kind = if hour == 0 { 2 } else { 3 };
                let date = bits(Fields::new(year, month, day, hour));
                let value = leaves::number(year, ordinal, hour);
                let right = Number { refusal: 0, value };
                let port = ffi::pq_to_number(kind, date);
                tally.hold(right, port, || {
                    format!("kind {kind}, {date:#010x} as a number")
                });
            }
        }
    })
}

fn day_numbers(extent: Extent) -> Tally {
    let years = years(extent, QUICK_STEP);
    let days = crate::original::days::<Date>();
    let zero = Date::from_ymd(0, 1, 1);
    share(years.len() as u64, |part, tally| {
        for &(month, day, _) in &days {
            let date = Date::from_ymd(years[part as usize], month, day);
            let value = date.day_number() - zero.day_number();
            let port = ffi::pq_days_until(Date::CODE, zero.bits(), date.bits());
            let asked = || format!("D {:#010x} since 0.1.1", date.bits());
            tally.hold(Number { refusal: 0, value }, port, asked);
        }
    })
}

//! The original's answers in the port's terms: a date as its bits, `None` and panics as refusals.

use crate::kinds::{Date, DateHour, Eu5Date, Fields, Kind, RawDate, UniformDate, Vic3Date};
use pennyquill::ffi::Answer;
use second_reading::marks::Mark;
use std::cell::Cell;
use std::panic::{self, AssertUnwindSafe};

/// A kind of the original with its code at the boundary.
pub trait Coded: Kind + Send + Sync + 'static {
    const CODE: u32;

    fn bits(self) -> u32 {
        bits(self.fields())
    }

    /// The same with a mark, which the original lacks, in the two lowest.
    fn bits_with(self, mark: Mark) -> u32 {
        self.bits() | u32::from(mark.number())
    }
}

macro_rules! coded {
    ($($kind:ident $code:literal),+) => {
        $(impl Coded for $kind {
            const CODE: u32 = $code;
        })+
    };
}

coded!(RawDate 1, Date 2, DateHour 3, UniformDate 4, Eu5Date 5, Vic3Date 6);

/// Calls something for each kind of a list, or for all six.
macro_rules! for_each {
    ($call:ident $arguments:tt: $($kind:ident),+) => {
        $($call::<$crate::kinds::$kind> $arguments;)+
    };
}

macro_rules! for_all_six {
    ($call:ident $arguments:tt) => {
        for_each!($call $arguments: RawDate, Date, DateHour, UniformDate, Eu5Date, Vic3Date)
    };
}

/// The year's sixteen bits above the packed word.
pub fn bits(fields: Fields) -> u32 {
    let year = u32::from(fields.year as u16);
    let word =
        u32::from(fields.month) << 12 | u32::from(fields.day) << 7 | u32::from(fields.hour) << 2;
    year << 16 | word
}

pub const fn gives(value: u32) -> Answer {
    Answer { refusal: 0, value }
}

pub const fn refused(refusal: u32) -> Answer {
    Answer { refusal, value: 0 }
}

/// A `None` or an `Err` is held to exactly one refusal.
pub fn or_refused<K: Coded>(date: Option<K>, refusal: u32) -> Answer {
    match date {
        Some(date) => gives(date.bits()),
        None => refused(refusal),
    }
}

pub fn read<K: Coded>(text: &[u8]) -> Answer {
    or_refused(K::read(text), 2)
}

/// The date with exactly these fields, had from the original by its own reader.
pub fn with<K: Coded>(fields: Fields) -> Option<K> {
    let mut text = [0; 16];
    let length = put_dotted(fields, &mut text);
    K::read(&text[..length]).filter(|date| date.fields() == fields)
}

/// `Kind::with` of the generator asks the same, by a text that `format!` makes, which takes longer.
fn put_dotted(fields: Fields, text: &mut [u8; 16]) -> usize {
    let mut length = 0;
    if fields.year < 0 {
        text[0] = b'-';
        length = 1;
    }
    length = put_number(fields.year.unsigned_abs(), text, length);
    let parts = [fields.month, fields.day, fields.hour];
    let count = if fields.hour == 0 { 2 } else { 3 };
    for part in &parts[..count] {
        text[length] = b'.';
        length = put_number((*part).into(), text, length + 1);
    }
    length
}

fn put_number(number: u16, text: &mut [u8; 16], at: usize) -> usize {
    let digits = 1 + [10, 100, 1000, 10_000]
        .iter()
        .filter(|&&power| number >= power)
        .count();
    let mut rest = number;
    for place in (at..at + digits).rev() {
        text[place] = b'0' + (rest % 10) as u8;
        rest /= 10;
    }
    at + digits
}

/// Month, day and hour of every date of a kind. The year plays no part in which dates a kind has.
pub fn days<K: Coded>() -> Vec<(u8, u8, u8)> {
    let mut days = Vec::new();
    for month in 1..=12 {
        for day in 1..=31 {
            for hour in 0..=24 {
                if with::<K>(Fields::new(1444, month, day, hour)).is_some() {
                    days.push((month, day, hour));
                }
            }
        }
    }
    days
}

thread_local! {
    static IS_ASKED: Cell<bool> = const { Cell::new(false) };
}

/// From here on a panic inside `or_panic` is printed nowhere.
pub fn hush_asked_panics() {
    let loud = panic::take_hook();
    panic::set_hook(Box::new(move |info| {
        if !IS_ASKED.get() {
            loud(info);
        }
    }));
}

/// The call's value, or the refusal that its panic's message stands for.
pub fn or_panic<T>(call: impl FnOnce() -> T) -> Result<T, u32> {
    IS_ASKED.set(true);
    let outcome = panic::catch_unwind(AssertUnwindSafe(call));
    IS_ASKED.set(false);
    outcome.map_err(|payload| {
        let text = payload.downcast_ref::<String>().map(String::as_str);
        refusal_of(
            text.or_else(|| payload.downcast_ref::<&str>().copied())
                .unwrap_or(""),
        )
    })
}

/// "a panic to 4, 5 or 6 by its message". Any other message stands for no refusal, and so differs.
fn refusal_of(message: &str) -> u32 {
    const MESSAGES: [(&str, u32); 3] = [
        ("called `Option::unwrap()` on a `None` value", 4),
        ("adding days overflowed", 5),
        ("year to fit inside signed 16bits", 6),
    ];
    let starts = |(start, _): &&(&str, u32)| message.starts_with(start);
    MESSAGES
        .iter()
        .find(starts)
        .map_or(u32::MAX, |&(_, refusal)| refusal)
}

//! The original behind functions of the boundary's shape: the kind is a number, a date its bits, which
//! are checked where they are handed in. So much of the port's time is the boundary's.

use eu5save::Eu5Date;
use jomini::common::{Date, DateHour, PdsDate, RawDate, UniformDate};
use pennyquill::ffi::{Answer, Number};
use std::fmt::{self, Write};
use std::slice;
use vic3save::Vic3Date;

fn answer<K>(date: Option<K>, refusal: u32, bits: impl Fn(K) -> u32) -> Answer {
    match date {
        Some(date) => Answer {
            refusal: 0,
            value: bits(date),
        },
        None => Answer { refusal, value: 0 },
    }
}

fn packed(date: &impl PdsDate, hour: u8) -> u32 {
    let word = u32::from(date.month()) << 12 | u32::from(date.day()) << 7 | u32::from(hour) << 2;
    u32::from(date.year() as u16) << 16 | word
}

/// The answer about a date of each kind that is listed; of the others it is 4.
macro_rules! by_kind {
    ($kind:expr, $refusal:expr, $($code:literal $name:ident . $hour:ident: $date:expr),+) => {
        match $kind {
            $($code => answer($date, $refusal, |date: $name| packed(&date, date.$hour())),)+
            _ => Answer { refusal: 4, value: 0 },
        }
    };
}

#[inline(never)]
pub extern "C" fn read_text(kind: u32, text: *const u8, len: usize) -> Answer {
    // SAFETY: the caller hands over the parts of a slice.
    let text = unsafe { slice::from_raw_parts(text, len) };
    by_kind!(kind, 2,
        1 RawDate.hour: RawDate::parse(text).ok(),
        2 Date.stored_hour: Date::parse(text).ok(),
        3 DateHour.hour: DateHour::parse(text).ok(),
        4 UniformDate.stored_hour: UniformDate::parse(text).ok(),
        5 Eu5Date.stored_hour: Eu5Date::parse(text).ok(),
        6 Vic3Date.hour: Vic3Date::parse(text).ok())
}

#[inline(never)]
pub extern "C" fn read_number(kind: u32, number: i32) -> Answer {
    decoded(kind, number)
}

#[inline(always)]
pub fn decoded(kind: u32, number: i32) -> Answer {
    by_kind!(kind, 3,
        1 RawDate.hour: RawDate::from_binary(number),
        2 Date.stored_hour: Date::from_binary(number),
        3 DateHour.hour: DateHour::from_binary(number),
        5 Eu5Date.stored_hour: Eu5Date::from_binary(number),
        6 Vic3Date.hour: Vic3Date::from_binary(number))
}

#[inline(never)]
pub extern "C" fn guess_number(kind: u32, number: i32) -> Answer {
    guessed(kind, number)
}

#[inline(always)]
pub fn guessed(kind: u32, number: i32) -> Answer {
    by_kind!(kind, 3,
        2 Date.stored_hour: Date::from_binary_heuristic(number),
        3 DateHour.hour: DateHour::from_binary_heuristic(number),
        5 Eu5Date.stored_hour: Eu5Date::from_binary_heuristic(number),
        6 Vic3Date.hour: Vic3Date::from_binary_heuristic(number))
}

fn fields(date: u32) -> (i16, u8, u8, u8) {
    let word = date as u16;
    let (month, day, hour) = (word >> 12, word >> 7 & 31, word >> 2 & 31);
    (
        (date >> 16) as u16 as i16,
        month as u8,
        day as u8,
        hour as u8,
    )
}

/// The day of a date handed in, if it is one of D, E or V.
fn day(kind: u32, date: u32) -> Option<Date> {
    let (year, month, day, hour) = fields(date);
    let has_hour = match kind {
        2 => hour == 0,
        5 => hour <= 22,
        6 => matches!(hour, 0 | 6 | 12 | 18),
        _ => false,
    };
    let is_whole = date % 4 == 0 && has_hour;
    Date::from_ymd_opt(year, month, day).filter(|_| is_whole)
}

#[inline(never)]
pub extern "C" fn add_days(kind: u32, date: u32, days: i32) -> Answer {
    let hour = if kind == 6 { fields(date).3 } else { 0 };
    let sum = day(kind, date).map(|date| date.add_days(days));
    answer(sum, 4, |sum| packed(&sum, hour))
}

#[inline(never)]
pub extern "C" fn days_until(kind: u32, one: u32, other: u32) -> Number {
    match (day(kind, one), day(kind, other)) {
        (Some(one), Some(other)) => Number {
            refusal: 0,
            value: one.days_until(&other),
        },
        _ => Number {
            refusal: 4,
            value: 0,
        },
    }
}

/// What the original writes into: a lent buffer, without an allocation.
pub struct Line<'a> {
    pub out: &'a mut [u8],
    pub length: usize,
}

impl Write for Line<'_> {
    fn write_str(&mut self, piece: &str) -> fmt::Result {
        let end = self.length + piece.len();
        let place = self.out.get_mut(self.length..end).ok_or(fmt::Error)?;
        place.copy_from_slice(piece.as_bytes());
        self.length = end;
        Ok(())
    }
}

/// The text's length, or 7.
pub fn put(text: impl fmt::Display, out: &mut [u8]) -> Answer {
    let mut line = Line { out, length: 0 };
    let is_put = write!(line, "{text}").is_ok();
    let length = line.length as u32;
    answer(is_put.then_some(length), 7, |length| length)
}

macro_rules! writer {
    ($name:ident, $text:ident) => {
        #[inline(never)]
        pub extern "C" fn $name(kind: u32, date: u32, out: *mut u8, room: usize) -> Answer {
            // SAFETY: the caller hands over the parts of a slice.
            let out = unsafe { slice::from_raw_parts_mut(out, room) };
            let (year, month, day, hour) = fields(date);
            let text = match kind {
                2 => Date::from_ymd_opt(year, month, day).map(|date| date.$text()),
                3 => DateHour::from_ymdh_opt(year, month, day, hour).map(|date| date.$text()),
                6 => Vic3Date::from_ymdh_opt(year, month, day, hour).map(|date| date.$text()),
                _ => None,
            };
            match text {
                Some(text) => put(text, out),
                None => Answer {
                    refusal: 4,
                    value: 0,
                },
            }
        }
    };
}

writer!(write_dotted, game_fmt);
writer!(write_iso, iso_8601);

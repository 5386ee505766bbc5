//! What stands for the original beside the second reading, which makes a `String` of every line: the original's readers
//! and its formatter, which puts each text into the lent bytes. Nothing is allocated, and nothing is measured before it
//! is written, so that a listing that does not fit leaves a part of it there.

use crate::bounded::Line;
use eu5save::Eu5Date;
use jomini::common::{Date, DateHour, PdsDate, RawDate, UniformDate};
use pennyquill::ffi::Answer;
use std::fmt::{self, Write};
use std::slice;
use std::str;
use vic3save::Vic3Date;

/// Of an input that is not empty and not too long.
pub fn list(input: &[u8], out: &mut [u8]) -> Answer {
    let mut listing = Line { out, length: 0 };
    let input = input.strip_suffix(b"\n").unwrap_or(input);
    let mut lines = input.split(|&byte| byte == b'\n');
    let is_put = lines.all(|line| put(&mut listing, line).is_ok());
    Answer {
        refusal: if is_put { 0 } else { 7 },
        value: if is_put { listing.length as u32 } else { 0 },
    }
}

/// The same behind a function of the boundary's shape.
#[inline(never)]
pub extern "C" fn list_at(input: *const u8, len: usize, out: *mut u8, room: usize) -> Answer {
    // SAFETY: the caller hands over the parts of slices, of which the second is its alone.
    let (input, out) = unsafe { parts(input, len, out, room) };
    list(input, out)
}

/// The slices of these parts. The caller says that they are such, and that the second is its alone.
pub unsafe fn parts<'a>(
    input: *const u8,
    len: usize,
    out: *mut u8,
    room: usize,
) -> (&'a [u8], &'a mut [u8]) {
    // SAFETY: as the caller says.
    unsafe {
        (
            slice::from_raw_parts(input, len),
            slice::from_raw_parts_mut(out, room),
        )
    }
}

fn put(out: &mut Line, line: &[u8]) -> fmt::Result {
    let &[letter, b' ', way, b' ', ref rest @ ..] = line else {
        return out.write_str("? refused 8\n");
    };
    match (letter, way) {
        (b'R', b't') => text(out, 'R', rest, |text| RawDate::parse(text).ok()),
        (b'D', b't') => text(out, 'D', rest, |text| Date::parse(text).ok()),
        (b'H', b't') => text(out, 'H', rest, |text| DateHour::parse(text).ok()),
        (b'U', b't') => text(out, 'U', rest, |text| UniformDate::parse(text).ok()),
        (b'E', b't') => text(out, 'E', rest, |text| Eu5Date::parse(text).ok()),
        (b'V', b't') => text(out, 'V', rest, |text| Vic3Date::parse(text).ok()),
        (b'R', b'b') => decode(out, 'R', rest, RawDate::from_binary),
        (b'D', b'b') => decode(out, 'D', rest, Date::from_binary),
        (b'H', b'b') => decode(out, 'H', rest, DateHour::from_binary),
        (b'E', b'b') => decode(out, 'E', rest, Eu5Date::from_binary),
        (b'V', b'b') => decode(out, 'V', rest, Vic3Date::from_binary),
        (b'D', b'g') => decode(out, 'D', rest, Date::from_binary_heuristic),
        (b'H', b'g') => decode(out, 'H', rest, DateHour::from_binary_heuristic),
        (b'E', b'g') => decode(out, 'E', rest, Eu5Date::from_binary_heuristic),
        (b'V', b'g') => decode(out, 'V', rest, Vic3Date::from_binary_heuristic),
        _ => out.write_str("? refused 8\n"),
    }
}

fn text<K: PdsDate>(
    out: &mut Line,
    letter: char,
    rest: &[u8],
    parse: impl Fn(&[u8]) -> Option<K>,
) -> fmt::Result {
    let is_short = rest.len() <= 64;
    let refusal = if is_short { 2 } else { 1 };
    let date = is_short.then(|| parse(rest)).flatten();
    told(out, letter, date, refusal)
}

fn decode<K: PdsDate>(
    out: &mut Line,
    letter: char,
    rest: &[u8],
    decoder: impl Fn(i32) -> Option<K>,
) -> fmt::Result {
    match number(rest) {
        Some(number) => told(out, letter, decoder(number), 3),
        None => told::<K>(out, letter, None, 2),
    }
}

fn number(rest: &[u8]) -> Option<i32> {
    let digits = rest.strip_prefix(b"-").unwrap_or(rest);
    let is_number = matches!(digits.len(), 1..=10) && digits.iter().all(u8::is_ascii_digit);
    let text = is_number.then(|| str::from_utf8(rest).ok()).flatten();
    text?.parse().ok()
}

fn told<K: PdsDate>(out: &mut Line, letter: char, date: Option<K>, refusal: u8) -> fmt::Result {
    match date {
        Some(date) => writeln!(out, "{letter} {} {}", date.game_fmt(), date.iso_8601()),
        None => writeln!(out, "{letter} refused {refusal}"),
    }
}

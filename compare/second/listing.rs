//! What `datelist` writes: "`datelist`" of document 01.
//!
//! How the input falls into lines and a line into its parts is read from the page. Which text or
//! number is a date, and the two texts of a date, are asked of the original.

use crate::kinds::Kind;
use crate::text;
use eu5save::Eu5Date;
use jomini::common::{Date, DateHour, PdsDate, RawDate, UniformDate};
use vic3save::Vic3Date;

/// "at most 65,535 bytes".
const LONGEST_INPUT: usize = 65_535;

/// "dotted text, ISO text", or the number of the refusal.
type Answer = Result<String, u8>;

pub fn output(input: &[u8]) -> Vec<u8> {
    if input.len() > LONGEST_INPUT {
        return b"input too long\n".to_vec();
    }
    let answers = lines(input).into_iter().map(|line| answer(line) + "\n");
    answers.collect::<String>().into_bytes()
}

/// "A line ends at byte 10; a last one may lack it; empty input prints nothing."
fn lines(input: &[u8]) -> Vec<&[u8]> {
    let mut lines: Vec<&[u8]> = input.split(|&byte| byte == 10).collect();
    let after_last_end = lines.pop().expect("a split gives at least one part");
    if !after_last_end.is_empty() {
        lines.push(after_last_end);
    }
    lines
}

/// "Line: kind letter, space, way, space, rest." "U b, U g, R g and other shapes are 8." "Output:
/// letter, dotted text, ISO text; or it writes the fixed word refused and its number after the
/// letter, `?` for 8."
fn answer(line: &[u8]) -> String {
    let &[letter, b' ', way, b' ', ref rest @ ..] = line else {
        return "? refused 8".to_string();
    };
    let answer = match way {
        b't' => from_text(letter, rest),
        b'b' => from_number(letter, rest),
        b'g' => from_guess(letter, rest),
        _ => Err(8),
    };
    match answer {
        Ok(texts) => format!("{} {texts}", char::from(letter)),
        Err(8) => "? refused 8".to_string(),
        Err(refusal) => format!("{} refused {refusal}", char::from(letter)),
    }
}

/// "Way t reads the rest as text".
fn from_text(letter: u8, rest: &[u8]) -> Answer {
    match letter {
        b'R' => read(Kind::R, rest, |text| RawDate::parse(text).ok()),
        b'D' => read(Kind::D, rest, |text| Date::parse(text).ok()),
        b'H' => read(Kind::H, rest, |text| DateHour::parse(text).ok()),
        b'U' => read(Kind::U, rest, |text| UniformDate::parse(text).ok()),
        b'E' => read(Kind::E, rest, |text| Eu5Date::parse(text).ok()),
        b'V' => read(Kind::V, rest, |text| Vic3Date::parse(text).ok()),
        _ => Err(8),
    }
}

/// Way b reads a number "by full decoder"; "U b" is 8.
fn from_number(letter: u8, rest: &[u8]) -> Answer {
    match letter {
        b'R' => decode(rest, RawDate::from_binary),
        b'D' => decode(rest, Date::from_binary),
        b'H' => decode(rest, DateHour::from_binary),
        b'E' => decode(rest, Eu5Date::from_binary),
        b'V' => decode(rest, Vic3Date::from_binary),
        _ => Err(8),
    }
}

/// Way g reads a number by "guess"; "U g, R g" are 8.
fn from_guess(letter: u8, rest: &[u8]) -> Answer {
    match letter {
        b'D' => decode(rest, Date::from_binary_heuristic),
        b'H' => decode(rest, DateHour::from_binary_heuristic),
        b'E' => decode(rest, Eu5Date::from_binary_heuristic),
        b'V' => decode(rest, Vic3Date::from_binary_heuristic),
        _ => Err(8),
    }
}

fn read<K: PdsDate>(kind: Kind, rest: &[u8], parse: impl Fn(&[u8]) -> Option<K>) -> Answer {
    text::read(kind, rest, parse).map(texts)
}

/// "no such number after way b or g" is 2; "number not a date, or guess refused" is 3.
fn decode<K: PdsDate>(rest: &[u8], decoder: impl Fn(i32) -> Option<K>) -> Answer {
    let number = number(rest).ok_or(2)?;
    decoder(number).map(texts).ok_or(3)
}

/// "a number (perhaps `-`, 1 to 10 digits, fitting 32 bits; else 2)".
fn number(rest: &[u8]) -> Option<i32> {
    let (is_negative, digits) = match rest {
        [b'-', digits @ ..] => (true, digits),
        digits => (false, digits),
    };
    if digits.is_empty() || digits.len() > 10 || !digits.iter().all(u8::is_ascii_digit) {
        return None;
    }
    let size = digits
        .iter()
        .fold(0_i64, |value, digit| value * 10 + i64::from(digit - b'0'));
    let value = if is_negative { -size } else { size };
    i32::try_from(value).ok()
}

/// "dotted text, ISO text"; "Single spaces".
fn texts<K: PdsDate>(date: K) -> String {
    format!("{} {}", date.game_fmt(), date.iso_8601())
}

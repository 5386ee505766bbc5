//! "ISO reader", request #102 of document 02: "Read the ISO text of all six kinds, only in the
//! spelling that document 01 writes."
//!
//! A text is read byte by byte as "Date to text" of document 01 lays it out, and none is spelled to
//! compare it with. Where a row is answered, a text that is read must be the text of its date.

use crate::exchange;
use crate::kinds::{Fields, Kind};
use crate::text::LONGEST_TEXT;

/// What was read, and the bytes after it.
type Read<'t, T> = Option<(T, &'t [u8])>;

/// Rows `K i "TEXT"` with what is read, `YEAR MONTH DAY HOUR` or `refused N`.
pub fn rows(questions: &str) -> String {
    questions
        .lines()
        .map(|question| row(question) + "\n")
        .collect()
}

fn row(question: &str) -> String {
    let [letter, "i", quoted] = question.split(' ').collect::<Vec<_>>()[..] else {
        panic!("no question about an ISO text: {question}");
    };
    let kind = Kind::from_letter(letter).expect("a kind's letter");
    let text = unquoted(quoted).expect("a quoted text");
    match read(kind, &text) {
        Ok(date) => {
            let spelled = exchange::iso_text(kind, date);
            assert_eq!(spelled.as_bytes(), text, "the date's ISO text");
            format!("{question} {date}")
        }
        Err(refusal) => format!("{question} refused {refusal}"),
    }
}

/// The bytes between the double quotes, where `\xNN` is one byte.
fn unquoted(quoted: &str) -> Option<Vec<u8>> {
    let inner = quoted.strip_prefix('"')?.strip_suffix('"')?;
    let mut parts = inner.split("\\x");
    let mut text = parts.next()?.as_bytes().to_vec();
    for part in parts {
        let (digits, plain) = part.split_at_checked(2)?;
        text.push(u8::from_str_radix(digits, 16).ok()?);
        text.extend(plain.as_bytes());
    }
    Some(text)
}

/// "Refusals: 1 and 2 as for dotted text." "1 before 2".
pub fn read(kind: Kind, text: &[u8]) -> Result<Fields, u8> {
    if text.len() > LONGEST_TEXT {
        return Err(1);
    }
    date(kind, text).ok_or(2)
}

fn date(kind: Kind, text: &[u8]) -> Option<Fields> {
    let (year, after_year) = year(text)?;
    let (month, day, after_day) = month_and_day(after_year)?;
    let hour = hour(kind, after_day)?;
    let date = Fields {
        year,
        month,
        day,
        hour,
    };
    kind.has(date).then_some(date)
}

/// "year zero-filled to width 4, the sign counted (-5 is `-005`)": a `-` and at least three digits,
/// or no sign and at least four. A year that is wider has no zero to fill, and year 0 has no sign.
/// "year -32768 to 32767".
fn year(text: &[u8]) -> Read<'_, i16> {
    let (is_negative, filled, text) = match text {
        [b'-', after_sign @ ..] => (true, 3, after_sign),
        _ => (false, 4, text),
    };
    let count = text.iter().take_while(|byte| byte.is_ascii_digit()).count();
    if count < filled || count > 5 || count > filled && text[0] == b'0' {
        return None;
    }
    let (digits, after_year) = text.split_at(count);
    let size = digits
        .iter()
        .fold(0, |size, digit| size * 10 + i32::from(digit - b'0'));
    if is_negative && size == 0 {
        return None;
    }
    let year = if is_negative { -size } else { size };
    Some((i16::try_from(year).ok()?, after_year))
}

/// "then -MM-DD".
fn month_and_day(after_year: &[u8]) -> Option<(u16, u16, &[u8])> {
    let (month, after_month) = two_digits(b'-', after_year)?;
    let (day, after_day) = two_digits(b'-', after_month)?;
    Some((month, day, after_day))
}

/// "R and H add T and hour - 1 in two digits if hour is not 0; V always adds T and its hour; E adds
/// T and its in-game hour." "H, V and E demand the hour; D and U refuse one."
fn hour(kind: Kind, after_day: &[u8]) -> Option<u16> {
    let has_none = after_day.is_empty();
    match kind {
        Kind::D | Kind::U => has_none.then_some(0),
        Kind::R if has_none => Some(0),
        Kind::R | Kind::H => Some(last_two_digits(after_day)? + 1),
        Kind::V => last_two_digits(after_day),
        Kind::E => even_component(last_two_digits(after_day)?),
    }
}

/// "E comes back with the even component of that in-game hour", which is "hour / 2 + 8, rounded
/// down": the even component is twice what the in-game hour is above 8.
fn even_component(in_game_hour: u16) -> Option<u16> {
    Some(in_game_hour.checked_sub(8)? * 2)
}

/// T and two digits, and nothing after them.
fn last_two_digits(after_day: &[u8]) -> Option<u16> {
    let (hour, after_hour) = two_digits(b'T', after_day)?;
    after_hour.is_empty().then_some(hour)
}

/// The mark and two digits.
fn two_digits(mark: u8, text: &[u8]) -> Read<'_, u16> {
    match text {
        [first, tens @ b'0'..=b'9', ones @ b'0'..=b'9', after @ ..] if *first == mark => {
            let number = u16::from(tens - b'0') * 10 + u16::from(ones - b'0');
            Some((number, after))
        }
        _ => None,
    }
}

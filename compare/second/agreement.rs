//! Where this reading and the original both say which dates a kind has, what the texts of a date are, or how
//! many days lie between two, they say the same; and this reading reads the ISO text back.

use crate::exchange::dotted_text;
use crate::kinds::{Fields, Kind, all_of_year};
use crate::{exchange, gaps, iso};
use eu5save::Eu5Date;
use jomini::common::{Date, DateHour, PdsDate, RawDate, UniformDate};
use vic3save::Vic3Date;

/// The year plays no part in which dates a kind has.
const YEAR: i16 = 1444;

/// Years of both signs and of every width, with the first and the last.
const YEARS: [i16; 19] = [
    -32768, -10000, -9999, -1000, -999, -100, -99, -10, -9, -5, -1, 0, 5, 99, 999, 1444, 9999,
    10000, 32767,
];

pub fn try_kinds() {
    try_kind(Kind::R, |text| RawDate::parse(text).ok());
    try_kind(Kind::D, |text| Date::parse(text).ok());
    try_kind(Kind::H, |text| DateHour::parse(text).ok());
    try_kind(Kind::U, |text| UniformDate::parse(text).ok());
    try_kind(Kind::E, |text| Eu5Date::parse(text).ok());
    try_kind(Kind::V, |text| Vic3Date::parse(text).ok());
}

fn try_kind<K: PdsDate>(kind: Kind, parse: impl Fn(&str) -> Option<K>) {
    try_words(kind, &parse);
    for year in YEARS {
        try_iso_texts(kind, year, &parse);
    }
}

/// For every word without a mark, which the original lacks: its fields are a date of the kind exactly when
/// the original reads their text and writes it again.
fn try_words<K: PdsDate>(kind: Kind, parse: &impl Fn(&str) -> Option<K>) {
    for date in all_of_year(YEAR) {
        let text = dotted_text(kind, date);
        let is_same = |read: K| read.game_fmt().to_string() == text;
        let is_original = parse(&text).is_some_and(is_same);
        assert_eq!(kind.has(date), is_original, "{} {text}", kind.letter());
    }
}

/// For every word that is a date of the kind: the dotted text and the ISO text that are spelled here are the
/// original's, and "R, D, H, U and V come back as the same date. E comes back with the even component of that
/// in-game hour".
fn try_iso_texts<K: PdsDate>(kind: Kind, year: i16, parse: &impl Fn(&str) -> Option<K>) {
    for date in all_of_year(year).filter(|&date| kind.has(date)) {
        let dotted = dotted_text(kind, date);
        let original = parse(&dotted).expect("a date of the original");
        assert_eq!(original.game_fmt().to_string(), dotted, "{}", kind.letter());
        let text = original.iso_8601().to_string();
        assert_eq!(exchange::iso_text(kind, date), text, "{}", kind.letter());
        let hour = match kind {
            Kind::E => date.hour / 2 * 2,
            _ => date.hour,
        };
        let is_back = iso::read(kind, text.as_bytes()) == Ok(Fields { hour, ..date });
        assert!(is_back, "{} {text} is {date}", kind.letter());
    }
}

/// The days from one date of D, E or V to another, which the original reads and counts.
pub fn try_days() {
    try_differences(Kind::D, |from, to| {
        Some(Date::parse(from).ok()?.days_until(&Date::parse(to).ok()?))
    });
    try_differences(Kind::E, |from, to| {
        Some(
            Eu5Date::parse(from)
                .ok()?
                .days_until(&Eu5Date::parse(to).ok()?),
        )
    });
    try_differences(Kind::V, |from, to| {
        Some(
            Vic3Date::parse(from)
                .ok()?
                .days_until(&Vic3Date::parse(to).ok()?),
        )
    });
}

/// From the first date of each year to every date of that year and of the next in the list.
fn try_differences(kind: Kind, days_until: impl Fn(&str, &str) -> Option<i32>) {
    let dates = |year| all_of_year(year).filter(move |&date| kind.has(date));
    for (&year, &next) in YEARS.iter().zip(YEARS.iter().cycle().skip(1)) {
        let first = dates(year).next().expect("a date");
        for date in dates(year).chain(dates(next)) {
            let (from, to) = (dotted_text(kind, first), dotted_text(kind, date));
            let days = gaps::day_number(date) - gaps::day_number(first);
            let original = days_until(&from, &to).map(i64::from);
            assert_eq!(original, Some(days), "{} {from} to {to}", kind.letter());
        }
    }
}

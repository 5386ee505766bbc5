//! The texts of a date: "Date to text" of document 01, the exchange text's year by request #105 of document 02.
//!
//! Rows of spellings.txt, `K s DATE DOTTED ISO ...`, become rows `K x DATE EXCHANGE`. The ISO text in
//! the row is the original's; it is held against this reading, which spells both texts alike but
//! for the year. "all texts disregard" the date's mark (#106); a date that is refused there is refused here.

use crate::kinds::{Fields, Kind};
use crate::marks;

pub fn rows(spellings: &str) -> String {
    spellings
        .lines()
        .map(|spelling| row(spelling) + "\n")
        .collect()
}

fn row(spelling: &str) -> String {
    let [letter, "s", year, month, day, hour, ref texts @ ..] =
        spelling.split(' ').collect::<Vec<_>>()[..]
    else {
        panic!("no row of spellings.txt: {spelling}");
    };
    let kind = Kind::from_letter(letter).expect("a kind's letter");
    let question = format!("{letter} x {year} {month} {day} {hour}");
    let Some(date) = marks::of_question(kind, [year, month, day, hour]) else {
        let is_refused = texts.chunks(2).all(|text| text == ["refused", "4"]);
        assert!(is_refused, "no date that has texts: {spelling}");
        return format!("{question} refused 4");
    };
    assert_eq!(
        iso_text(kind, date.fields),
        texts[1],
        "the original's ISO text"
    );
    format!("{question} {}", exchange_text(kind, date.fields))
}

/// "Dotted: year.month.day, then .hour if not 0, unpadded; U pads month and day to two."
pub fn dotted_text(kind: Kind, date: Fields) -> String {
    let Fields {
        year,
        month,
        day,
        hour,
    } = date;
    let text = match kind {
        Kind::U => format!("{year}.{month:02}.{day:02}"),
        _ => format!("{year}.{month}.{day}"),
    };
    match hour {
        0 => text,
        _ => format!("{text}.{hour}"),
    }
}

/// "year zero-filled to width 4, the sign counted (-5 is `-005`)".
pub fn iso_text(kind: Kind, date: Fields) -> String {
    let year = match date.year {
        ..0 => format!("-{:03}", date.year.unsigned_abs()),
        0.. => format!("{:04}", date.year),
    };
    year + &after_year(kind, date)
}

/// "as ISO, but" the year: "years 0 to 9999 have four digits, all others a sign and five: `-00005`,
/// `+10000`, `-32768`".
pub fn exchange_text(kind: Kind, date: Fields) -> String {
    let year = match date.year {
        0..=9999 => format!("{:04}", date.year),
        _ => format!("{:+06}", date.year),
    };
    year + &after_year(kind, date)
}

/// "then -MM-DD; R and H add T and hour - 1 in two digits if hour is not 0; V always adds T and
/// its hour; E adds T and its in-game hour".
fn after_year(kind: Kind, date: Fields) -> String {
    let day = format!("-{:02}-{:02}", date.month, date.day);
    match kind {
        Kind::D | Kind::U => day,
        Kind::R | Kind::H if date.hour == 0 => day,
        Kind::R | Kind::H => format!("{day}T{:02}", date.hour - 1),
        Kind::V => format!("{day}T{:02}", date.hour),
        Kind::E => format!("{day}T{:02}", in_game_hour(date)),
    }
}

/// "E's in-game hour is hour / 2 + 8, rounded down: 8 to 19".
fn in_game_hour(date: Fields) -> u16 {
    date.hour / 2 + 8
}

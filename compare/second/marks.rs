//! "Guessed or declared", request #106 of document 02: "Put it into the packed word's two empty bits: 0
//! declared, 1 guessed, 2 and 3 not allowed."
//!
//! The mark is no field: what a date is, which order it has and how it is spelled its fields say alone.

use crate::kinds::{Fields, Kind};
use std::cmp::Ordering;

/// "0 declared, 1 guessed".
#[derive(Clone, Copy, PartialEq, Eq)]
pub enum Mark {
    Declared,
    Guessed,
}

impl Mark {
    /// What the two low bits of a word are: "2 and 3 not allowed".
    pub fn from_word(word: u16) -> Option<Mark> {
        match word % 4 {
            0 => Some(Mark::Declared),
            1 => Some(Mark::Guessed),
            _ => None,
        }
    }

    pub fn number(self) -> u16 {
        match self {
            Mark::Declared => 0,
            Mark::Guessed => 1,
        }
    }

    /// "Guess readers set 1, all others 0".
    pub fn of_reader(is_guess: bool) -> Mark {
        if is_guess {
            Mark::Guessed
        } else {
            Mark::Declared
        }
    }

    /// "an addition and E's start of day keep the starting date's mark".
    pub fn of_sum(start: Mark) -> Mark {
        start
    }

    pub fn of_start_of_day(start: Mark) -> Mark {
        start
    }
}

/// A date with its mark. Two of these are compared by `order`, and never as they are.
#[derive(Clone, Copy)]
pub struct Marked {
    pub fields: Fields,
    pub mark: Mark,
}

impl Marked {
    /// The packed word, with the mark in its two low bits.
    pub fn word(self) -> u16 {
        self.fields.word() + self.mark.number()
    }

    pub fn without_mark(self) -> Marked {
        Marked {
            mark: Mark::Declared,
            ..self
        }
    }
}

/// The date that is handed in by a year and a packed word; none is 4: "fields, or a date handed in (E hour
/// 23 too), not of the kind", "4 also for marks 2 and 3".
pub fn handed_in(kind: Kind, year: i16, word: u16) -> Option<Marked> {
    let fields = Fields::from_word(year, word);
    let mark = Mark::from_word(word)?;
    kind.has(fields).then_some(Marked { fields, mark })
}

/// "Order: year, then packed word." "Order, equality and all texts disregard" the mark.
pub fn order(one: Marked, other: Marked) -> Ordering {
    let key = |date: Marked| (date.fields.year, date.fields.word());
    key(one).cmp(&key(other))
}

/// The date of a question, `YEAR MONTH DAY HOUR` or `YEAR MONTH DAY HOUR/MARK`, as it is handed in.
pub fn of_question(kind: Kind, [year, month, day, hour]: [&str; 4]) -> Option<Marked> {
    let (hour, mark) = hour.split_once('/').unwrap_or((hour, "0"));
    let part = |part: &str, most: u16| {
        let number: u16 = part.parse().expect("a part of a date");
        assert!(number <= most, "a packed word has no room for {number}");
        number
    };
    let fields = Fields {
        year: year.parse().expect("a year"),
        month: part(month, 15),
        day: part(day, 31),
        hour: part(hour, 31),
    };
    handed_in(kind, fields.year, fields.word() + part(mark, 3))
}

/// Rows `K w DATE` with the date without its mark, `YEAR MONTH DAY HOUR`, or `refused 4`.
pub fn rows(questions: &str) -> String {
    questions
        .lines()
        .map(|question| row(question) + "\n")
        .collect()
}

fn row(question: &str) -> String {
    let [letter, "w", year, month, day, hour] = question.split(' ').collect::<Vec<_>>()[..] else {
        panic!("no question about a date without its mark: {question}");
    };
    let kind = Kind::from_letter(letter).expect("a kind's letter");
    match of_question(kind, [year, month, day, hour]) {
        Some(date) => format!("{question} {}", date.without_mark().fields),
        None => format!("{question} refused 4"),
    }
}

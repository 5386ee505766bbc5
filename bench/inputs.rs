//! What both sides are asked about: the same random dates on every run.

use crate::plain_table::{KINDS, Kind};
use crate::random::Random;
use jomini::common::Date;
use std::collections::BTreeSet;

/// So many inputs stay in the nearest cache.
const COUNT: usize = 512;

const LENGTHS: [i64; 12] = [31, 28, 31, 30, 31, 30, 31, 31, 30, 31, 30, 31];

#[derive(Clone, Copy)]
pub struct Day {
    pub year: i16,
    pub month: u8,
    pub day: u8,
}

/// Days as saves have them; for a fast shape those that are spelled in it.
pub fn days(is_wanted: impl Fn(Day) -> bool) -> Vec<Day> {
    let mut random = Random::new(0);
    let mut some_day = || {
        let month = random.between(1, 12);
        let day = random.between(1, LENGTHS[month as usize - 1]);
        Day {
            year: random.between(1000, 2500) as i16,
            month: month as u8,
            day: day as u8,
        }
    };
    std::iter::from_fn(|| Some(some_day()))
        .filter(|&day| is_wanted(day))
        .take(COUNT)
        .collect()
}

pub fn all_days() -> Vec<Day> {
    days(|_| true)
}

/// The texts of days, by a function that spells one.
pub fn texts(days: Vec<Day>, spell: impl Fn(Day) -> String) -> Vec<Vec<u8>> {
    days.into_iter()
        .map(|day| spell(day).into_bytes())
        .collect()
}

pub fn dotted(day: Day) -> String {
    format!("{}.{}.{}", day.year, day.month, day.day)
}

pub fn dotted_at_noon(day: Day) -> String {
    format!("{}.12", dotted(day))
}

/// As U has it.
pub fn dotted_padded(day: Day) -> String {
    format!("{}.{:02}.{:02}", day.year, day.month, day.day)
}

pub fn iso(day: Day) -> String {
    format!("{:04}-{:02}-{:02}", day.year, day.month, day.day)
}

/// A day of U for each day: for the 31st of a month its 30th.
pub fn uniform(day: Day) -> Day {
    Day {
        day: day.day.min(30),
        ..day
    }
}

/// The binary numbers of days, at an hour.
pub fn numbers(hour: i32) -> Vec<i32> {
    let number = |day: Day| Date::from_ymd(day.year, day.month, day.day).to_binary() + hour;
    all_days().into_iter().map(number).collect()
}

/// Days to add, which stay within the years that dates have.
pub fn steps() -> Vec<i32> {
    let mut random = Random::new(1);
    (0..COUNT)
        .map(|_| random.between(-100_000, 100_000) as i32)
        .collect()
}

/// A book of version 1, with records of all kinds.
pub fn book(records: u32) -> Vec<u8> {
    let mut random = Random::new(2);
    let mut book = (1 + 5 * records).to_be_bytes().to_vec();
    book.push(1);
    for _ in 0..records {
        let kind = random.between(1, 6) as u8;
        let hour = if kind == 3 { 12 } else { 0 };
        let word = random.between(1, 12) << 12 | random.between(1, 28) << 7 | hour << 2;
        book.push(kind);
        book.extend((random.between(1, 2500) as u16).to_be_bytes());
        book.extend((word as u16).to_be_bytes());
    }
    book
}

/// The same dates in a book of version 2: three in four with a field number, half of them guessed.
pub fn book2(records: u32) -> Vec<u8> {
    let mut random = Random::new(5);
    let mut book2 = (1 + 7 * records).to_be_bytes().to_vec();
    book2.push(2);
    for record in book(records)[5..].chunks_exact(5) {
        let some_field = random.between(1, 65_535) as u16;
        let field = if random.chance(75) { some_field } else { 0 };
        book2.push(record[0]);
        book2.extend(field.to_be_bytes());
        book2.extend(&record[1..4]);
        book2.push(record[4] | u8::from(random.chance(50)));
    }
    book2
}

/// 2,048 fields in ascending order, each with a kind.
pub fn declared() -> Vec<(u16, Kind)> {
    let mut random = Random::new(3);
    let mut fields = BTreeSet::new();
    while fields.len() < 2048 {
        fields.insert(random.between(1, 65_535) as u16);
    }
    let with_kind = |field| (field, random.pick(&KINDS));
    fields.into_iter().map(with_kind).collect()
}

/// The table of these fields.
pub fn table(declared: &[(u16, Kind)]) -> Vec<u8> {
    let length = 1 + 3 * declared.len() as u32;
    let mut table = length.to_be_bytes().to_vec();
    table.push(1);
    for &(field, kind) in declared {
        table.extend(field.to_be_bytes());
        table.push(kind as u8);
    }
    table
}

/// Fields with numbers, in random order. Half of the fields are declared, and have dates; of the others
/// half have dates and half have plain numbers.
pub fn questions(declared: &[(u16, Kind)]) -> Vec<(u32, i32)> {
    let mut random = Random::new(4);
    let is_declared = |field: u16| declared.iter().any(|&(one, _)| one == field);
    let question = |date: i32| {
        if random.chance(50) {
            return (random.pick(declared).0.into(), date);
        }
        let mut field = random.between(1, 65_535) as u16;
        while is_declared(field) {
            field = random.between(1, 65_535) as u16;
        }
        let plain = random.between(0, 5000) as i32;
        (field.into(), if random.chance(50) { date } else { plain })
    };
    numbers(0).into_iter().map(question).collect()
}

/// Lines for a listing, of every kind and way, so many bytes; the last one is cut. About one in six is refused.
pub fn mixed_lines(bytes: usize) -> Vec<u8> {
    let (days, numbers) = (all_days(), numbers(0));
    let mut random = Random::new(6);
    let mut lines = String::new();
    while lines.len() < bytes {
        let (day, number) = (random.pick(&days), random.pick(&numbers));
        lines += &match random.index(20) {
            0..=3 => format!("D t {}", dotted(day)),
            4 => format!("R t {}", dotted_at_noon(day)),
            5 => format!("H t {}", dotted_at_noon(day)),
            6 => format!("U t {}", dotted_padded(uniform(day))),
            7 => format!("E t {}", dotted_at_noon(day)),
            8 => format!("V t {}", dotted_at_noon(day)),
            9..=13 => format!("{} b {number}", random.pick(&['R', 'D', 'H', 'E', 'V'])),
            14..=17 => format!("{} g {number}", random.pick(&['D', 'H', 'E', 'V'])),
            _ => refused(&mut random, day),
        };
        lines.push('\n');
    }
    let mut lines = lines.into_bytes();
    lines.truncate(bytes);
    lines
}

/// With 1, 2, 3 or 8.
fn refused(random: &mut Random, day: Day) -> String {
    match random.index(6) {
        0 => format!("R t {:0>65}", dotted(day)),
        1 => format!("D t {}", dotted_at_noon(day)),
        2 => format!("U t {}.2.31", day.year),
        3 => format!("D g {}", random.between(0, 5000)),
        4 => format!("U b {}", day.year),
        _ => String::new(),
    }
}

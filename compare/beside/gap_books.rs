//! Books for the gap report: dates drawn so that equal days, equal steps, the first and the last years, both sides of
//! year 0 and dates that differ in the mark alone are frequent; and damage to such a book.

use crate::book_questions::code;
use crate::random::Random;
use crate::second_books::{RECORD_2, book_of, of_version_1, without_field};
use second_reading::kinds::{Fields, KINDS, Kind};

/// A year, a month and a day.
pub type Day = (i16, u16, u16);

/// Where the order of dates, the days between them or their texts turn.
pub const DAYS: [Day; 18] = [
    (-32768, 1, 1),
    (-32768, 12, 30),
    (-32768, 12, 31),
    (-32767, 1, 1),
    (-10000, 1, 1),
    (-2, 12, 31),
    (-1, 1, 1),
    (-1, 1, 2),
    (-1, 12, 31),
    (0, 1, 1),
    (0, 1, 2),
    (0, 12, 31),
    (1, 1, 1),
    (1444, 2, 28),
    (1444, 3, 1),
    (9999, 12, 31),
    (32767, 1, 1),
    (32767, 12, 31),
];

/// The hours that a kind has.
pub fn hours(kind: Kind) -> Vec<u16> {
    let has = |&hour: &u16| {
        kind.has(Fields {
            year: 0,
            month: 1,
            day: 1,
            hour,
        })
    };
    (0..=24).filter(has).collect()
}

/// The record of a date, of no field, with this mark. A day that the kind lacks becomes the 28th.
pub fn record(kind: Kind, (year, month, day): Day, hour: u16, mark: u16) -> [u8; RECORD_2] {
    let date = |day| Fields {
        year,
        month,
        day,
        hour,
    };
    let day = if kind.has(date(day)) { day } else { 28 };
    let [year_high, year_low] = year.to_be_bytes();
    let [word_high, word_low] = (date(day).word() + mark).to_be_bytes();
    let code = code(kind) as u8;
    [code, 0, 0, year_high, year_low, word_high, word_low]
}

/// How the records of a book are drawn.
struct Draw {
    kinds: Vec<Kind>,
    days: Vec<Day>,
}

impl Draw {
    /// One kind, those that count days, or all. Few days, those of the list, those around year 0, four with equal
    /// steps between them, or any.
    fn new(random: &mut Random) -> Draw {
        let kinds = match random.index(4) {
            0 => vec![random.pick(&KINDS)],
            1 => vec![Kind::D, Kind::E, Kind::V],
            _ => KINDS.to_vec(),
        };
        let days = match random.index(5) {
            0 => (0..1 + random.index(4))
                .map(|_| random.pick(&DAYS))
                .collect(),
            1 => DAYS.to_vec(),
            2 => (0..20).map(|_| day(random, -3, 3)).collect(),
            3 => (0..8).map(|step| (1444, 1, 1 + step % 4 * 10)).collect(),
            _ => (0..64).map(|_| day(random, -32768, 32767)).collect(),
        };
        Draw { kinds, days }
    }

    fn record(&self, random: &mut Random) -> [u8; RECORD_2] {
        let kind = random.pick(&self.kinds);
        let hour = random.pick(&hours(kind));
        let mark = random.index(2) as u16;
        let mut record = record(kind, random.pick(&self.days), hour, mark);
        if random.chance(50) {
            record[1] = random.byte();
            record[2] = random.byte();
        }
        record
    }
}

fn day(random: &mut Random, first: i64, last: i64) -> Day {
    let year = random.between(first, last) as i16;
    let (month, day) = (random.between(1, 12), random.between(1, 31));
    (year, month as u16, day as u16)
}

/// A sound book of so many records, of either version, and some bytes after it.
pub fn sound(random: &mut Random, records: usize) -> Vec<u8> {
    let draw = Draw::new(random);
    let records: Vec<[u8; RECORD_2]> = (0..records).map(|_| draw.record(random)).collect();
    let after = random.index(4);
    of_version(1 + random.index(2) as u8, &records, after)
}

/// The book of these records; in version 1 without their fields and marks.
pub fn of_version(version: u8, records: &[[u8; RECORD_2]], after: usize) -> Vec<u8> {
    if version == 2 {
        return book_of(2, records, after);
    }
    let plain = records.iter().copied().map(without_field).map(of_version_1);
    book_of(1, &plain.collect::<Vec<_>>(), after)
}

/// A byte or two changed, one of the head, of a record or after them; or a cut; or more bytes; or nothing.
pub fn damage(random: &mut Random, book: &mut Vec<u8>) {
    const HEAD: usize = 5;
    match random.index(8) {
        0 => book.truncate(random.index(book.len() + 1)),
        1 => {
            let place = random.index(HEAD);
            book[place] = random.byte();
        }
        2 => {
            let place = random.pick(&[3, HEAD - 1]);
            book[place] = random.pick(&[0, 1, 2, 3, 5, 6, 8]);
        }
        3 | 4 => {
            for _ in 0..1 + random.index(2) {
                let place = random.index(book.len());
                book[place] = random.byte();
            }
        }
        5 => book.extend((0..random.index(30)).map(|_| random.byte())),
        _ => {}
    }
}

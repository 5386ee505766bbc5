//! Books of version 2, calls that take both versions, and moves, which the original lacks: held against the second
//! reading of request #107.

use crate::random::Random;
use crate::report::{Covers, Extent, Report};
use crate::tally::{Tally, share};
use crate::version_questions::{HandedIn, To, any_record, append, ask_all, check, moved, record};
use crate::{moves, port, second_damage, walks};

pub const HEAD: usize = 5;
pub const RECORD: usize = 5;
pub const RECORD_2: usize = 7;
pub const MOST_RECORDS: usize = 4096;

/// D 1444.11.11 and E -1.12.31.22, as records of version 1.
pub const FIRST: [[u8; RECORD]; 2] = [[2, 0x05, 0xA4, 0xB5, 0x80], [5, 0xFF, 0xFF, 0xCF, 0xD8]];

/// The same of no field; and of field 500 and guessed.
pub const PLAIN: [[u8; RECORD_2]; 2] = [
    [2, 0, 0, 0x05, 0xA4, 0xB5, 0x80],
    [5, 0, 0, 0xFF, 0xFF, 0xCF, 0xD8],
];
pub const SOURCED: [[u8; RECORD_2]; 2] = [
    [2, 0x01, 0xF4, 0x05, 0xA4, 0xB5, 0x81],
    [5, 0x01, 0xF4, 0xFF, 0xFF, 0xCF, 0xD9],
];
pub const D_DATE: u32 = 0x05A4_B580;

/// Kinds and fields that would be one after a cut to fewer bits.
const FAR_KINDS: [u32; 7] = [0, 7, 8, 255, 258, 65_538, u32::MAX];
const FAR_FIELDS: [u32; 6] = [65_536, 65_537, 66_036, 1 << 24, 1 << 31, u32::MAX];

const YEARS: [u16; 5] = [1444, 0, 0xFFFF, 0x8000, 0x7FFF];

pub fn run(extent: Extent, report: &mut Report) {
    let name = "version 2: books of one record: every kind byte and every word, at some years";
    report.row(name, Covers::Sample, records(extent.pick(1, 5)));
    let name = "version 2: appends of every kind and every word, with room and without";
    report.row(name, Covers::Sample, appends());
    let name = "version 2: every field number of every kind, declared and guessed, appended, read and moved";
    report.row(name, Covers::All, fields());
    let name =
        "version 2: appends of what is none: kinds, fields and marks, into books of each refusal";
    report.row(name, Covers::Sample, no_records());
    let name = "version 2: a book filled by 4,096 appends, and one more";
    report.row(name, Covers::Sample, filled(extent.pick(1, 20)));
    second_damage::run(extent, report);
    moves::run(extent, report);
    walks::run(extent, report);
    let count = extent.pick(300_000, 20_000_000);
    let name = "both versions: random books, most of them sound, some with a byte changed";
    report.row(name, Covers::Sample, random_books(count));
}

/// A book of a version, with the size of its records, and so many bytes after it.
pub fn book_of<const SIZE: usize>(version: u8, records: &[[u8; SIZE]], after: usize) -> Vec<u8> {
    let length = 1 + records.len() * SIZE;
    let head = (length as u32).to_be_bytes();
    let after = vec![0xA5; after];
    [&head[..], &[version], &records.concat(), &after].concat()
}

/// Those of a kind, and of the numbers beside the kinds, are moved too, to version 1 and from it.
fn records(years: usize) -> Tally {
    share(256, |kind, tally| {
        let kind = kind as u8;
        for year in &YEARS[..years] {
            let [first, second] = year.to_be_bytes();
            for word in 0..=u16::MAX {
                let [third, fourth] = word.to_be_bytes();
                let of_field = [kind, 0x01, 0xF4, first, second, third, fourth];
                record(tally, &book_of(2, &[of_field], 0), 0);
                let plain = [kind, 0, 0, first, second, third, fourth];
                let book = book_of(2, &[plain], 0);
                check(tally, &book);
                if kind <= 7 {
                    moved(tally, To::One, &book, 10);
                    moved(tally, To::Two, &book_of(1, &[of_version_1(plain)], 0), 12);
                }
            }
        }
    })
}

fn appends() -> Tally {
    share(6, |kind, tally| {
        let kind = kind as u32 + 1;
        let (empty, short) = (book_of::<7>(2, &[], 7), book_of(2, &PLAIN, 6));
        for word in 0..=u16::MAX {
            let date = 0x7FFF_0000 | u32::from(word);
            append(tally, &empty, (kind, 500, date));
            append(tally, &short, (kind, 500, date));
        }
    })
}

/// 1444.11.11 of each kind, H's at its first hour.
fn date_of(kind: u32) -> u32 {
    if kind == 3 { D_DATE + 4 } else { D_DATE }
}

fn fields() -> Tally {
    const PART: u64 = 1024;
    share(6 * 64, |part, tally| {
        let kind = (part / 64) as u32 + 1;
        let book = book_of(2, &SOURCED[..1], 9);
        let first = part % 64 * PART;
        for field in first..first + PART {
            for mark in [0, 1] {
                let date = date_of(kind) + mark;
                append(tally, &book, (kind, field as u32, date));
                let [high, low] = (field as u16).to_be_bytes();
                let [y0, y1, w0, w1] = date.to_be_bytes();
                let one = book_of(2, &[[kind as u8, high, low, y0, y1, w0, w1]], 0);
                record(tally, &one, 0);
                any_record(tally, &one, 0);
                moved(tally, To::One, &one, 10);
            }
        }
    })
}

/// 4 comes first: into a book with room, without, of length 0, of another version, of an odd length, with a bad
/// record, and into no book.
fn no_records() -> Tally {
    let room = book_of(2, &PLAIN, 7);
    let change = |place: usize, byte: u8| {
        let mut book = room.clone();
        book[place] = byte;
        book
    };
    let books = [
        room.clone(),
        book_of(2, &PLAIN, 6),
        change(3, 0),
        change(4, 1),
        change(3, 16),
        change(5, 7),
        room[..4].to_vec(),
        vec![],
    ];
    share(books.len() as u64, |part, tally| {
        let book = &books[part as usize];
        let kinds: Vec<u32> = (1..=6).chain(FAR_KINDS).collect();
        let fields = [0, 1, 500, 65_535].into_iter().chain(FAR_FIELDS);
        for field in fields {
            for &kind in &kinds {
                for mark in 0..=3 {
                    append(tally, book, (kind, field, date_of(kind) + mark));
                    append(tally, book, (kind, field, 0x05A4_0000 + mark));
                }
            }
        }
    })
}

/// Every append and every byte after it. What is appended is a date of its kind, until 12.
fn filled(books: u64) -> Tally {
    share(books, |part, tally| {
        let mut random = Random::new(part);
        let mut book = book_of::<RECORD_2>(2, &[], 0);
        book.resize(HEAD + MOST_RECORDS * RECORD_2 + part as usize % 9, 0xA5);
        for place in 0..=MOST_RECORDS {
            let (kind, field, date) = handed_in(sound_record(&mut random));
            append(tally, &book, (kind, field, date));
            let answer = port::book2_append(&mut book, kind, field, date);
            let is_full = place == MOST_RECORDS;
            let asked = || format!("record {place} of a book that is filled");
            tally.hold(if is_full { 12 } else { 0 }, answer.refusal, asked);
        }
        for place in [0, MOST_RECORDS - 1, MOST_RECORDS] {
            ask_all(tally, &book, place, 4);
        }
    })
}

/// A record as it is handed in.
fn handed_in([kind, field_high, field_low, date @ ..]: [u8; RECORD_2]) -> HandedIn {
    let field = u16::from_be_bytes([field_high, field_low]);
    (kind.into(), field.into(), u32::from_be_bytes(date))
}

/// Books of a few records of both versions, some with a byte or two changed.
fn random_books(count: u64) -> Tally {
    const PARTS: u64 = 100;
    share(PARTS, |part, tally| {
        let mut random = Random::new(part);
        for _ in 0..count / PARTS {
            let mut book = some_book(&mut random);
            for _ in 0..random.index(3) {
                let place = random.index(book.len());
                book[place] = random.byte();
            }
            let (place, room) = (random.index(7), random.index(48));
            ask_all(tally, &book, place, room);
            append(tally, &book, handed_in(some_record(&mut random)));
        }
    })
}

/// Of either version, of up to five records. Some of version 2 have no field and no mark, as all of version 1.
fn some_book(random: &mut Random) -> Vec<u8> {
    let records: Vec<[u8; RECORD_2]> = (0..random.index(6)).map(|_| some_record(random)).collect();
    let after = random.index(9);
    let plain = || records.iter().copied().map(without_field);
    match random.index(4) {
        0 | 1 => book_of(2, &records, after),
        2 => book_of(2, &plain().collect::<Vec<_>>(), after),
        _ => book_of(1, &plain().map(of_version_1).collect::<Vec<_>>(), after),
    }
}

/// The record without its field and its mark.
pub fn without_field([kind, _, _, y0, y1, w0, w1]: [u8; RECORD_2]) -> [u8; RECORD_2] {
    [kind, 0, 0, y0, y1, w0, w1 & 0xFC]
}

/// The same record in version 1, which has no field.
pub fn of_version_1([kind, _, _, y0, y1, w0, w1]: [u8; RECORD_2]) -> [u8; RECORD] {
    [kind, y0, y1, w0, w1]
}

/// A day that every kind has, at an hour that some have, of some field or none; most have no mark.
pub fn some_record(random: &mut Random) -> [u8; RECORD_2] {
    let hour = random.pick(&[0, 0, 0, 6, 12, 1, 22, 23]);
    let mark = random.pick(&[0, 0, 0, 0, 0, 0, 1, 1, 2, 3]);
    let kind = random.between(1, 6) as u8;
    record_of(random, kind, hour, mark)
}

/// A date of its kind, declared or guessed.
pub fn sound_record(random: &mut Random) -> [u8; RECORD_2] {
    let kind = random.between(1, 6) as u8;
    let hour = match kind {
        1 => random.between(0, 24),
        3 => random.between(1, 24),
        5 => random.between(0, 22),
        6 => random.pick(&[0, 6, 12, 18]),
        _ => 0,
    };
    let mark = random.between(0, 1);
    record_of(random, kind, hour, mark)
}

fn record_of(random: &mut Random, kind: u8, hour: i64, mark: i64) -> [u8; RECORD_2] {
    let word = random.between(1, 12) << 12 | random.between(1, 28) << 7 | hour << 2 | mark;
    let field = if random.chance(50) {
        0
    } else {
        random.word() as u16
    };
    let [field_high, field_low] = field.to_be_bytes();
    let [year_high, year_low] = (random.word() as u16).to_be_bytes();
    let [word_high, word_low] = (word as u16).to_be_bytes();
    [
        kind, field_high, field_low, year_high, year_low, word_high, word_low,
    ]
}

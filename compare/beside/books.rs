//! Books, which the original lacks: held against the second reading of document 01.

use crate::book_questions::{append, append_marked, check, new, record};
use crate::random::Random;
use crate::report::{Covers, Extent, Report};
use crate::tally::{Tally, share};

const HEAD: usize = 5;
const RECORD: usize = 5;
const MOST_RECORDS: usize = 4096;

/// D 1444.11.11 and E -1.12.31.22, as records.
const D_RECORD: [u8; RECORD] = [2, 0x05, 0xA4, 0xB5, 0x80];
const E_RECORD: [u8; RECORD] = [5, 0xFF, 0xFF, 0xCF, 0xD8];
const D_DATE: u32 = 0x05A4_B580;

pub fn run(extent: Extent, report: &mut Report) {
    let years = extent.pick(1, 5);
    let name = "books of one record: every kind byte and every word, at some years";
    report.row(name, Covers::Sample, records(years));
    report.row(
        "appends of every kind and every word, with room and without",
        Covers::Sample,
        appends(),
    );
    let name = "appends of dates with each mark: room, no room, full books and no books";
    report.row(name, Covers::Sample, marked_appends());
    let name = "books with one byte changed to each of 256, all cuts";
    report.row(name, Covers::All, damaged());
    report.row(
        "lengths 0 to 70,000 and versions",
        Covers::Sample,
        lengths(),
    );
    report.row(
        "full books: a bad record at each place",
        Covers::All,
        full_books(extent),
    );
    let name = "full books: a mark in the record at each place";
    report.row(name, extent.covers_all(), marked_full_books(extent));
    let count = extent.pick(400_000, 20_000_000);
    report.row("random books", Covers::Sample, random_books(count, &[0]));
    let name = "random books, records and dates with marks";
    report.row(name, Covers::Sample, random_books(count, &MARKS));
}

/// Those of the records of random books: most have none.
const MARKS: [i64; 10] = [0, 0, 0, 0, 0, 0, 0, 1, 2, 3];

fn all_operations(tally: &mut Tally, buffer: &[u8]) {
    check(tally, buffer);
    for place in [0, 1, 2, 3, 4095, 4096, usize::MAX, usize::MAX / 5 + 1] {
        record(tally, buffer, place);
    }
    append_marked(tally, buffer, 2, D_DATE);
    new(tally, buffer);
}

fn book_of(records: &[[u8; RECORD]], after: usize) -> Vec<u8> {
    let length = 1 + records.len() * RECORD;
    let mut bytes = (length as u32).to_be_bytes().to_vec();
    bytes.push(1);
    records.iter().for_each(|record| bytes.extend(record));
    bytes.extend(vec![0xA5; after]);
    bytes
}

const YEARS: [u16; 5] = [1444, 0, 0xFFFF, 0x8000, 0x7FFF];

fn records(years: usize) -> Tally {
    share(256, |kind, tally| {
        for year in &YEARS[..years] {
            let [first, second] = year.to_be_bytes();
            for word in 0..=u16::MAX {
                let [third, fourth] = word.to_be_bytes();
                let book = book_of(&[[kind as u8, first, second, third, fourth]], 0);
                check(tally, &book);
                record(tally, &book, 0);
            }
        }
    })
}

fn appends() -> Tally {
    share(6, |kind, tally| {
        let (empty, full) = (book_of(&[], 7), book_of(&[D_RECORD], 4));
        for word in 0..=u16::MAX {
            let date = 0x7FFF_0000 | u32::from(word);
            append(tally, &empty, kind as u32 + 1, date);
            append(tally, &full, kind as u32 + 1, date);
        }
    })
}

/// 1444.11.11 of each kind, H's at its first hour, into a book and into books of each refusal, with room and
/// without; and into full books and those that one record fills.
fn marked_appends() -> Tally {
    share(6, |kind, tally| {
        let kind = kind as u32 + 1;
        let date = if kind == 3 { D_DATE + 4 } else { D_DATE };
        for after in 0..=6 {
            for records in [MOST_RECORDS - 1, MOST_RECORDS] {
                let full = book_of(&vec![D_RECORD; records], after);
                append_marked(tally, &full, kind, date);
            }
            let whole = book_of(&[D_RECORD, E_RECORD], after);
            append_marked(tally, &whole, kind, date);
            for place in 0..HEAD + 2 * RECORD {
                for bit in 0..8 {
                    let mut book = whole.clone();
                    book[place] ^= 1 << bit;
                    append_marked(tally, &book, kind, date);
                }
                append_marked(tally, &whole[..place], kind, date);
            }
        }
    })
}

fn damaged() -> Tally {
    let whole = book_of(&[D_RECORD, E_RECORD], 6);
    share(whole.len() as u64, |place, tally| {
        for byte in 0..=255 {
            let mut book = whole.clone();
            book[place as usize] = byte;
            all_operations(tally, &book);
            for end in [place as usize, place as usize + 1] {
                all_operations(tally, &book[..end]);
            }
        }
    })
}

fn lengths() -> Tally {
    let longest = HEAD + (MOST_RECORDS + 2) * RECORD;
    let long = book_of(&vec![D_RECORD; MOST_RECORDS + 2], 0);
    let far =
        (0..6)
            .map(|less| u32::MAX - less)
            .chain([1 << 24, (1 << 24) + 6, 1 << 31, (1 << 31) + 6]);
    let lengths: Vec<u32> = (0..70_000).chain(far).collect();
    share(lengths.len() as u64, |part, tally| {
        for (size, version) in [
            (0, 1),
            (4, 1),
            (5, 1),
            (21, 1),
            (21, 2),
            (longest, 1),
            (longest, 2),
        ] {
            let mut book = long[..size].to_vec();
            let length = lengths[part as usize].to_be_bytes();
            let head = book.len().min(4);
            book[..head].copy_from_slice(&length[..head]);
            if let Some(byte) = book.get_mut(4) {
                *byte = version;
            }
            check(tally, &book);
        }
    })
}

fn full_books(extent: Extent) -> Tally {
    let step = extent.pick(64, 1);
    let whole = book_of(&vec![D_RECORD; MOST_RECORDS], RECORD);
    share((MOST_RECORDS / step) as u64, |part, tally| {
        let place = part as usize * step;
        let mut book = whole.clone();
        record(tally, &book, place);
        book[HEAD + place * RECORD] = 7;
        all_operations(tally, &book);
        book[HEAD..HEAD + place * RECORD].fill(0xFF);
        check(tally, &book);
        let records = vec![E_RECORD; place];
        all_operations(tally, &book_of(&records, RECORD));
    })
}

/// Each mark at each place, and dates with each mark appended there: 11 and the place, also where there are
/// two.
fn marked_full_books(extent: Extent) -> Tally {
    let step = extent.pick(64, 1);
    let whole = book_of(&vec![D_RECORD; MOST_RECORDS], RECORD);
    share((MOST_RECORDS / step) as u64, |part, tally| {
        let place = part as usize * step;
        let last = HEAD + place * RECORD + RECORD - 1;
        let mut book = whole.clone();
        for mark in 1..=3 {
            book[last] = whole[last] + mark;
            check(tally, &book);
            record(tally, &book, place);
            append_marked(tally, &book, 2, D_DATE);
        }
        book[HEAD + RECORD - 1] += 1;
        check(tally, &book);
    })
}

/// Books of a few records, most of them sound, with a byte or two changed. Records and the dates that are
/// appended have some of these marks.
fn random_books(count: u64, marks: &[i64]) -> Tally {
    const PARTS: u64 = 100;
    share(PARTS, |part, tally| {
        let mut random = Random::new(part);
        for _ in 0..count / PARTS {
            let records: Vec<[u8; RECORD]> = (0..random.index(6))
                .map(|_| some_record(&mut random, marks))
                .collect();
            let after = random.index(8);
            let mut book = book_of(&records, after);
            for _ in 0..random.index(3) {
                let place = random.index(book.len());
                book[place] = random.byte();
            }
            let place = random.index(7);
            check(tally, &book);
            record(tally, &book, place);
            let [kind, date @ ..] = some_record(&mut random, marks);
            append(tally, &book, u32::from(kind), u32::from_be_bytes(date));
        }
    })
}

/// A day that every kind has, at an hour that some have, with one of these marks.
fn some_record(random: &mut Random, marks: &[i64]) -> [u8; RECORD] {
    let word = random.between(1, 12) << 12
        | random.between(1, 28) << 7
        | random.pick(&[0, 1, 6, 12, 22, 23, 24]) << 2
        | random.pick(marks);
    let [year, low] = (random.word() as u16).to_be_bytes();
    let [third, fourth] = (word as u16).to_be_bytes();
    [random.between(1, 6) as u8, year, low, third, fourth]
}

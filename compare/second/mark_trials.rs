//! What request #106 of document 02 says of marks, tried on this reading.

use crate::book::{self, Record, Refusal};
use crate::kinds::{KINDS, Kind};
use crate::marks::{self, Mark};
use crate::table;
use std::cmp::Ordering;

const YEAR: i16 = 1444;

/// 11 November at hour 6, and at hour 0.
const AT_SIX: u16 = 11 * 4096 + 11 * 128 + 6 * 4;
const NO_HOUR: u16 = 11 * 4096 + 11 * 128;

const HEAD: usize = 5;
const RECORD: usize = 5;
const MOST_RECORDS: usize = 4096;

pub fn try_all() {
    KINDS.into_iter().for_each(try_handed_in);
    KINDS.into_iter().for_each(try_recorded);
    try_sums();
    try_lookups();
    try_appends();
}

/// The word of a date of the kind: D and U have no hour, H none that is 0.
fn word_of(kind: Kind) -> u16 {
    match kind {
        Kind::D | Kind::U => NO_HOUR,
        Kind::R | Kind::H | Kind::E | Kind::V => AT_SIX,
    }
}

/// "0 declared, 1 guessed, 2 and 3 not allowed." "Order, equality and all texts disregard it." What is not
/// of the kind without a mark is not with one.
fn try_handed_in(kind: Kind) {
    let marked = |word: u16, mark: u16| marks::handed_in(kind, YEAR, word + mark);
    let declared = marked(word_of(kind), 0).expect("a date");
    let guessed = marked(word_of(kind), 1).expect("a guessed date");
    assert!(declared.mark == Mark::Declared && guessed.mark == Mark::Guessed);
    assert!(declared.fields == guessed.fields && guessed.word() == declared.word() + 1);
    assert!(marks::order(declared, guessed) == Ordering::Equal);
    assert!(guessed.without_mark().word() == declared.word());
    for mark in 2..=3 {
        assert!(marked(word_of(kind), mark).is_none());
    }
    for mark in 0..=3 {
        let thirteenth_month = 13 * 4096 + 128;
        assert!(marked(thirteenth_month, mark).is_none());
    }
}

/// "an addition and E's start of day keep the starting date's mark".
fn try_sums() {
    for mark in [Mark::Declared, Mark::Guessed] {
        assert!(Mark::of_sum(mark) == mark);
        assert!(Mark::of_start_of_day(mark) == mark);
    }
}

/// "Guess readers set 1, all others 0": 56456976 is 1444.11.11, declared as R in field 500, and E's guess in
/// any other.
fn try_lookups() {
    let mut buffer = [0; 8];
    assert_eq!(table::new(&mut buffer), Ok(()));
    assert_eq!(table::declare(&mut buffer, 500, 1), Ok(1));
    for (field, mark) in [(500, Mark::Declared), (501, Mark::Guessed)] {
        let looked = table::lookup(&buffer, field, 5, 56_456_976);
        let Ok(table::Looked { date, .. }) = looked else {
            panic!("a date of field {field}");
        };
        assert!(date.mark == mark && date.word() == NO_HOUR + mark.number());
    }
}

/// "11 for any mark in one": at the first place, at one between and at the last, by every operation.
fn try_recorded(kind: Kind) {
    for place in 0..3 {
        let mut buffer = book_of(3, RECORD);
        let [high, low] = word_of(kind).to_be_bytes();
        let start = HEAD + place * RECORD;
        buffer[start..start + RECORD].copy_from_slice(&[book::number_of(kind), 0, 0, high, low]);
        assert!(matches!(book::check(&buffer), Ok(3)));
        for mark in 1..=3 {
            buffer[start + RECORD - 1] = low + mark;
            let is_place = |refusal| matches!(refusal, Refusal::Record(bad) if bad == place);
            assert!(book::check(&buffer).is_err_and(is_place));
            assert!(book::record(&buffer, 1).is_err_and(is_place));
            assert!(append(&mut buffer, 0).is_err_and(is_place));
        }
    }
}

/// "20 when a guessed date is appended to a version 1 book, after 12"; and 4 before all.
fn try_appends() {
    let room = book_of(1, RECORD);
    let (short, full) = (book_of(1, RECORD - 1), book_of(MOST_RECORDS, RECORD));
    let (mut cut, mut version, mut odd, mut bad) =
        (room.clone(), room.clone(), room.clone(), room.clone());
    cut.truncate(4);
    version[4] = 2;
    odd[3] += 1;
    bad[HEAD] = 7;
    refuses(&cut, [9, 9, 4, 4]);
    refuses(&version, [10, 10, 4, 4]);
    refuses(&odd, [9, 9, 4, 4]);
    refuses(&bad, [11, 11, 4, 4]);
    refuses(&short, [12, 12, 4, 4]);
    refuses(&full, [12, 12, 4, 4]);
    refuses(&room, [0, 20, 4, 4]);
}

/// What 1444.11.11 of D gets there with each mark from 0 on. A refusal changes no byte, and 0 is the second
/// place.
fn refuses(book: &[u8], numbers: [u8; 4]) {
    for (mark, number) in (0..).zip(numbers) {
        let mut buffer = book.to_vec();
        match append(&mut buffer, mark) {
            Ok(place) => assert!(number == 0 && place == 1),
            Err(Refusal::Record(place)) => assert!(number == 11 && place == 0),
            Err(Refusal::FieldOrMark(_)) => panic!("21 is of moves alone"),
            Err(Refusal::Number(refusal)) => assert_eq!(refusal, number),
        }
        assert!(number == 0 || buffer == book);
    }
}

fn append(buffer: &mut [u8], mark: u16) -> Result<usize, Refusal> {
    let record = Record {
        kind: Kind::D,
        year: YEAR,
        word: NO_HOUR + mark,
    };
    book::append(buffer, record)
}

/// A book of so many records, all D 1444.11.11, and so many bytes after it.
fn book_of(records: usize, after: usize) -> Vec<u8> {
    let mut buffer = vec![0xFF; HEAD + records * RECORD];
    assert!(book::new(&mut buffer).is_ok());
    for place in 0..records {
        let start = HEAD + place * RECORD;
        buffer[start..start + RECORD].copy_from_slice(&[2, 0x05, 0xA4, 0xB5, 0x80]);
    }
    let length = (1 + records * RECORD) as u32;
    buffer[..4].copy_from_slice(&length.to_be_bytes());
    buffer.extend(vec![0xFF; after]);
    buffer
}

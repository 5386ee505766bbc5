//! "The book" of document 01: four operations over a buffer; and what request #106 of document 02 says of
//! marks in one.

use crate::kinds::{KINDS, Kind};
use crate::marks::{self, Mark, Marked};

/// "At most 4,096 records."
pub const MOST_RECORDS: usize = 4096;

/// Refusal 9: a length "over 20,481".
const GREATEST_LENGTH: usize = 20_481;

const VERSION: u8 = 1;

/// The bytes of an empty book: four of length and the version.
const HEAD: usize = 5;

const RECORD: usize = 5;

pub enum Refusal {
    Number(u8),
    /// 11 and the place of the first record "that no date of its kind has".
    Record(usize),
    /// Request #107's 21 and the place of the first "record with a field number or a mark".
    FieldOrMark(usize),
}

pub const fn refused<T>(number: u8) -> Result<T, Refusal> {
    Err(Refusal::Number(number))
}

/// `refused` and its number, and the place where it has one.
pub fn told_refusal(refusal: Refusal) -> String {
    match refusal {
        Refusal::Number(number) => format!("refused {number}"),
        Refusal::Record(place) => format!("refused 11 {place}"),
        Refusal::FieldOrMark(place) => format!("refused 21 {place}"),
    }
}

/// A kind and a date as it is handed in or recorded: a year and a packed word, of a date or not, with its
/// mark.
#[derive(Clone, Copy, PartialEq, Eq)]
pub struct Record {
    pub kind: Kind,
    pub year: i16,
    pub word: u16,
}

impl Record {
    pub fn handed_in(self) -> Option<Marked> {
        marks::handed_in(self.kind, self.year, self.word)
    }

    /// "11 for any mark in one": a record has the mark 0.
    fn is_recorded(self) -> bool {
        self.handed_in().is_some() && self.word % 4 == 0
    }

    /// "records of five bytes": kind, "year (two's complement, big-endian), packed word
    /// (big-endian)".
    fn bytes(self) -> [u8; RECORD] {
        let [year_high, year_low] = self.year.to_be_bytes();
        let [word_high, word_low] = self.word.to_be_bytes();
        let kind = number_of(self.kind);
        [kind, year_high, year_low, word_high, word_low]
    }

    /// The record with these bytes, unless it is one "that no date of its kind has (E hour 23 too,
    /// or an unknown kind)".
    fn from_bytes(bytes: &[u8]) -> Option<Record> {
        let record = Record {
            kind: kind_of(bytes[0].into())?,
            year: i16::from_be_bytes([bytes[1], bytes[2]]),
            word: u16::from_be_bytes([bytes[3], bytes[4]]),
        };
        record.is_recorded().then_some(record)
    }
}

/// "kind (R 1, D 2, H 3, U 4, E 5, V 6)".
pub fn number_of(kind: Kind) -> u8 {
    match kind {
        Kind::R => 1,
        Kind::D => 2,
        Kind::H => 3,
        Kind::U => 4,
        Kind::E => 5,
        Kind::V => 6,
    }
}

pub fn kind_of(number: u32) -> Option<Kind> {
    let is_it = |&kind: &Kind| u32::from(number_of(kind)) == number;
    KINDS.into_iter().find(is_it)
}

/// Where the record at a place starts; for the number of records, where the book ends.
fn start(place: usize) -> usize {
    HEAD + place * RECORD
}

/// The bytes of a book of so many records.
pub fn room(records: usize) -> usize {
    start(records)
}

/// "new (writes an empty book)"; 12 for "new: under 5 bytes".
pub fn new(buffer: &mut [u8]) -> Result<(), Refusal> {
    if buffer.len() < HEAD {
        return refused(12);
    }
    write_head(buffer, 0);
    Ok(())
}

/// "Four bytes of length (big-endian, counting what follows), version byte 1".
fn write_head(buffer: &mut [u8], records: usize) {
    let length = 1 + records * RECORD;
    let length = u32::try_from(length).expect("a book's length fits its four bytes");
    buffer[..4].copy_from_slice(&length.to_be_bytes());
    buffer[4] = VERSION;
}

/// "check (gives the number of records)". The order is "for books 9 but for its last case, 10,
/// that case, 11".
pub fn check(buffer: &[u8]) -> Result<usize, Refusal> {
    let &[first, second, third, fourth, version, ..] = buffer else {
        return refused(9);
    };
    let length = u32::from_be_bytes([first, second, third, fourth]) as usize;
    if length == 0 || length > GREATEST_LENGTH || length + 4 > buffer.len() {
        return refused(9);
    }
    if version != VERSION {
        return refused(10);
    }
    if (length - 1) % RECORD != 0 {
        return refused(9);
    }
    let records = (length - 1) / RECORD;
    let is_bad = |&place: &usize| record_at(buffer, place).is_none();
    match (0..records).find(is_bad) {
        Some(place) => Err(Refusal::Record(place)),
        None => Ok(records),
    }
}

fn record_at(buffer: &[u8], place: usize) -> Option<Record> {
    Record::from_bytes(&buffer[start(place)..start(place + 1)])
}

/// Every record, in its order.
pub fn records(buffer: &[u8]) -> Result<Vec<Record>, Refusal> {
    let count = check(buffer)?;
    let read: Option<Vec<Record>> = (0..count).map(|place| record_at(buffer, place)).collect();
    Ok(read.expect("a checked book's records are dates"))
}

/// The book of these records, in a buffer with room for it; "later bytes are not of it".
pub fn write(buffer: &mut [u8], records: &[Record]) {
    write_head(buffer, records.len());
    for (place, record) in records.iter().enumerate() {
        buffer[start(place)..start(place + 1)].copy_from_slice(&record.bytes());
    }
}

/// "record at a place from 0 (gives its kind and date)". The order is "11, then 12 or 13", so the
/// whole book is checked first.
pub fn record(buffer: &[u8], place: usize) -> Result<Record, Refusal> {
    let records = check(buffer)?;
    if place >= records {
        return refused(13);
    }
    Ok(record_at(buffer, place).expect("a checked book's records are dates"))
}

/// "append (gives the new record's place)"; 12 for "append: 4,096 records already, or under 5
/// bytes after the book". "Order: 4 first". "20 when a guessed date is appended to a version 1 book, after
/// 12".
pub fn append(buffer: &mut [u8], record: Record) -> Result<usize, Refusal> {
    let Some(date) = record.handed_in() else {
        return refused(4);
    };
    let place = check(buffer)?;
    let after_book = buffer.len() - start(place);
    if place == MOST_RECORDS || after_book < RECORD {
        return refused(12);
    }
    if date.mark == Mark::Guessed {
        return refused(20);
    }
    buffer[start(place)..start(place + 1)].copy_from_slice(&record.bytes());
    write_head(buffer, place + 1);
    Ok(place)
}

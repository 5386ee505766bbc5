//! The book of version 2, by "#107 Book version 2 and back" of document 02. What the request does not say of it
//! is as "The book" of document 01 says. The whole book is read, and the whole book is written.

use crate::book::{self, MOST_RECORDS, Record, Refusal, refused};
use crate::marks::Mark;

/// "for version 2, 9 counts sevens up to 28,673".
const GREATEST_LENGTH: usize = 28_673;

pub const VERSION: u8 = 2;

/// The bytes of an empty book: four of length and the version.
const HEAD: usize = 5;

/// "Version byte 2 has records of seven bytes".
const RECORD: usize = 7;

/// A record, and the number of the field "a date came from", "0 for none".
#[derive(Clone, Copy, PartialEq, Eq)]
pub struct FieldRecord {
    pub record: Record,
    pub field: u16,
}

impl FieldRecord {
    /// What is handed in by the code of a kind, a field's number and a date, which is its year above its packed
    /// word. None is 4: a code that is no kind's, "a field over 65,535", "a date handed in (E hour 23 too), not
    /// of the kind", "4 also for marks 2 and 3". Any field goes with any kind.
    pub fn handed_in(code: u32, field: u32, date: u32) -> Option<FieldRecord> {
        let record = Record {
            kind: book::kind_of(code)?,
            year: (date >> 16) as u16 as i16,
            word: date as u16,
        };
        let field = u16::try_from(field).ok()?;
        record.handed_in().map(|_| FieldRecord { record, field })
    }

    /// "kind, field number (big-endian, 0 for none), year, packed word with mark".
    fn bytes(self) -> [u8; RECORD] {
        let Record { kind, year, word } = self.record;
        let [field_high, field_low] = self.field.to_be_bytes();
        let [year_high, year_low] = year.to_be_bytes();
        let [word_high, word_low] = word.to_be_bytes();
        let kind = book::number_of(kind);
        [
            kind, field_high, field_low, year_high, year_low, word_high, word_low,
        ]
    }

    /// None is "a record that no date of its kind has (E hour 23 too, or an unknown kind)". Its mark is one that
    /// a date may have: "11 for any mark in one" is said of a version 1 book.
    fn from_bytes(bytes: &[u8]) -> Option<FieldRecord> {
        let &[code, field_high, field_low, ref date @ ..] = bytes else {
            panic!("a record has seven bytes");
        };
        let field = u16::from_be_bytes([field_high, field_low]);
        let date = date.iter().fold(0, |high, &low| high << 8 | u32::from(low));
        FieldRecord::handed_in(code.into(), field.into(), date)
    }

    /// Whether it has "a field number or a mark", which version 1 has no place for.
    pub fn has_field_or_mark(self) -> bool {
        self.field != 0 || Mark::from_word(self.record.word) == Some(Mark::Guessed)
    }
}

/// The bytes of a book of so many records.
pub fn room(records: usize) -> usize {
    HEAD + records * RECORD
}

/// Every record, in its order. "for books 9 but for its last case, 10, that case, 11".
pub fn records(buffer: &[u8]) -> Result<Vec<FieldRecord>, Refusal> {
    let Some((head, after_head)) = buffer.split_at_checked(HEAD) else {
        return refused(9);
    };
    let (length, version) = head.split_at(4);
    let length = length
        .iter()
        .fold(0, |high, &low| high << 8 | usize::from(low));
    if length == 0 || length > GREATEST_LENGTH || length - 1 > after_head.len() {
        return refused(9);
    }
    if version != [VERSION] {
        return refused(10);
    }
    let sevens = after_head[..length - 1].chunks_exact(RECORD);
    if !sevens.remainder().is_empty() {
        return refused(9);
    }
    let read = |(place, bytes)| FieldRecord::from_bytes(bytes).ok_or(Refusal::Record(place));
    sevens.enumerate().map(read).collect()
}

/// The book of these records, in a buffer with room for it; "later bytes are not of it".
pub fn write(buffer: &mut [u8], records: &[FieldRecord]) {
    let sevens: Vec<u8> = records.iter().flat_map(|record| record.bytes()).collect();
    let length = u32::try_from(1 + sevens.len()).expect("a book's length fits its four bytes");
    let book = [&length.to_be_bytes()[..], &[VERSION], &sevens].concat();
    buffer[..book.len()].copy_from_slice(&book);
}

/// "new (writes an empty book)"; 12 for "new: under 5 bytes".
pub fn new(buffer: &mut [u8]) -> Result<(), Refusal> {
    if buffer.len() < HEAD {
        return refused(12);
    }
    write(buffer, &[]);
    Ok(())
}

/// "check (gives the number of records)".
pub fn check(buffer: &[u8]) -> Result<usize, Refusal> {
    records(buffer).map(|records| records.len())
}

/// "record at a place from 0 (gives its kind and date)"; 13 for "no record at that place".
pub fn record(buffer: &[u8], place: usize) -> Result<FieldRecord, Refusal> {
    let records = records(buffer)?;
    records.get(place).copied().ok_or(Refusal::Number(13))
}

/// "append (gives the new record's place)". "Order: 4 first". 12 for "4,096 records already", and "append's 12
/// needs seven bytes". 20 is said of a version 1 book alone.
pub fn append(buffer: &mut [u8], code: u32, field: u32, date: u32) -> Result<usize, Refusal> {
    let Some(record) = FieldRecord::handed_in(code, field, date) else {
        return refused(4);
    };
    let mut records = records(buffer)?;
    let place = records.len();
    if place == MOST_RECORDS || buffer.len() < room(place + 1) {
        return refused(12);
    }
    records.push(record);
    write(buffer, &records);
    Ok(place)
}

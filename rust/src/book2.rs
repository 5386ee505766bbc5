//! Books of version 2: dates of all kinds in one buffer, each with the field that it came from. Not in jomini.
//!
//! Four bytes of length, a version, records of seven bytes; at most 4,096 of them. A book fills the first bytes of its
//! buffer, and an append uses the seven after it. A refusal changes no byte.
//!
//! A date keeps its mark, so that a book tells which of its dates were guessed:
//!
//! ```
//! use pennyquill::{Date, Refusal, UniformDate, book2};
//! let mut buffer = [0; book2::ROOM];
//! book2::new(&mut buffer)?;
//! let guessed = Date::from_binary_heuristic(56_456_976)?;
//! assert_eq!(book2::append(&mut buffer, 500, &guessed)?, 0);
//! assert_eq!(book2::append(&mut buffer, 0, &UniformDate::parse("2200.02.30")?)?, 1); // of no field
//! assert_eq!(buffer[..12], [0, 0, 0, 15, 2, 2, 0x01, 0xF4, 0x05, 0xA4, 0xB5, 0x81]);
//! assert_eq!(book2::check(&buffer)?, 2);
//!
//! let entry = book2::record(&buffer, 0)?;
//! assert_eq!((entry.field, entry.date), (500, book2::Record::D(guessed)));
//! assert!(entry.date.is_guessed());
//! # Ok::<(), Refusal>(())
//! ```
//!
//! [`any_book`](crate::any_book) reads books of both versions, and moves them from one to the other.

use crate::PdsDate;
use crate::bits::given;
pub use crate::book::Record;
use crate::ffi;
use crate::refusal::Refusal;

/// The bytes of a book of 4,096 records, which is the longest.
pub const ROOM: usize = 28_677;

/// The bytes of a book of so many records: the room that [`Book::to_2`](crate::any_book::Book::to_2) needs.
///
/// ```
/// use pennyquill::book2;
/// assert_eq!(book2::room(1), 12);
/// assert_eq!(book2::room(4096), book2::ROOM);
/// ```
pub const fn room(records: usize) -> usize {
    5 + 7 * records
}

/// A record of a book: a date of any kind, and the field that it came from. As with dates, two that differ in the mark
/// alone are equal.
#[derive(Clone, Copy, Debug, PartialEq, Eq, Hash)]
pub struct Entry {
    /// The field's number, or 0 for none.
    pub field: u16,
    /// The date, with its mark.
    pub date: Record,
}

impl Entry {
    pub(crate) fn told(found: ffi::Record) -> Result<Entry, Refusal> {
        if found.refusal != 0 {
            return Err(Refusal::told(found.refusal, found.value));
        }
        let field = u16::try_from(found.field).expect("a record's field has sixteen bits");
        let date = Record::from_bits(found.kind, found.value)?;
        Ok(Entry { field, date })
    }
}

/// Writes an empty book into the first five bytes of a buffer. Refusal 12 where there are fewer.
///
/// ```
/// use pennyquill::{Refusal, book2};
/// let mut buffer = [7; 6];
/// book2::new(&mut buffer)?;
/// assert_eq!(buffer, [0, 0, 0, 1, 2, 7]);
/// assert_eq!(book2::new(&mut buffer[..4]), Err(Refusal::NoRoom));
/// # Ok::<(), Refusal>(())
/// ```
pub fn new(buffer: &mut [u8]) -> Result<(), Refusal> {
    // SAFETY: the pointer and the length are those of a slice that is ours alone.
    given(unsafe { ffi::pq_book2_new(buffer.as_mut_ptr(), buffer.len()) }).map(|_| ())
}

/// The number of records of a book. Refusals 9, 10 and 11 where the bytes are not a book's of version 2.
///
/// ```
/// use pennyquill::{Refusal, book2};
/// let mut bytes = [0, 0, 0, 8, 2, 2, 0x01, 0xF4, 0x05, 0xA4, 0xB5, 0x81];
/// assert_eq!(book2::check(&bytes), Ok(1));
/// assert_eq!(book2::check(&bytes[..11]), Err(Refusal::NotBook));
/// bytes[11] = 0x82; // no date has the mark 2
/// assert_eq!(book2::check(&bytes), Err(Refusal::BadRecord(0)));
/// bytes[4] = 1;
/// assert_eq!(book2::check(&bytes), Err(Refusal::WrongVersion));
/// ```
pub fn check(book: &[u8]) -> Result<usize, Refusal> {
    // SAFETY: the pointer and the length are those of a slice.
    let answer = unsafe { ffi::pq_book2_check(book.as_ptr(), book.len()) };
    given(answer).map(|records| records as usize)
}

/// The record at a place, from 0. Refusals as those of [`check`], then 13 where there is none.
///
/// It checks the whole book each time. For many records there is [`Book::records`](crate::any_book::Book::records).
///
/// ```
/// use pennyquill::book2::{self, Entry, Record};
/// use pennyquill::{Date, Refusal};
/// let bytes = [0, 0, 0, 8, 2, 2, 0x01, 0xF4, 0x05, 0xA4, 0xB5, 0x81];
/// let date = Record::D(Date::parse("1444.11.11")?);
/// assert_eq!(book2::record(&bytes, 0)?, Entry { field: 500, date });
/// assert!(book2::record(&bytes, 0)?.date.is_guessed());
/// assert_eq!(book2::record(&bytes, 1), Err(Refusal::NoRecord));
/// # Ok::<(), Refusal>(())
/// ```
pub fn record(book: &[u8], place: usize) -> Result<Entry, Refusal> {
    // SAFETY: the pointer and the length are those of a slice.
    Entry::told(unsafe { ffi::pq_book2_record(book.as_ptr(), book.len(), place) })
}

/// Appends a date with the field that it came from, 0 for none, and gives its place. Refusals as those of [`check`],
/// then 12 where the book has 4,096 records or there are under seven bytes after it. A guessed date is taken as it is.
///
/// ```
/// use pennyquill::{Date, Refusal, book2};
/// let mut buffer = [0; 18];
/// book2::new(&mut buffer)?;
/// let date = Date::parse("1444.11.11")?;
/// assert_eq!(book2::append(&mut buffer, 65_535, &date)?, 0);
/// assert_eq!(buffer[..12], [0, 0, 0, 8, 2, 2, 0xFF, 0xFF, 0x05, 0xA4, 0xB5, 0x80]);
/// assert_eq!(book2::append(&mut buffer, 500, &date), Err(Refusal::NoRoom)); // six bytes are left
/// # Ok::<(), Refusal>(())
/// ```
pub fn append<K: PdsDate>(book: &mut [u8], field: u16, date: &K) -> Result<usize, Refusal> {
    append_bits(book, field, K::KIND, date.bits())
}

/// Appends a record of any kind likewise: one of another book, or what a [lookup](crate::field_table::lookup) gives.
///
/// ```
/// use pennyquill::book2::{self, Entry};
/// use pennyquill::field_table::{self, GameKind, Looked};
/// use pennyquill::Refusal;
/// let table = [0, 0, 0, 4, 1, 0x01, 0xF4, 2]; // field 500 is declared as D
/// let mut book = [0; book2::room(2)];
/// book2::new(&mut book)?;
/// for field in [500, 501] {
///     let looked = field_table::lookup(&table, field.into(), GameKind::D, 56_456_976)?;
///     let (Looked::Declared(date) | Looked::Guessed(date)) = looked;
///     book2::append_entry(&mut book, &Entry { field, date })?;
/// }
/// assert!(!book2::record(&book, 0)?.date.is_guessed());
/// assert!(book2::record(&book, 1)?.date.is_guessed());
/// # Ok::<(), Refusal>(())
/// ```
pub fn append_entry(book: &mut [u8], entry: &Entry) -> Result<usize, Refusal> {
    let (kind, bits) = entry.date.kind_and_bits();
    append_bits(book, entry.field, kind, bits)
}

fn append_bits(book: &mut [u8], field: u16, kind: u32, bits: u32) -> Result<usize, Refusal> {
    let (start, length) = (book.as_mut_ptr(), book.len());
    // SAFETY: the pointer and the length are those of a slice that is ours alone.
    let answer = unsafe { ffi::pq_book2_append(start, length, kind, field.into(), bits) };
    given(answer).map(|place| place as usize)
}

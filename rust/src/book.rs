//! Books of version 1: dates of all kinds in one buffer. Not in jomini.
//!
//! Four bytes of length, a version, records of five bytes; at most 4,096 of them. A book fills the first bytes of its
//! buffer, and an append uses the five after it. A refusal changes no byte.
//!
//! [`book2`](crate::book2) has version 2, which also keeps the field that a date came from and takes guessed dates;
//! [`any_book`](crate::any_book) reads either, goes through many records over one check, and moves books from one
//! version to the other.
//!
//! ```
//! use pennyquill::{Date, Refusal, Vic3Date, book};
//! let mut buffer = [0; book::ROOM];
//! book::new(&mut buffer)?;
//! let date = Date::parse("1444.11.11")?;
//! assert_eq!(book::append(&mut buffer, &date)?, 0);
//! assert_eq!(book::append(&mut buffer, &Vic3Date::parse("1836.2.3.6")?)?, 1);
//! assert_eq!(book::check(&buffer)?, 2);
//! assert_eq!(book::record(&buffer, 0)?, book::Record::D(date));
//! assert_eq!(book::record(&buffer, 2), Err(Refusal::NoRecord));
//! # Ok::<(), Refusal>(())
//! ```

use crate::bits::given;
use crate::ffi;
use crate::refusal::Refusal;
use crate::{Date, DateHour, Eu5Date, PdsDate, RawDate, UniformDate, Vic3Date};

/// The bytes of a book of 4,096 records, which is the longest.
pub const ROOM: usize = 20_485;

/// The bytes of a book of so many records: the room that [`Book::to_1`](crate::any_book::Book::to_1) needs.
///
/// ```
/// use pennyquill::book;
/// assert_eq!(book::room(1), 10);
/// assert_eq!(book::room(4096), book::ROOM);
/// ```
pub const fn room(records: usize) -> usize {
    5 + 5 * records
}

/// A date of any kind, as a book has it, or as a [lookup](crate::field_table::lookup) gives it. One that a book of
/// version 1 has is never marked as guessed.
#[derive(Clone, Copy, Debug, PartialEq, Eq, Hash)]
pub enum Record {
    /// Kind R.
    R(RawDate),
    /// Kind D.
    D(Date),
    /// Kind H.
    H(DateHour),
    /// Kind U.
    U(UniformDate),
    /// Kind E.
    E(Eu5Date),
    /// Kind V.
    V(Vic3Date),
}

impl Record {
    /// Whether the date was guessed, as its own [`is_guessed`](PdsDate::is_guessed) tells.
    ///
    /// ```
    /// use pennyquill::{Date, book::Record};
    /// assert!(Record::D(Date::from_binary_heuristic(56_456_976)?).is_guessed());
    /// assert!(!Record::D(Date::from_binary(56_456_976)?).is_guessed());
    /// # Ok::<(), pennyquill::Refusal>(())
    /// ```
    pub fn is_guessed(&self) -> bool {
        match self {
            Record::R(date) => date.is_guessed(),
            Record::D(date) => date.is_guessed(),
            Record::H(date) => date.is_guessed(),
            Record::U(date) => date.is_guessed(),
            Record::E(date) => date.is_guessed(),
            Record::V(date) => date.is_guessed(),
        }
    }

    pub(crate) fn kind_and_bits(&self) -> (u32, u32) {
        match self {
            Record::R(date) => (RawDate::KIND, date.bits()),
            Record::D(date) => (Date::KIND, date.bits()),
            Record::H(date) => (DateHour::KIND, date.bits()),
            Record::U(date) => (UniformDate::KIND, date.bits()),
            Record::E(date) => (Eu5Date::KIND, date.bits()),
            Record::V(date) => (Vic3Date::KIND, date.bits()),
        }
    }

    pub(crate) fn from_bits(kind: u32, bits: u32) -> Result<Record, Refusal> {
        match kind {
            RawDate::KIND => RawDate::from_bits(bits).map(Record::R),
            Date::KIND => Date::from_bits(bits).map(Record::D),
            DateHour::KIND => DateHour::from_bits(bits).map(Record::H),
            UniformDate::KIND => UniformDate::from_bits(bits).map(Record::U),
            Eu5Date::KIND => Eu5Date::from_bits(bits).map(Record::E),
            Vic3Date::KIND => Vic3Date::from_bits(bits).map(Record::V),
            _ => unreachable!("the boundary gives no kind {kind}"),
        }
    }
}

/// Writes an empty book into the first five bytes of a buffer. Refusal 12 where there are fewer.
///
/// ```
/// use pennyquill::{Refusal, book};
/// let mut buffer = [7; 6];
/// book::new(&mut buffer)?;
/// assert_eq!(buffer, [0, 0, 0, 1, 1, 7]);
/// assert_eq!(book::new(&mut buffer[..4]), Err(Refusal::NoRoom));
/// # Ok::<(), Refusal>(())
/// ```
pub fn new(buffer: &mut [u8]) -> Result<(), Refusal> {
    // SAFETY: the pointer and the length are those of a slice that is ours alone.
    given(unsafe { ffi::pq_book_new(buffer.as_mut_ptr(), buffer.len()) }).map(|_| ())
}

/// The number of records of a book. Refusals 9, 10 and 11 where the bytes are not a book's.
///
/// ```
/// use pennyquill::{Refusal, book};
/// let mut bytes = [0, 0, 0, 6, 1, 2, 0x05, 0xA4, 0xB5, 0x80];
/// assert_eq!(book::check(&bytes), Ok(1));
/// assert_eq!(book::check(&bytes[..9]), Err(Refusal::NotBook));
/// bytes[5] = 7;
/// assert_eq!(book::check(&bytes), Err(Refusal::BadRecord(0)));
/// bytes[4] = 2;
/// assert_eq!(book::check(&bytes), Err(Refusal::WrongVersion));
/// ```
pub fn check(book: &[u8]) -> Result<usize, Refusal> {
    // SAFETY: the pointer and the length are those of a slice.
    let answer = unsafe { ffi::pq_book_check(book.as_ptr(), book.len()) };
    given(answer).map(|records| records as usize)
}

/// The record at a place, from 0. Refusals as those of [`check`], then 13 where there is none.
///
/// It checks the whole book each time. For many records there is [`Book::records`](crate::any_book::Book::records).
///
/// ```
/// use pennyquill::{Date, Refusal, book};
/// let bytes = [0, 0, 0, 6, 1, 2, 0x05, 0xA4, 0xB5, 0x80];
/// assert_eq!(book::record(&bytes, 0)?, book::Record::D(Date::parse("1444.11.11")?));
/// assert_eq!(book::record(&bytes, 1), Err(Refusal::NoRecord));
/// # Ok::<(), Refusal>(())
/// ```
pub fn record(book: &[u8], place: usize) -> Result<Record, Refusal> {
    // SAFETY: the pointer and the length are those of a slice.
    let found = unsafe { ffi::pq_book_record(book.as_ptr(), book.len(), place) };
    match found.refusal {
        0 => Record::from_bits(found.kind, found.value),
        number => Err(Refusal::told(number, found.value)),
    }
}

/// Appends a date and gives its place. Refusals as those of [`check`], then 12 where the book has 4,096 records or
/// there are under five bytes after it, then 20 where the date was guessed: the book cannot tell that it was. A book of
/// version 2 can ([`book2::append`](crate::book2::append)); who wants the date here all the same appends it
/// [without its mark](PdsDate::without_mark).
///
/// ```
/// use pennyquill::{Date, Refusal, book};
/// let mut buffer = [0; 14];
/// book::new(&mut buffer)?;
/// let date = Date::parse("1444.11.11")?;
/// assert_eq!(book::append(&mut buffer, &date)?, 0);
/// assert_eq!(buffer[..10], [0, 0, 0, 6, 1, 2, 0x05, 0xA4, 0xB5, 0x80]);
/// assert_eq!(book::append(&mut buffer, &date), Err(Refusal::NoRoom));
/// # Ok::<(), Refusal>(())
/// ```
///
/// ```
/// use pennyquill::{Date, PdsDate, Refusal, book};
/// let mut buffer = [0; 10];
/// book::new(&mut buffer)?;
/// let guessed = Date::from_binary_heuristic(56_456_976)?;
/// assert_eq!(book::append(&mut buffer, &guessed), Err(Refusal::GuessedDate));
/// assert_eq!(book::append(&mut buffer, &guessed.without_mark())?, 0);
/// assert_eq!(book::append(&mut buffer, &guessed), Err(Refusal::NoRoom));
///
/// // A record with a mark is none of a book of version 1.
/// buffer[9] |= 1;
/// assert_eq!(book::check(&buffer), Err(Refusal::BadRecord(0)));
/// # Ok::<(), Refusal>(())
/// ```
pub fn append<K: PdsDate>(book: &mut [u8], date: &K) -> Result<usize, Refusal> {
    let (kind, bits) = (K::KIND, date.bits());
    // SAFETY: the pointer and the length are those of a slice that is ours alone.
    let answer = unsafe { ffi::pq_book_append(book.as_mut_ptr(), book.len(), kind, bits) };
    given(answer).map(|place| place as usize)
}

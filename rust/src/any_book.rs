//! Books of either version, read: a book that knows its version, a walk over its records, and moves from one version to
//! the other. Not in jomini.
//!
//! ```
//! use pennyquill::any_book::{Book, Version};
//! use pennyquill::{Date, Refusal, book};
//! let mut kept = [0; book::ROOM];
//! book::new(&mut kept)?;
//! book::append(&mut kept, &Date::parse("1444.11.11")?)?;
//! book::append(&mut kept, &Date::parse("1805.1.3")?)?;
//!
//! let book = Book::open(&kept)?;
//! assert_eq!((book.version(), book.len()), (Version::One, 2));
//! for entry in book.records() {
//!     assert_eq!(entry.field, 0); // version 1 keeps no fields
//! }
//! # Ok::<(), Refusal>(())
//! ```
//!
//! Books are written by [`book`] and [`book2`]; what their dates span is told by [`gaps`](crate::gaps).

use crate::bits::given;
use crate::book2::Entry;
use crate::ffi;
use crate::refusal::Refusal;
use crate::{book, book2};
use std::iter::FusedIterator;
use std::vec;

/// The version of a book.
#[derive(Clone, Copy, Debug, PartialEq, Eq, PartialOrd, Ord, Hash)]
pub enum Version {
    /// Records of five bytes: dates that nobody guessed, of all kinds.
    One,
    /// Records of seven bytes: dates with their marks, and the fields that they came from.
    Two,
}

impl Version {
    /// The bytes of a book of this version with so many records.
    fn room(self, records: usize) -> usize {
        match self {
            Version::One => book::room(records),
            Version::Two => book2::room(records),
        }
    }
}

/// A book of either version that stands at the front of some bytes. They are lent and stay as they are, so that it is
/// checked once, when it is opened.
#[derive(Clone, Copy, Debug)]
pub struct Book<'a> {
    bytes: &'a [u8],
    version: Version,
    records: usize,
}

/// The signature that the two moves of the boundary share.
type Mover = unsafe extern "C" fn(*const u8, usize, *mut u8, usize) -> ffi::Answer;

impl<'a> Book<'a> {
    /// The book that stands at the front of some bytes. Refusals as those of [`book2::check`] where the fifth byte is 2,
    /// else as those of [`book::check`].
    ///
    /// ```
    /// use pennyquill::Refusal;
    /// use pennyquill::any_book::Book;
    /// let mut bytes = [0, 0, 0, 8, 2, 2, 0x01, 0xF4, 0x05, 0xA4, 0xB5, 0x81, 7, 7];
    /// assert_eq!(Book::open(&bytes)?.len(), 1);
    /// assert_eq!(Book::open(&bytes[..11]).err(), Some(Refusal::NotBook));
    /// bytes[5] = 7; // no kind
    /// assert_eq!(Book::open(&bytes).err(), Some(Refusal::BadRecord(0)));
    /// bytes[4] = 3;
    /// assert_eq!(Book::open(&bytes).err(), Some(Refusal::WrongVersion));
    /// # Ok::<(), Refusal>(())
    /// ```
    pub fn open(bytes: &'a [u8]) -> Result<Book<'a>, Refusal> {
        // SAFETY: the pointer and the length are those of a slice.
        let records = given(unsafe { ffi::pq_any_book_check(bytes.as_ptr(), bytes.len()) })?;
        let version = if bytes[4] == 2 {
            Version::Two
        } else {
            Version::One
        };
        Ok(Book {
            bytes,
            version,
            records: records as usize,
        })
    }

    /// The version.
    ///
    /// ```
    /// use pennyquill::any_book::{Book, Version};
    /// assert_eq!(Book::open(&[0, 0, 0, 1, 1])?.version(), Version::One);
    /// assert_eq!(Book::open(&[0, 0, 0, 1, 2])?.version(), Version::Two);
    /// # Ok::<(), pennyquill::Refusal>(())
    /// ```
    pub fn version(&self) -> Version {
        self.version
    }

    /// The number of records.
    ///
    /// ```
    /// use pennyquill::any_book::Book;
    /// let bytes = [0, 0, 0, 6, 1, 2, 0x05, 0xA4, 0xB5, 0x80];
    /// assert_eq!(Book::open(&bytes)?.len(), 1);
    /// # Ok::<(), pennyquill::Refusal>(())
    /// ```
    pub fn len(&self) -> usize {
        self.records
    }

    /// Whether there is no record.
    ///
    /// ```
    /// use pennyquill::any_book::Book;
    /// assert!(Book::open(&[0, 0, 0, 1, 2])?.is_empty());
    /// assert!(!Book::open(&[0, 0, 0, 6, 1, 2, 0x05, 0xA4, 0xB5, 0x80])?.is_empty());
    /// # Ok::<(), pennyquill::Refusal>(())
    /// ```
    pub fn is_empty(&self) -> bool {
        self.records == 0
    }

    /// The bytes of the book, as they are to be stored: without the ones after it.
    ///
    /// ```
    /// use pennyquill::any_book::Book;
    /// assert_eq!(Book::open(&[0, 0, 0, 1, 2, 7, 7, 7])?.as_bytes(), [0, 0, 0, 1, 2]);
    /// # Ok::<(), pennyquill::Refusal>(())
    /// ```
    pub fn as_bytes(&self) -> &'a [u8] {
        &self.bytes[..self.version.room(self.records)]
    }

    /// The record at a place, from 0. Refusal 13 where there is none. A record of version 1 has the field 0.
    ///
    /// The library checks the whole book each time. For many records there is [`records`](Book::records).
    ///
    /// ```
    /// use pennyquill::any_book::Book;
    /// use pennyquill::book2::{Entry, Record};
    /// use pennyquill::{Date, Refusal};
    /// let date = Record::D(Date::parse("1444.11.11")?);
    /// let one = [0, 0, 0, 6, 1, 2, 0x05, 0xA4, 0xB5, 0x80];
    /// assert_eq!(Book::open(&one)?.record(0)?, Entry { field: 0, date });
    /// let two = [0, 0, 0, 8, 2, 2, 0x01, 0xF4, 0x05, 0xA4, 0xB5, 0x81];
    /// assert_eq!(Book::open(&two)?.record(0)?, Entry { field: 500, date });
    /// assert_eq!(Book::open(&two)?.record(1), Err(Refusal::NoRecord));
    /// # Ok::<(), Refusal>(())
    /// ```
    pub fn record(&self, place: usize) -> Result<Entry, Refusal> {
        let (start, length) = (self.bytes.as_ptr(), self.bytes.len());
        // SAFETY: the pointer and the length are those of a slice.
        Entry::told(unsafe { ffi::pq_any_book_record(start, length, place) })
    }

    /// All records, in their order, over one check of the book: the time is that of its length, however many are taken.
    ///
    /// It allocates the answers, sixteen bytes a record; `pq_any_book_records` of [`ffi`] takes room for them, and a
    /// place to start from.
    ///
    /// ```
    /// use pennyquill::any_book::Book;
    /// use pennyquill::{Date, Refusal, book2};
    /// let mut buffer = [0; book2::ROOM];
    /// book2::new(&mut buffer)?;
    /// let start = Date::parse("1444.11.11")?;
    /// for field in 1..=3 {
    ///     book2::append(&mut buffer, field, &start.add_days(field.into())?)?;
    /// }
    /// let records = Book::open(&buffer)?.records();
    /// assert_eq!(records.len(), 3);
    /// let fields: Vec<u16> = records.map(|entry| entry.field).collect();
    /// assert_eq!(fields, [1, 2, 3]);
    ///
    /// let last = Book::open(&buffer)?.records().next_back();
    /// assert_eq!(last, Some(book2::record(&buffer, 2)?));
    /// # Ok::<(), Refusal>(())
    /// ```
    pub fn records(&self) -> Records {
        let empty = ffi::Record {
            refusal: 0,
            kind: 0,
            value: 0,
            field: 0,
        };
        let mut found = vec![empty; self.records];
        let (start, length) = (self.bytes.as_ptr(), self.bytes.len());
        let (out, numbers) = (found.as_mut_ptr().cast(), 4 * found.len());
        // SAFETY: the pointers and the lengths are those of slices, of which the last is ours alone; each of its structs
        // is four numbers of 32 bits.
        let answer = unsafe { ffi::pq_any_book_records(start, length, 0, out, numbers) };
        assert_eq!(given(answer), Ok(self.records as u32), "a checked book");
        Records {
            found: found.into_iter(),
        }
    }

    /// Writes this book, which is of version 1, into the front of a second buffer as one of version 2, and gives that
    /// one. Its records have no field number. Later bytes stay. Refusal 10 where this book is of version 2 already, or 9
    /// where its length is over 20,481, as [`book::check`] has it; then 12 where the buffer has under [`book2::room`] of
    /// the records. A refusal changes no byte.
    ///
    /// ```
    /// use pennyquill::any_book::Book;
    /// use pennyquill::{Refusal, book2};
    /// let one = [0, 0, 0, 6, 1, 2, 0x05, 0xA4, 0xB5, 0x80];
    /// let mut target = [7; book2::room(1) + 1];
    /// let moved = Book::open(&one)?.to_2(&mut target)?;
    /// assert_eq!(moved.as_bytes(), [0, 0, 0, 8, 2, 2, 0, 0, 0x05, 0xA4, 0xB5, 0x80]);
    ///
    /// // And back: the same bytes.
    /// let mut again = [7; 10];
    /// assert_eq!(moved.to_1(&mut again)?.as_bytes(), one);
    ///
    /// assert_eq!(moved.to_2(&mut [7; 100]).err(), Some(Refusal::WrongVersion));
    /// assert_eq!(target[12], 7);
    /// assert_eq!(Book::open(&one)?.to_2(&mut target[..11]).err(), Some(Refusal::NoRoom));
    /// # Ok::<(), Refusal>(())
    /// ```
    pub fn to_2<'t>(&self, target: &'t mut [u8]) -> Result<Book<'t>, Refusal> {
        self.moved(ffi::pq_book_to_2, Version::Two, target)
    }

    /// Writes this book, which is of version 2, into the front of a second buffer as one of version 1, likewise. Refusal
    /// 10 where this book is of version 1 already; then 21 where a record has a field number or a mark, which version 1
    /// cannot keep, with the place of the first one; then 12 where the buffer has under [`book::room`] of the records.
    ///
    /// ```
    /// use pennyquill::any_book::Book;
    /// use pennyquill::{Date, PdsDate, Refusal, book, book2};
    /// let mut kept = [0; book2::room(2)];
    /// book2::new(&mut kept)?;
    /// let guessed = Date::from_binary_heuristic(56_456_976)?;
    /// book2::append(&mut kept, 0, &guessed.without_mark())?;
    /// let mut target = [7; book::room(2)];
    /// let moved = Book::open(&kept)?.to_1(&mut target)?;
    /// assert_eq!(moved.as_bytes(), [0, 0, 0, 6, 1, 2, 0x05, 0xA4, 0xB5, 0x80]);
    ///
    /// // The second record is marked; before the room is looked at, too.
    /// book2::append(&mut kept, 0, &guessed)?;
    /// let refusal = Book::open(&kept)?.to_1(&mut []).unwrap_err();
    /// assert_eq!(refusal, Refusal::FieldOrMark(1));
    /// let told = "refused 21: version 1 cannot keep the field number or the mark of the record at place 1";
    /// assert_eq!(refusal.to_string(), told);
    /// # Ok::<(), Refusal>(())
    /// ```
    pub fn to_1<'t>(&self, target: &'t mut [u8]) -> Result<Book<'t>, Refusal> {
        self.moved(ffi::pq_book_to_1, Version::One, target)
    }

    fn moved<'t>(
        &self,
        mover: Mover,
        version: Version,
        target: &'t mut [u8],
    ) -> Result<Book<'t>, Refusal> {
        let (start, length) = (self.bytes.as_ptr(), self.bytes.len());
        // SAFETY: the pointers and the lengths are those of slices, of which the second is ours alone.
        let answer = unsafe { mover(start, length, target.as_mut_ptr(), target.len()) };
        let records = given(answer)? as usize;
        Ok(Book {
            bytes: target,
            version,
            records,
        })
    }
}

/// The records of a book, in their order: what [`Book::records`] gives.
#[derive(Clone, Debug)]
pub struct Records {
    found: vec::IntoIter<ffi::Record>,
}

fn of_checked(found: ffi::Record) -> Entry {
    Entry::told(found).expect("a checked book has dates alone")
}

impl Iterator for Records {
    type Item = Entry;

    fn next(&mut self) -> Option<Entry> {
        self.found.next().map(of_checked)
    }

    fn nth(&mut self, places: usize) -> Option<Entry> {
        self.found.nth(places).map(of_checked)
    }

    fn size_hint(&self) -> (usize, Option<usize>) {
        self.found.size_hint()
    }
}

impl DoubleEndedIterator for Records {
    fn next_back(&mut self) -> Option<Entry> {
        self.found.next_back().map(of_checked)
    }
}

impl ExactSizeIterator for Records {}

impl FusedIterator for Records {}

//! The gap report of a book of either version: of each kind how many records there are, the earliest date and the
//! latest; of D, E and V, which count days, also the longest step from one record to the next, and the sum of all steps.
//! Not in jomini.
//!
//! ```
//! use pennyquill::any_book::Book;
//! use pennyquill::{Date, Eu5Date, Refusal, UniformDate, Vic3Date, book, book2};
//! let mut kept = [0; book::ROOM];
//! book::new(&mut kept)?;
//! book::append(&mut kept, &Vic3Date::parse("1836.2.3.6")?)?;
//! book::append(&mut kept, &Date::parse("1444.11.11")?)?;
//! book::append(&mut kept, &UniformDate::parse("1444.2.30")?)?;
//! book::append(&mut kept, &Date::parse("-1.1.1")?)?;
//! book::append(&mut kept, &Date::parse("1444.11.1")?)?;
//! book::append(&mut kept, &Eu5Date::parse("1444.11.11.3")?)?;
//!
//! let gaps = Book::open(&kept)?.gaps();
//! let told = "R 0\n\
//!             D 3 -1.1.1 1444.11.11 527739 1 -10\n\
//!             H 0\n\
//!             U 1 1444.02.30 1444.02.30\n\
//!             E 1 1444.11.11.3 1444.11.11.3 0 5 0\n\
//!             V 1 1836.2.3.6 1836.2.3.6 0 0 0\n";
//! assert_eq!(gaps.to_string(), told);
//!
//! // The same as values.
//! let plain = gaps.of::<Date>().unwrap();
//! assert_eq!((plain.count, plain.earliest), (3, Date::parse("-1.1.1")?));
//! assert_eq!(plain.steps.unwrap().longest, 527_739);
//!
//! // A book of version 2 is reported likewise; its field numbers and marks are not seen.
//! let mut moved = [0; book2::ROOM];
//! assert_eq!(Book::open(&kept)?.to_2(&mut moved)?.gaps().to_string(), told);
//! # Ok::<(), Refusal>(())
//! ```
//!
//! A line has the kind's letter, the number of records, the earliest date and the latest; of D, E and V then the longest
//! step, its place and the sum. A kind with no record has its letter and 0.

use crate::any_book::Book;
use crate::bits::given;
use crate::book2::Record;
use crate::ffi;
use crate::refusal::Refusal;
use crate::{Date, Eu5Date, PdsDate, Vic3Date};
use std::array;
use std::fmt;
use std::str;

/// The bytes that every report fits in.
pub const ROOM: usize = 306;

/// The kinds, and the numbers that are told of each.
const KINDS: usize = 6;
const COLUMNS: usize = 6;

/// How far one record of a kind is from the next one of that kind, in days, over all of them. Hours are not seen.
///
/// ```
/// use pennyquill::gaps::Steps;
/// use pennyquill::any_book::Book;
/// use pennyquill::{Date, book};
/// let mut kept = [0; book::room(4)];
/// book::new(&mut kept)?;
/// for text in ["1444.1.1", "1444.1.31", "1444.1.1", "1444.1.11"] {
///     book::append(&mut kept, &Date::parse(text)?)?;
/// }
/// // 30 days on, 30 back and 10 on: the first of the longest leads from the record at place 0.
/// let steps = Book::open(&kept)?.gaps().of::<Date>().unwrap().steps;
/// assert_eq!(steps, Some(Steps { longest: 30, place: 0, sum: 10 }));
/// # Ok::<(), pennyquill::Refusal>(())
/// ```
#[derive(Clone, Copy, Debug, PartialEq, Eq, Hash)]
pub struct Steps {
    /// The days of the longest step, there or back. 0 where the kind has one record.
    pub longest: u64,
    /// The place, from 0 and among all records of the book, of the record that the first of the longest steps leads from.
    /// It stands before the other one in the book, and its date may be the later one.
    pub place: usize,
    /// All steps with their signs: the days from the kind's first record to its last.
    pub sum: i64,
}

/// What the report says of a kind that has records.
///
/// ```
/// use pennyquill::gaps::{Gap, Steps};
/// use pennyquill::any_book::Book;
/// use pennyquill::{DateHour, Eu5Date, book};
/// let mut kept = [0; book::room(2)];
/// book::new(&mut kept)?;
/// let (hourly, eu5) = (DateHour::parse("1936.1.1.12")?, Eu5Date::parse("1337.4.1.22")?);
/// book::append(&mut kept, &hourly)?;
/// book::append(&mut kept, &eu5)?;
/// let gaps = Book::open(&kept)?.gaps();
///
/// // One record is the earliest and the latest; E counts days and H does not.
/// let told = Gap { count: 1, earliest: hourly, latest: hourly, steps: None };
/// assert_eq!(gaps.of(), Some(told));
/// let steps = Some(Steps { longest: 0, place: 1, sum: 0 });
/// assert_eq!(gaps.of(), Some(Gap { count: 1, earliest: eu5, latest: eu5, steps }));
/// # Ok::<(), pennyquill::Refusal>(())
/// ```
#[derive(Clone, Copy, Debug, PartialEq, Eq, Hash)]
pub struct Gap<K> {
    /// The number of records.
    pub count: usize,
    /// The earliest date in the order of dates, without a mark.
    pub earliest: K,
    /// The latest date, likewise.
    pub latest: K,
    /// Its steps, if the kind counts days: those of D, E and V.
    pub steps: Option<Steps>,
}

/// The gap report of a book: what [`Book::gaps`] gives. Its text is that of [`report`].
#[derive(Clone, Copy, Debug)]
pub struct Gaps<'a> {
    book: Book<'a>,
    figures: [[i64; COLUMNS]; KINDS],
}

impl<'a> Book<'a> {
    /// The gap report. The time is that of the book's length.
    ///
    /// ```
    /// use pennyquill::any_book::Book;
    /// use pennyquill::{Date, PdsDate, Refusal, book2};
    /// let mut kept = [0; book2::ROOM];
    /// book2::new(&mut kept)?;
    /// let guessed = Date::from_binary_heuristic(56_456_976)?;
    /// book2::append(&mut kept, 500, &guessed)?;
    /// book2::append(&mut kept, 501, &guessed.add_days(20)?)?;
    ///
    /// // The dates of a report have no mark.
    /// let gap = Book::open(&kept)?.gaps().of::<Date>().unwrap();
    /// assert_eq!((gap.earliest, gap.latest), (guessed, guessed.add_days(20)?));
    /// assert!(!gap.earliest.is_guessed() && !gap.latest.is_guessed());
    /// # Ok::<(), Refusal>(())
    /// ```
    pub fn gaps(&self) -> Gaps<'a> {
        let mut figures = [[0; COLUMNS]; KINDS];
        let (book, out) = (self.as_bytes(), figures.as_flattened_mut());
        let (start, numbers) = (out.as_mut_ptr(), out.len());
        // SAFETY: the pointers and the lengths are those of slices, of which the second is ours alone.
        let answer = unsafe { ffi::pq_gap_figures(book.as_ptr(), book.len(), start, numbers) };
        given(answer).expect("a checked book has a report");
        Gaps {
            book: *self,
            figures,
        }
    }
}

impl Gaps<'_> {
    /// What is told of the dates of one kind, or none where it has no record.
    ///
    /// ```
    /// use pennyquill::any_book::Book;
    /// use pennyquill::{Date, Vic3Date};
    /// let gaps = Book::open(&[0, 0, 0, 6, 1, 2, 0x05, 0xA4, 0xB5, 0x80])?.gaps();
    /// assert_eq!(gaps.of::<Date>().unwrap().latest, Date::parse("1444.11.11")?);
    /// assert_eq!(gaps.of::<Vic3Date>(), None);
    /// # Ok::<(), pennyquill::Refusal>(())
    /// ```
    pub fn of<K: PdsDate>(&self) -> Option<Gap<K>> {
        self.told(K::KIND, K::from_bits)
    }

    /// What is told of each kind, in the order of the codes: R, D, H, U, E, V.
    ///
    /// ```
    /// use pennyquill::any_book::Book;
    /// use pennyquill::book2::Record;
    /// use pennyquill::Date;
    /// let gaps = Book::open(&[0, 0, 0, 6, 1, 2, 0x05, 0xA4, 0xB5, 0x80])?.gaps();
    /// let [r, d, h, u, e, v] = gaps.kinds();
    /// assert_eq!(d.unwrap().earliest, Record::D(Date::parse("1444.11.11")?));
    /// assert_eq!([r, h, u, e, v], [None; 5]);
    ///
    /// let empty = Book::open(&[0, 0, 0, 1, 2])?.gaps();
    /// assert_eq!(empty.kinds(), [None; 6]);
    /// # Ok::<(), pennyquill::Refusal>(())
    /// ```
    pub fn kinds(&self) -> [Option<Gap<Record>>; KINDS] {
        array::from_fn(|place| {
            let kind = place as u32 + 1;
            self.told(kind, |bits| Record::from_bits(kind, bits))
        })
    }

    fn told<K>(&self, kind: u32, date: impl Fn(u32) -> Result<K, Refusal>) -> Option<Gap<K>> {
        let row = self.figures.get((kind as usize).checked_sub(1)?)?;
        let &[count, earliest, latest, longest, place, sum] = row;
        if count == 0 {
            return None;
        }
        let date = |bits: i64| date(bits as u32).expect("a report has dates alone");
        let steps = Steps {
            longest: longest as u64,
            place: place as usize,
            sum,
        };
        Some(Gap {
            count: count as usize,
            earliest: date(earliest),
            latest: date(latest),
            steps: counts_days(kind).then_some(steps),
        })
    }
}

/// Whether dates of the kind have differences in days.
fn counts_days(kind: u32) -> bool {
    matches!(kind, Date::KIND | Eu5Date::KIND | Vic3Date::KIND)
}

impl fmt::Display for Gaps<'_> {
    fn fmt(&self, f: &mut fmt::Formatter) -> fmt::Result {
        f.write_str(&report(self.book.as_bytes()).expect("a checked book has a report"))
    }
}

/// The gap report of a book of either version as a text: six lines. Refusals as those of [`Book::open`].
///
/// ```
/// use pennyquill::{Refusal, gaps};
/// let mut bytes = [0, 0, 0, 6, 1, 2, 0x05, 0xA4, 0xB5, 0x80];
/// let one = "R 0\nD 1 1444.11.11 1444.11.11 0 0 0\nH 0\nU 0\nE 0\nV 0\n";
/// assert_eq!(gaps::report(&bytes)?, one);
/// assert_eq!(gaps::report(&[0, 0, 0, 1, 2])?, "R 0\nD 0\nH 0\nU 0\nE 0\nV 0\n");
///
/// assert_eq!(gaps::report(&bytes[..9]), Err(Refusal::NotBook));
/// bytes[9] |= 1; // version 1 takes no mark
/// assert_eq!(gaps::report(&bytes), Err(Refusal::BadRecord(0)));
/// bytes[4] = 3;
/// assert_eq!(gaps::report(&bytes), Err(Refusal::WrongVersion));
/// # Ok::<(), Refusal>(())
/// ```
pub fn report(book: &[u8]) -> Result<String, Refusal> {
    let mut out = [0; ROOM];
    let length = write_report(book, &mut out)?;
    let text = str::from_utf8(&out[..length]).expect("a report is ASCII");
    Ok(text.to_owned())
}

/// Writes the report into the front of a buffer and gives its length in bytes; [`ROOM`] bytes are always enough, and later
/// bytes stay. Refusals as those of [`Book::open`], then 7 where the buffer is too short: then nothing is written.
///
/// ```
/// use pennyquill::{Refusal, gaps};
/// let empty = [0, 0, 0, 1, 1];
/// let mut out = [b'.'; 26];
/// assert_eq!(gaps::write_report(&empty, &mut out[..23]), Err(Refusal::ShortBuffer));
/// assert_eq!(out, [b'.'; 26]);
/// assert_eq!(gaps::write_report(&empty, &mut out)?, 24);
/// assert_eq!(&out, b"R 0\nD 0\nH 0\nU 0\nE 0\nV 0\n..");
/// # Ok::<(), Refusal>(())
/// ```
pub fn write_report(book: &[u8], out: &mut [u8]) -> Result<usize, Refusal> {
    let (start, room) = (out.as_mut_ptr(), out.len());
    // SAFETY: the pointers and the lengths are those of slices, of which the second is ours alone.
    let answer = unsafe { ffi::pq_gap_report(book.as_ptr(), book.len(), start, room) };
    given(answer).map(|length| length as usize)
}

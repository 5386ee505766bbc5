//! Why an operation was refused.

use std::error::Error;
use std::fmt;

/// A refusal of the library, with the number that it has in every language.
///
/// ```
/// use pennyquill::{Date, Refusal};
/// let refusal = Date::parse("1444.2.29").unwrap_err();
/// assert_eq!(refusal, Refusal::NotText);
/// assert_eq!(refusal.number(), 2);
/// assert_eq!(refusal.to_string(), "refused 2: the text is not that of a date of this kind");
/// ```
#[derive(Clone, Copy, Debug, PartialEq, Eq, Hash)]
pub enum Refusal {
    /// 1: a text over 64 bytes.
    TextTooLong,
    /// 2: a text that is no date of the kind.
    NotText,
    /// 3: a number that is no date of the kind, or that the guess does not take for one.
    NotNumber,
    /// 4: fields or bits that are no date of the kind, or a mark that no date has.
    NotOfKind,
    /// 5: a sum of days outside 32 bits.
    SumTooLarge,
    /// 6: a sum of days that is in no year of 16 bits.
    NoSuchDay,
    /// 7: a buffer shorter than the text, the report or the listing. Across the boundary of [`ffi`](crate::ffi) also too
    /// few numbers lent.
    ShortBuffer,
    /// 8: more than 65,535 bytes to be listed. In a [listing](crate::listing()) it is also the number of an unreadable
    /// line, which refuses nothing but that line.
    InputTooLong,
    /// 9: bytes that are no book's, or no table's: under five, or a length that cannot be.
    NotBook,
    /// 10: a book or a table of another version than the call takes.
    WrongVersion,
    /// 11: a record that no date of its kind has, or with a mark that its version does not take; with the place of the
    /// first one, from 0.
    BadRecord(usize),
    /// 12: no room for a new book or table, for one more record, or for a book that is moved.
    NoRoom,
    /// 13: no record, or no entry, at that place; of a league, among its own.
    NoRecord,
    /// 14: a table's entries out of order, or a field, a kind or a league that no entry has, in the table or in the call;
    /// or a table with over 1,024 entries of one league.
    BadEntry,
    /// 15: a table with 2,048 entries already, or a league with 1,024 of its own, or no room for one more; or a table to
    /// be moved that has over 1,024, or that the target has no room for.
    TableFull,
    /// 16: a field to be removed that the table, or the league, does not have.
    NotThere,
    /// 20: a guessed date for a book of version 1, which takes none.
    GuessedDate,
    /// 21: a record with a field number or a mark, which version 1 cannot keep, in a book that is moved back to it; with
    /// the place of the first one, from 0.
    FieldOrMark(usize),
}

impl Refusal {
    /// The number of the refusal: 1 to 16, 20 or 21.
    ///
    /// ```
    /// use pennyquill::{DateHour, Refusal};
    /// let refusal = DateHour::from_ymdh_opt(1936, 1, 1, 0).unwrap_err();
    /// assert_eq!(refusal.number(), 4);
    /// assert_eq!(Refusal::BadRecord(7).number(), 11);
    /// assert_eq!(Refusal::NotThere.number(), 16);
    /// assert_eq!(Refusal::GuessedDate.number(), 20);
    /// assert_eq!(Refusal::FieldOrMark(7).number(), 21);
    /// ```
    pub fn number(self) -> u32 {
        match self {
            Refusal::TextTooLong => 1,
            Refusal::NotText => 2,
            Refusal::NotNumber => 3,
            Refusal::NotOfKind => 4,
            Refusal::SumTooLarge => 5,
            Refusal::NoSuchDay => 6,
            Refusal::ShortBuffer => 7,
            Refusal::InputTooLong => 8,
            Refusal::NotBook => 9,
            Refusal::WrongVersion => 10,
            Refusal::BadRecord(_) => 11,
            Refusal::NoRoom => 12,
            Refusal::NoRecord => 13,
            Refusal::BadEntry => 14,
            Refusal::TableFull => 15,
            Refusal::NotThere => 16,
            Refusal::GuessedDate => 20,
            Refusal::FieldOrMark(_) => 21,
        }
    }

    /// The refusal with this number; `value` is what the boundary hands over beside it.
    pub(crate) fn told(number: u32, value: u32) -> Refusal {
        match number {
            1 => Refusal::TextTooLong,
            2 => Refusal::NotText,
            3 => Refusal::NotNumber,
            4 => Refusal::NotOfKind,
            5 => Refusal::SumTooLarge,
            6 => Refusal::NoSuchDay,
            7 => Refusal::ShortBuffer,
            8 => Refusal::InputTooLong,
            9 => Refusal::NotBook,
            10 => Refusal::WrongVersion,
            11 => Refusal::BadRecord(value as usize),
            12 => Refusal::NoRoom,
            13 => Refusal::NoRecord,
            14 => Refusal::BadEntry,
            15 => Refusal::TableFull,
            16 => Refusal::NotThere,
            20 => Refusal::GuessedDate,
            21 => Refusal::FieldOrMark(value as usize),
            _ => unreachable!("the boundary gives no refusal {number}"),
        }
    }

    fn sentence(self) -> &'static str {
        match self {
            Refusal::TextTooLong => "the text is over 64 bytes",
            Refusal::NotText => "the text is not that of a date of this kind",
            Refusal::NotNumber => {
                "the number is not that of a date of this kind, or is not guessed to be one"
            }
            Refusal::NotOfKind => "these are not the fields of a date of this kind",
            Refusal::SumTooLarge => "the sum of days is outside 32 bits",
            Refusal::NoSuchDay => "no year of 16 bits has that day",
            Refusal::ShortBuffer => "the buffer is shorter than the text or the listing",
            Refusal::InputTooLong => "the input is over 65,535 bytes",
            Refusal::NotBook => {
                "the bytes are not those of a book or a table: too few, or a wrong length"
            }
            Refusal::WrongVersion => "the book or the table is of another version",
            Refusal::BadRecord(_) => "no date of its kind has the record",
            Refusal::NoRoom => "the buffer has no room, or the book has 4,096 records already",
            Refusal::NoRecord => "the book or the table has nothing at that place",
            Refusal::BadEntry => {
                "the table's entries are out of order, or a field, a kind or a league is not allowed"
            }
            Refusal::TableFull => {
                "the table or the league has as many entries as it may have, or there is no room"
            }
            Refusal::NotThere => "the table or the league has no such field to remove",
            Refusal::GuessedDate => "a book of version 1 takes no guessed date",
            Refusal::FieldOrMark(_) => {
                "version 1 cannot keep the field number or the mark of the record"
            }
        }
    }
}

impl fmt::Display for Refusal {
    fn fmt(&self, f: &mut fmt::Formatter) -> fmt::Result {
        write!(f, "refused {}: {}", self.number(), self.sentence())?;
        match self {
            Refusal::BadRecord(place) | Refusal::FieldOrMark(place) => {
                write!(f, " at place {place}")
            }
            _ => Ok(()),
        }
    }
}

impl Error for Refusal {}

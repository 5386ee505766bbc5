//! Lines of book.script about books of version 2, about both versions with their report and about moves, and books
//! to start from. README.md has the format.

use crate::book_script::{HEAD, MOST_RECORDS, Script, WORD, YEAR, word};
use crate::gap_scenes::FIGURES;
use crate::kinds::{Fields, Kind};

/// The bytes of a record of version 2, and where its field, its word and the mark in it stand.
pub const RECORD_2: usize = 7;
pub const FIELD_AT: usize = 1;
pub const WORD_AT: usize = 5;
pub const MARK_AT: usize = 6;

pub const GREATEST_LENGTH_2: usize = 1 + MOST_RECORDS * RECORD_2;

/// The field that the request shows, and the last byte of 1444.11.11 without a mark.
pub const FIELD: u16 = 500;
pub const UNMARKED: u8 = (WORD % 256) as u8;

/// What a target holds before a move.
const TARGET: u8 = 238;

/// A date of each kind, by the number that the kind has in a book.
pub const DATES: [(u8, char, u16); 6] = [
    (1, 'R', word(2, 31, 24)),
    (2, 'D', WORD),
    (3, 'H', word(11, 11, 1)),
    (4, 'U', word(2, 30, 0)),
    (5, 'E', word(12, 31, 22)),
    (6, 'V', word(1, 1, 18)),
];

/// Where the record of version 2 at a place starts; for the number of records, where the book ends.
pub fn start_2(place: usize) -> usize {
    HEAD + place * RECORD_2
}

impl Script {
    pub fn second_record(&mut self, place: usize) {
        self.line(format!("second record {place}"));
    }

    pub fn second_append(&mut self, letter: char, field: u16, year: i16, word: u16) {
        self.line(format!("second append {letter} {field} {year} {word}"));
    }

    pub fn second_append_date<K: Kind>(&mut self, field: u16, mark: u16, date: K) {
        let Fields {
            year,
            month,
            day,
            hour,
        } = date.fields();
        let word = word(month.into(), day.into(), hour.into());
        self.second_append(K::LETTER, field, year, word + mark);
    }

    /// The record that the request shows.
    pub fn second_append_d(&mut self) {
        self.second_append('D', FIELD, YEAR, WORD + 1);
    }

    pub fn any_record(&mut self, place: usize) {
        self.line(format!("any record {place}"));
    }

    /// The walk from a place on, into room for so many numbers.
    pub fn walk(&mut self, place: usize, numbers: usize) {
        self.line(format!("any records {place} {numbers}"));
    }

    /// The gap report into so many bytes, and its figures into so many numbers.
    pub fn report(&mut self, room: usize) {
        self.line(format!("any report {room}"));
    }

    pub fn figures(&mut self, numbers: usize) {
        self.line(format!("any figures {numbers}"));
    }

    /// Both, the figures into as many numbers as they are.
    pub fn report_and_figures(&mut self, room: usize) {
        self.report(room);
        self.figures(FIGURES);
    }

    /// A move to a version, into a target of so many bytes.
    pub fn to(&mut self, version: u8, room: usize) {
        self.line(format!("to {version} {room} {TARGET}"));
    }

    /// The three checks: of version 1, of version 2 and of both.
    pub fn checks(&mut self) {
        self.line("check");
        self.line("second check");
        self.line("any check");
    }

    /// Every operation of version 2 but new, on the first two records.
    pub fn try_second(&mut self) {
        self.line("second check");
        self.second_record(0);
        self.second_record(1);
        self.second_append_d();
    }

    /// A book of version 2 of so many records, all D 1444.11.11 of no field, and so many bytes after it. All but
    /// the first are copied.
    pub fn second_book(&mut self, records: usize, after: usize) {
        self.buffer(start_2(records) + after);
        self.line("second new");
        if records > 0 {
            self.second_append('D', 0, YEAR, WORD);
        }
        if records > 1 {
            let copied = (records - 1) * RECORD_2;
            self.line(format!("copy {HEAD} {copied} {}", start_2(1)));
            self.set_low_length(1 + records * RECORD_2);
        }
    }

    /// A length below 65,536, over one whose two high bytes are 0.
    pub fn set_low_length(&mut self, length: usize) {
        let [high, low] = (length as u16).to_be_bytes();
        if high > 0 {
            self.set(2, high);
        }
        self.set(3, low);
    }
}

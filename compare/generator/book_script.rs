//! Lines of book.script, and small books to start from. README.md has the format.

use crate::kinds::{Fields, Kind};
use std::fmt::Display;

/// What a buffer holds before a book is written into it.
pub const FILLER: u8 = 170;

/// The bytes of an empty book, and of a record.
pub const HEAD: usize = 5;
pub const RECORD: usize = 5;

pub const MOST_RECORDS: usize = 4096;
pub const GREATEST_LENGTH: usize = 1 + MOST_RECORDS * RECORD;

/// 1444.11.11, a date of every kind but H, and its record of kind D.
pub const YEAR: i16 = 1444;
pub const WORD: u16 = word(11, 11, 0);
pub const D_RECORD: [u8; RECORD] = [2, 0x05, 0xA4, 0xB5, 0x80];

pub const fn word(month: u16, day: u16, hour: u16) -> u16 {
    month * 4096 + day * 128 + hour * 4
}

#[derive(Default)]
pub struct Script {
    pub text: String,
}

impl Script {
    pub fn line(&mut self, line: impl Display) {
        self.text.push_str(&format!("{line}\n"));
    }

    pub fn remark(&mut self, remark: &str) {
        self.line(format!("# {remark}"));
    }

    pub fn buffer(&mut self, length: usize) {
        self.line(format!("buffer {length} {FILLER}"));
    }

    pub fn set(&mut self, place: usize, byte: u8) {
        self.line(format!("set {place} {byte}"));
    }

    pub fn set_all(&mut self, place: usize, bytes: &[u8]) {
        for (place, &byte) in (place..).zip(bytes) {
            self.set(place, byte);
        }
    }

    pub fn set_length(&mut self, length: u32) {
        self.set_all(0, &length.to_be_bytes());
    }

    pub fn record(&mut self, place: usize) {
        self.line(format!("record {place}"));
    }

    pub fn append(&mut self, letter: char, year: i16, word: u16) {
        self.line(format!("append {letter} {year} {word}"));
    }

    pub fn append_fields(&mut self, letter: char, fields: Fields) {
        let Fields {
            year,
            month,
            day,
            hour,
        } = fields;
        self.append(letter, year, word(month.into(), day.into(), hour.into()));
    }

    pub fn append_date<K: Kind>(&mut self, date: K) {
        self.append_fields(K::LETTER, date.fields());
    }

    pub fn append_d(&mut self) {
        self.append('D', YEAR, WORD);
    }

    /// Every operation but new, on the first two records.
    pub fn try_all(&mut self) {
        self.line("check");
        self.record(0);
        self.record(1);
        self.append_d();
    }

    /// A book of so many records, all D 1444.11.11, in a buffer of this length. All but the first
    /// are copied, as a full book would take thousands of lines otherwise.
    pub fn book(&mut self, records: usize, length: usize) {
        self.buffer(length);
        self.line("new");
        if records > 0 {
            self.append_d();
        }
        if records > 1 {
            let copied = (records - 1) * RECORD;
            self.line(format!("copy {HEAD} {copied} {}", HEAD + RECORD));
            self.set_length((1 + records * RECORD) as u32);
        }
    }
}

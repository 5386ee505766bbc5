//! Table lines of book.script, and tables to start from. README.md has the format.

use crate::book_script::{HEAD, Script};

/// The bytes of an entry.
pub const ENTRY: usize = 3;

pub const MOST_ENTRIES: usize = 2048;
pub const GREATEST_TABLE_LENGTH: usize = 1 + MOST_ENTRIES * ENTRY;

/// 1836.1.1, which every kind decodes that reads numbers, and every kind guesses that guesses.
pub const NUMBER: i32 = 59_883_360;

/// Which no kind decodes.
pub const NO_DATE: i32 = -1;

/// The codes of the kinds that a field may be declared as, and of the game kinds.
pub const DECLARED: [u32; 5] = [1, 2, 3, 5, 6];
pub const GAMES: [u32; 4] = [2, 3, 5, 6];

/// A field of each kind. Their numbers are ten apart.
pub const FIVE: [(u32, u8); 5] = [(10, 1), (20, 2), (30, 3), (40, 5), (50, 6)];

/// The fields of a full table: two runs of 1,024, with room between.
pub const FIRST_RUN: u32 = 100;
pub const SECOND_RUN: u32 = 2000;
pub const RUN: usize = MOST_ENTRIES / 2;

impl Script {
    pub fn check_table(&mut self) {
        self.line("table check");
    }

    pub fn entry(&mut self, place: usize) {
        self.line(format!("table entry {place}"));
    }

    pub fn declare(&mut self, field: u32, code: u32) {
        self.line(format!("table declare {field} {code}"));
    }

    pub fn remove(&mut self, field: u32) {
        self.line(format!("table remove {field}"));
    }

    pub fn lookup(&mut self, field: u32, game: u32, number: i32) {
        self.line(format!("table lookup {field} {game} {number}"));
    }

    /// The bytes of entries from a place on: so many fields, one after the other, of one kind.
    pub fn entries(&mut self, place: usize, first: u32, count: usize, code: u8) {
        let start = HEAD + place * ENTRY;
        self.line(format!("entries {start} {first} {count} {code}"));
    }

    /// A table of these fields and codes, few enough for one byte of length, and so many bytes
    /// after it.
    pub fn table(&mut self, entries: &[(u32, u8)], after: usize) {
        self.buffer(HEAD + entries.len() * ENTRY + after);
        self.line("table new");
        for (place, &(field, code)) in entries.iter().enumerate() {
            self.entries(place, field, 1, code);
        }
        if !entries.is_empty() {
            self.set(3, (1 + entries.len() * ENTRY) as u8);
        }
    }

    /// A table of so many fields of D, over 1,024, in two runs, and so many bytes after it.
    pub fn long_table(&mut self, entries: usize, after: usize) {
        self.buffer(HEAD + entries * ENTRY + after);
        self.line("table new");
        self.entries(0, FIRST_RUN, RUN, 2);
        self.entries(RUN, SECOND_RUN, entries - RUN, 2);
        self.set_length((1 + entries * ENTRY) as u32);
    }
}

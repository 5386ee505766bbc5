//! Lines of leagues.script, and tables of two leagues to start from. README.md has the format.

use crate::book_script::{HEAD, Script};

/// The bytes of an entry, and the most that one league has.
pub const SIZE: usize = 4;
pub const SHARE: usize = 1024;

/// A buffer with room for all entries of both.
pub const WHOLE: usize = HEAD + 2 * SHARE * SIZE;

/// The first field of a long run, which leaves room before it and after it.
pub const RUN: u32 = 100;

/// A run of fields: the league's byte, the first, how many, and the code of all.
pub type Run = (u8, u32, usize, u8);

/// Two of league 1, three of league 2: both have 20, of other kinds.
pub const FIVE: [Run; 5] = [
    (1, 10, 1, 1),
    (1, 20, 1, 2),
    (2, 5, 1, 5),
    (2, 20, 1, 6),
    (2, 30, 1, 3),
];

pub fn start(place: usize) -> usize {
    HEAD + place * SIZE
}

impl Script {
    pub fn check_own(&mut self, league: u32) {
        self.line(format!("check {league}"));
    }

    pub fn check_both(&mut self) {
        self.check_own(1);
        self.check_own(2);
    }

    pub fn entry_own(&mut self, league: u32, place: usize) {
        self.line(format!("entry {league} {place}"));
    }

    pub fn declare_own(&mut self, league: u32, field: u32, code: u32) {
        self.line(format!("declare {league} {field} {code}"));
    }

    pub fn remove_own(&mut self, league: u32, field: u32) {
        self.line(format!("remove {league} {field}"));
    }

    pub fn lookup_own(&mut self, league: u32, field: u32, game: u32, number: i32) {
        self.line(format!("lookup {league} {field} {game} {number}"));
    }

    /// The move of a version 1 table into so many bytes.
    pub fn from_table(&mut self, room: usize) {
        self.line(format!("from {room} 238"));
    }

    /// The bytes of a run of entries, from a place on.
    pub fn share(&mut self, place: usize, run: Run) {
        let (league, first, count, code) = run;
        let at = start(place);
        self.line(format!("shares {at} {league} {first} {count} {code}"));
    }

    /// A table of these runs, and so many bytes after it.
    pub fn leagues(&mut self, runs: &[Run], after: usize) {
        let count: usize = runs.iter().map(|run| run.2).sum();
        self.buffer(start(count) + after);
        self.line("new");
        let mut place = 0;
        for &run in runs {
            self.share(place, run);
            place += run.2;
        }
        self.set_count(count);
    }

    /// So many entries of D of each league, in one run each.
    pub fn full_leagues(&mut self, counts: [usize; 2], after: usize) {
        let [first, second] = counts;
        self.leagues(&[(1, RUN, first, 2), (2, RUN, second, 2)], after);
    }

    fn set_count(&mut self, entries: usize) {
        let [_, _, high, low] = ((1 + entries * SIZE) as u32).to_be_bytes();
        self.set(2, high);
        self.set(3, low);
    }
}

//! One league's handle on a table of two leagues. It stands by itself, so that nothing beside it reaches its buffer.

use crate::bits::given;
use crate::ffi;
use crate::field_table::{DateKind, Entry, GameKind, Looked};
use crate::refusal::Refusal;
use std::fmt;

/// One league's part of a table: its own declarations, and nothing of the other's. It shows no bytes, also when it is
/// printed:
///
/// ```
/// use pennyquill::field_table::DateKind;
/// use pennyquill::league_table::LeagueTable;
/// let mut buffer = [0; 100];
/// let mut table = LeagueTable::new(&mut buffer)?;
/// table.league(1)?.declare(500, DateKind::D)?;
/// assert_eq!(format!("{:?}", table.league(2)?), "League { number: 2, entries: 0 }");
/// # Ok::<(), pennyquill::Refusal>(())
/// ```
pub struct League<'a> {
    buffer: &'a mut [u8],
    league: u32,
    entries: usize,
}

// By hand, since a derived one would print the buffer.
impl fmt::Debug for League<'_> {
    fn fmt(&self, f: &mut fmt::Formatter) -> fmt::Result {
        f.debug_struct("League")
            .field("number", &self.league)
            .field("entries", &self.entries)
            .finish()
    }
}

impl League<'_> {
    /// The handle of a league on the table in a buffer. Refusals 9, 10 and 14 where there is none, then 14 for the league.
    pub(crate) fn of(buffer: &mut [u8], league: u32) -> Result<League<'_>, Refusal> {
        // SAFETY: the pointer and the length are those of a slice.
        let answer = unsafe { ffi::pq_leagues_check(buffer.as_ptr(), buffer.len(), league) };
        let entries = given(answer)? as usize;
        Ok(League {
            buffer,
            league,
            entries,
        })
    }

    /// Which league it is: 1 or 2.
    pub fn number(&self) -> u32 {
        self.league
    }

    /// The number of its own entries.
    pub fn len(&self) -> usize {
        self.entries
    }

    /// Whether it has declared no field.
    pub fn is_empty(&self) -> bool {
        self.entries == 0
    }

    /// The entry at a place among its own, from 0. Refusal 13 where there is none.
    pub fn entry(&self, place: usize) -> Result<Entry, Refusal> {
        let (table, len) = (self.buffer.as_ptr(), self.buffer.len());
        // SAFETY: the pointer and the length are those of a slice.
        Entry::told(unsafe { ffi::pq_leagues_entry(table, len, self.league, place) })
    }

    /// Its own entries, in ascending order of their fields.
    ///
    /// ```
    /// use pennyquill::Refusal;
    /// use pennyquill::field_table::DateKind;
    /// use pennyquill::league_table::LeagueTable;
    /// let mut buffer = [0; 100];
    /// let mut table = LeagueTable::new(&mut buffer)?;
    /// for (league, field) in [(2, 500), (1, 7), (2, 3)] {
    ///     table.league(league)?.declare(field, DateKind::D)?;
    /// }
    /// let fields: Vec<u32> = table.league(2)?.entries().map(|entry| entry.field).collect();
    /// assert_eq!(fields, [3, 500]);
    /// # Ok::<(), Refusal>(())
    /// ```
    pub fn entries(&self) -> impl Iterator<Item = Entry> + '_ {
        (0..self.entries).map_while(|place| self.entry(place).ok())
    }

    /// Declares that a field holds dates of a kind, and gives the number of its own entries afterwards. A field that it
    /// has declared already gets the new kind. Refusal 14 for a field of 0 or over 65,535; for a new one 15 where it has
    /// [`SHARE`](crate::league_table::SHARE) entries or there are under four bytes after the table.
    ///
    /// ```
    /// use pennyquill::Refusal;
    /// use pennyquill::field_table::DateKind;
    /// use pennyquill::league_table::{self, LeagueTable};
    /// let mut buffer = [0; league_table::ROOM];
    /// let mut table = LeagueTable::new(&mut buffer)?;
    /// let mut first = table.league(1)?;
    /// for field in 1..=1024 {
    ///     first.declare(field, DateKind::D)?;
    /// }
    /// // Its share is full: a field that it has gets another kind, and a new one is refused.
    /// assert_eq!(first.declare(1024, DateKind::H), Ok(1024));
    /// assert_eq!(first.declare(1025, DateKind::D), Err(Refusal::TableFull));
    /// assert_eq!(first.declare(65_536, DateKind::D), Err(Refusal::BadEntry));
    /// // The other league is not told.
    /// assert_eq!(table.league(2)?.declare(1025, DateKind::D), Ok(1));
    /// # Ok::<(), Refusal>(())
    /// ```
    pub fn declare(&mut self, field: u32, kind: DateKind) -> Result<usize, Refusal> {
        let (table, len) = (self.buffer.as_mut_ptr(), self.buffer.len());
        // SAFETY: the pointer and the length are those of a slice that is ours alone.
        self.changed(unsafe {
            ffi::pq_leagues_declare(table, len, self.league, field, kind.code())
        })
    }

    /// Removes a field of its own, and gives the number of its own entries afterwards. Refusal 14 for a field of 0 or over
    /// 65,535, 16 for one that it has not declared, whatever the other has.
    ///
    /// ```
    /// use pennyquill::Refusal;
    /// use pennyquill::field_table::DateKind;
    /// use pennyquill::league_table::LeagueTable;
    /// let mut buffer = [0; 100];
    /// let mut table = LeagueTable::new(&mut buffer)?;
    /// table.league(1)?.declare(500, DateKind::D)?;
    /// assert_eq!(table.league(2)?.remove(500), Err(Refusal::NotThere));
    /// assert_eq!(table.league(1)?.remove(500), Ok(0));
    /// # Ok::<(), Refusal>(())
    /// ```
    pub fn remove(&mut self, field: u32) -> Result<usize, Refusal> {
        let (table, len) = (self.buffer.as_mut_ptr(), self.buffer.len());
        // SAFETY: the pointer and the length are those of a slice that is ours alone.
        self.changed(unsafe { ffi::pq_leagues_remove(table, len, self.league, field) })
    }

    /// The date of a number that stands in a field: by full decoding if the league has declared it, by the game's guess if
    /// it has not. Refusal 14 for a field of 0 or over 65,535, 3 where the number is no date.
    pub fn lookup(&self, field: u32, game: GameKind, number: i32) -> Result<Looked, Refusal> {
        let (table, len, league) = (self.buffer.as_ptr(), self.buffer.len(), self.league);
        // SAFETY: the pointer and the length are those of a slice.
        Looked::told(unsafe {
            ffi::pq_leagues_lookup(table, len, league, field, game.code(), number)
        })
    }

    /// Keeps the number of entries that a change has told.
    fn changed(&mut self, answer: ffi::Answer) -> Result<usize, Refusal> {
        self.entries = given(answer)? as usize;
        Ok(self.entries)
    }
}

//! A field table that two leagues share, each with declarations of its own. Not in jomini.
//!
//! It is a table of version 2: an entry has four bytes, the league (1 or 2) before the field's number and its kind's code.
//! Each league has at most [`SHARE`] entries. Both may declare the same field, and each number is looked up by what the
//! league that asks has declared, as in [`field_table`](crate::field_table).
//!
//! The host owns the table, as a [`LeagueTable`] in a lent buffer, and stores its bytes. It shows them to neither league,
//! since they tell of both. What it hands out is a [`League`]: a handle that is bound to one league, has no way to the
//! bytes, and tells of that league's own entries alone. In a buffer of [`ROOM`] bytes nothing that it answers depends on
//! the other league. In a shorter one the two draw on the same bytes, so that [`Refusal::TableFull`] may come from the
//! other's entries.
//!
//! Two leagues declare the same field, and neither sees the other:
//!
//! ```
//! use pennyquill::book::Record;
//! use pennyquill::field_table::{DateKind, Entry, GameKind, Looked};
//! use pennyquill::league_table::{self, LeagueTable};
//! use pennyquill::{Date, Refusal, Vic3Date};
//! let mut buffer = [0; league_table::ROOM];
//! let mut table = LeagueTable::new(&mut buffer)?;
//! table.league(1)?.declare(500, DateKind::D)?;
//! table.league(2)?.declare(500, DateKind::V)?;
//! table.league(2)?.declare(3, DateKind::R)?;
//!
//! let first = table.league(1)?;
//! assert_eq!(first.len(), 1);
//! assert_eq!(first.entry(0)?, Entry { field: 500, kind: DateKind::D });
//! assert_eq!(first.entry(1), Err(Refusal::NoRecord));
//! let plain = Record::D(Date::parse("1836.1.1")?);
//! assert_eq!(first.lookup(500, GameKind::D, 59_883_360), Ok(Looked::Declared(plain)));
//! assert_eq!(first.lookup(3, GameKind::D, 59_883_360), Ok(Looked::Guessed(plain)));
//!
//! let second = table.league(2)?;
//! assert_eq!(second.len(), 2);
//! let hourly = Record::V(Vic3Date::parse("1836.1.1")?);
//! assert_eq!(second.lookup(500, GameKind::D, 59_883_360), Ok(Looked::Declared(hourly)));
//! # Ok::<(), Refusal>(())
//! ```
//!
//! A handle has the table to itself meanwhile, so that the host asks for one again whenever the other's turn comes. It
//! shows no bytes:
//!
//! ```compile_fail,E0599
//! use pennyquill::league_table::LeagueTable;
//! let mut buffer = [0; 100];
//! let mut table = LeagueTable::new(&mut buffer)?;
//! table.league(1)?.as_bytes();
//! # Ok::<(), pennyquill::Refusal>(())
//! ```

use crate::bits::given;
use crate::ffi;
use crate::refusal::Refusal;

pub use crate::league::League;

/// The most entries of one league.
pub const SHARE: usize = 1_024;

/// The bytes of a table in which both leagues have all their entries, which is the longest.
pub const ROOM: usize = 8_197;

/// The bytes of a table's length, which counts those after them.
const LENGTH_SIZE: usize = 4;

/// The table of both leagues in a lent buffer: the host's, who stores its bytes and hands out [`League`]s. The buffer is
/// the table's alone meanwhile, so that it stays one: what it was checked for when it was opened is never refused later.
// Not `Debug`, which would print what both leagues have.
pub struct LeagueTable<'a> {
    buffer: &'a mut [u8],
}

impl<'a> LeagueTable<'a> {
    /// Writes an empty table into the first five bytes of a buffer. Refusal 12 where there are fewer.
    ///
    /// ```
    /// use pennyquill::Refusal;
    /// use pennyquill::league_table::LeagueTable;
    /// let mut buffer = [7; 6];
    /// assert!(LeagueTable::new(&mut buffer)?.league(2)?.is_empty());
    /// assert_eq!(buffer, [0, 0, 0, 1, 2, 7]);
    /// assert_eq!(LeagueTable::new(&mut buffer[..4]).err(), Some(Refusal::NoRoom));
    /// # Ok::<(), Refusal>(())
    /// ```
    pub fn new(buffer: &'a mut [u8]) -> Result<LeagueTable<'a>, Refusal> {
        // SAFETY: the pointer and the length are those of a slice that is ours alone.
        given(unsafe { ffi::pq_leagues_new(buffer.as_mut_ptr(), buffer.len()) })?;
        Ok(LeagueTable { buffer })
    }

    /// The table that stands in a buffer. Refusals 9, 10 and 14 where the bytes are not those of one; a table of version 1
    /// is 10.
    ///
    /// ```
    /// use pennyquill::Refusal;
    /// use pennyquill::league_table::LeagueTable;
    /// let mut buffer = [0, 0, 0, 9, 2, 1, 0x01, 0xF4, 2, 2, 0x01, 0xF4, 6, 7];
    /// assert_eq!(LeagueTable::open(&mut buffer)?.league(1)?.len(), 1);
    /// assert_eq!(LeagueTable::open(&mut buffer[..12]).err(), Some(Refusal::NotBook));
    /// buffer[9] = 3; // a third league
    /// assert_eq!(LeagueTable::open(&mut buffer).err(), Some(Refusal::BadEntry));
    /// buffer[4] = 1;
    /// assert_eq!(LeagueTable::open(&mut buffer).err(), Some(Refusal::WrongVersion));
    /// # Ok::<(), Refusal>(())
    /// ```
    pub fn open(buffer: &'a mut [u8]) -> Result<LeagueTable<'a>, Refusal> {
        League::of(buffer, 1)?;
        Ok(LeagueTable { buffer })
    }

    /// Writes a table of version 1, as [`FieldTable::as_bytes`](crate::field_table::FieldTable::as_bytes) gives it, into
    /// the first bytes of a buffer, as a table of league 1 alone; its lookups stay the same. Refusals as those of
    /// [`field_table::check`](crate::field_table::check), then 15 where it has over [`SHARE`] entries or the buffer is
    /// shorter than five bytes and four for each. A refusal changes no byte.
    ///
    /// ```
    /// use pennyquill::Refusal;
    /// use pennyquill::field_table::{self, DateKind, FieldTable, GameKind};
    /// use pennyquill::league_table::{self, LeagueTable};
    /// let mut old = [0; field_table::ROOM];
    /// let mut fields = FieldTable::new(&mut old)?;
    /// for field in 1..=1024 {
    ///     fields.declare(field, DateKind::E)?;
    /// }
    /// let mut buffer = [0; league_table::ROOM];
    /// let mut moved = LeagueTable::from_table(fields.as_bytes(), &mut buffer)?;
    /// assert_eq!(moved.league(1)?.len(), 1024);
    /// assert!(moved.league(2)?.is_empty());
    /// for (field, number) in [(1, 24), (1024, 56_456_976), (1025, 56_456_976), (1025, 24)] {
    ///     let found = moved.league(1)?.lookup(field, GameKind::D, number);
    ///     assert_eq!(found, fields.lookup(field, GameKind::D, number));
    /// }
    ///
    /// let short = LeagueTable::from_table(fields.as_bytes(), &mut buffer[..4100]).err();
    /// assert_eq!(short, Some(Refusal::TableFull));
    /// fields.declare(1025, DateKind::E)?;
    /// let over = LeagueTable::from_table(fields.as_bytes(), &mut buffer).err();
    /// assert_eq!(over, Some(Refusal::TableFull));
    /// # Ok::<(), Refusal>(())
    /// ```
    pub fn from_table(table: &[u8], buffer: &'a mut [u8]) -> Result<LeagueTable<'a>, Refusal> {
        let (from, len, to, room) = (
            table.as_ptr(),
            table.len(),
            buffer.as_mut_ptr(),
            buffer.len(),
        );
        // SAFETY: the pointers and the lengths are those of slices, of which the second is ours alone.
        given(unsafe { ffi::pq_leagues_from_table(from, len, to, room) })?;
        Ok(LeagueTable { buffer })
    }

    /// The handle of a league, which is what is handed out to it. Refusal 14 where the league is neither 1 nor 2.
    ///
    /// ```
    /// use pennyquill::Refusal;
    /// use pennyquill::league_table::LeagueTable;
    /// let mut buffer = [0; 100];
    /// let mut table = LeagueTable::new(&mut buffer)?;
    /// assert!(table.league(1).is_ok() && table.league(2).is_ok());
    /// for none in [0, 3, 257] {
    ///     assert_eq!(table.league(none).err(), Some(Refusal::BadEntry));
    /// }
    /// # Ok::<(), Refusal>(())
    /// ```
    pub fn league(&mut self, league: u32) -> Result<League<'_>, Refusal> {
        League::of(self.buffer, league)
    }

    /// The bytes of the table, as the host stores them: those of the buffer, without the ones after the table. They tell
    /// of both leagues, and are for neither.
    ///
    /// ```
    /// use pennyquill::Refusal;
    /// use pennyquill::field_table::DateKind;
    /// use pennyquill::league_table::LeagueTable;
    /// let mut buffer = [7; 15];
    /// let mut table = LeagueTable::new(&mut buffer)?;
    /// table.league(2)?.declare(500, DateKind::V)?;
    /// table.league(1)?.declare(500, DateKind::D)?;
    /// assert_eq!(table.as_bytes(), [0, 0, 0, 9, 2, 1, 0x01, 0xF4, 2, 2, 0x01, 0xF4, 6]);
    /// table.league(1)?.remove(500)?;
    /// assert_eq!(table.as_bytes(), [0, 0, 0, 5, 2, 2, 0x01, 0xF4, 6]);
    /// assert_eq!(buffer[9..], [0, 0, 0, 0, 7, 7]);
    /// # Ok::<(), Refusal>(())
    /// ```
    pub fn as_bytes(&self) -> &[u8] {
        let after = self.buffer[..LENGTH_SIZE]
            .iter()
            .fold(0, |said, &byte| said << 8 | usize::from(byte));
        &self.buffer[..LENGTH_SIZE + after]
    }
}

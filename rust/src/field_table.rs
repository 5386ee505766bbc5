//! Field tables: which fields of a save are declared as dates, and as which kind. Not in jomini.
//!
//! Four bytes of length, a version, entries of three bytes (a field's number and its kind's code) in ascending order; at
//! most 2,048 of them. A table fills the first bytes of its buffer, and a new field uses the three after it. A refusal
//! changes no byte.
//!
//! A number that stands in a declared field is decoded in full, by the field's kind. A number in any other field is only
//! guessed at, by the kind of the game. Neither takes the other's answer.
//!
//! [`FieldTable`] holds a lent buffer and changes the table in it. Who only reads needs none: [`check`], [`entry`],
//! [`lookup`] and [`lookup_all`] take a shared slice.
//!
//! The converter wants no plain number ever taken for a date:
//!
//! ```
//! use pennyquill::field_table::{DateKind, FieldTable, GameKind};
//! use pennyquill::Refusal;
//! let mut buffer = [0; 100];
//! let mut table = FieldTable::new(&mut buffer)?;
//! table.declare(500, DateKind::D)?;
//! // Field 7 is not declared: it may hold the size of an army.
//! assert_eq!(table.lookup(7, GameKind::D, 1444), Err(Refusal::NotNumber));
//! assert_eq!(table.lookup(7, GameKind::D, -8760), Err(Refusal::NotNumber));
//! # Ok::<(), Refusal>(())
//! ```
//!
//! The chronicler wants every date shown, odd ones included:
//!
//! ```
//! use pennyquill::book::Record;
//! use pennyquill::field_table::{DateKind, FieldTable, GameKind, Looked};
//! use pennyquill::{Date, Refusal};
//! let mut buffer = [0; 100];
//! let mut table = FieldTable::new(&mut buffer)?;
//! table.declare(500, DateKind::D)?;
//! // Field 500 is declared: what it holds is a date, however early.
//! let odd = Date::parse("-5000.3.2")?;
//! assert_eq!(table.lookup(500, GameKind::D, 1444), Ok(Looked::Declared(Record::D(odd))));
//! let odder = Date::parse("-5001.1.1")?;
//! assert_eq!(table.lookup(500, GameKind::D, -8760), Ok(Looked::Declared(Record::D(odder))));
//! # Ok::<(), Refusal>(())
//! ```

use crate::bits::given;
use crate::book::Record;
use crate::ffi;
use crate::refusal::Refusal;
use crate::{Date, DateHour, Eu5Date, PdsDate, RawDate, Vic3Date};

/// The bytes of a table of 2,048 entries, which is the longest.
pub const ROOM: usize = 6_149;

/// The bytes of an empty table, and of each entry.
const HEAD: usize = 5;
const SIZE: usize = 3;

/// What a field can be declared as: a kind that reads numbers. U reads none.
#[derive(Clone, Copy, Debug, PartialEq, Eq, Hash)]
pub enum DateKind {
    /// Kind R.
    R,
    /// Kind D.
    D,
    /// Kind H.
    H,
    /// Kind E.
    E,
    /// Kind V.
    V,
}

impl DateKind {
    pub(crate) fn code(self) -> u32 {
        match self {
            DateKind::R => RawDate::KIND,
            DateKind::D => Date::KIND,
            DateKind::H => DateHour::KIND,
            DateKind::E => Eu5Date::KIND,
            DateKind::V => Vic3Date::KIND,
        }
    }

    fn from_code(code: u32) -> DateKind {
        match code {
            RawDate::KIND => DateKind::R,
            Date::KIND => DateKind::D,
            DateHour::KIND => DateKind::H,
            Eu5Date::KIND => DateKind::E,
            Vic3Date::KIND => DateKind::V,
            _ => unreachable!("a table has no kind {code}"),
        }
    }
}

/// The kind of a game's dates, by which undeclared fields are guessed at: one that has a guess. R and U have none.
#[derive(Clone, Copy, Debug, PartialEq, Eq, Hash)]
pub enum GameKind {
    /// Kind D.
    D,
    /// Kind H.
    H,
    /// Kind E.
    E,
    /// Kind V.
    V,
}

impl GameKind {
    pub(crate) fn code(self) -> u32 {
        match self {
            GameKind::D => Date::KIND,
            GameKind::H => DateHour::KIND,
            GameKind::E => Eu5Date::KIND,
            GameKind::V => Vic3Date::KIND,
        }
    }
}

/// An entry of a table.
#[derive(Clone, Copy, Debug, PartialEq, Eq, Hash)]
pub struct Entry {
    /// The field's number, 1 to 65,535.
    pub field: u32,
    /// What it is declared as.
    pub kind: DateKind,
}

impl Entry {
    pub(crate) fn told(found: ffi::Record) -> Result<Entry, Refusal> {
        match found.refusal {
            0 => Ok(Entry {
                field: found.field,
                kind: DateKind::from_code(found.kind),
            }),
            number => Err(Refusal::told(number, found.value)),
        }
    }
}

/// What a number in a field is, and by which of the two ways.
#[derive(Clone, Copy, Debug, PartialEq, Eq, Hash)]
pub enum Looked {
    /// The field is declared: the date of the declared kind, by full decoding.
    Declared(Record),
    /// The field is not declared: the date of the game's kind, by the guess, and marked as guessed.
    Guessed(Record),
}

impl Looked {
    pub(crate) fn told(found: ffi::Lookup) -> Result<Looked, Refusal> {
        if found.refusal != 0 {
            return Err(Refusal::told(found.refusal, found.value));
        }
        let date = Record::from_bits(found.kind, found.value)?;
        Ok(match found.guessed {
            0 => Looked::Declared(date),
            _ => Looked::Guessed(date),
        })
    }
}

/// The number of entries of a table. Refusals 9, 10 and 14 where the bytes are not a table's.
///
/// ```
/// use pennyquill::{Refusal, field_table};
/// let mut bytes = [0, 0, 0, 7, 1, 0x00, 0x03, 6, 0x01, 0xF4, 2];
/// assert_eq!(field_table::check(&bytes), Ok(2));
/// assert_eq!(field_table::check(&bytes[..10]), Err(Refusal::NotBook));
/// bytes[7] = 4; // kind U
/// assert_eq!(field_table::check(&bytes), Err(Refusal::BadEntry));
/// bytes[5..8].copy_from_slice(&[0x01, 0xF4, 6]); // field 500 twice
/// assert_eq!(field_table::check(&bytes), Err(Refusal::BadEntry));
/// bytes[4] = 2;
/// assert_eq!(field_table::check(&bytes), Err(Refusal::WrongVersion));
/// ```
pub fn check(table: &[u8]) -> Result<usize, Refusal> {
    // SAFETY: the pointer and the length are those of a slice.
    let answer = unsafe { ffi::pq_table_check(table.as_ptr(), table.len()) };
    given(answer).map(|entries| entries as usize)
}

/// The entry at a place, from 0. Refusals as those of [`check`], then 13 where there is none.
///
/// ```
/// use pennyquill::Refusal;
/// use pennyquill::field_table::{self, DateKind, Entry};
/// let bytes = [0, 0, 0, 4, 1, 0x01, 0xF4, 2];
/// let entry = Entry { field: 500, kind: DateKind::D };
/// assert_eq!(field_table::entry(&bytes, 0), Ok(entry));
/// assert_eq!(field_table::entry(&bytes, 1), Err(Refusal::NoRecord));
/// ```
pub fn entry(table: &[u8], place: usize) -> Result<Entry, Refusal> {
    // SAFETY: the pointer and the length are those of a slice.
    Entry::told(unsafe { ffi::pq_table_entry(table.as_ptr(), table.len(), place) })
}

/// The date of a number that stands in a field: by full decoding if the field is declared, by the game's guess if it is
/// not. Refusals as those of [`check`], then 14 for a field of 0 or over 65,535, then 3 where the number is no date.
///
/// It checks the whole table each time. For many numbers there is [`lookup_all`].
///
/// ```
/// use pennyquill::book::Record;
/// use pennyquill::field_table::{self, GameKind, Looked};
/// use pennyquill::{Date, Eu5Date, Refusal};
/// // Field 3 is declared as V, field 500 as D.
/// let table = [0, 0, 0, 7, 1, 0x00, 0x03, 6, 0x01, 0xF4, 2];
/// let ask = |field, game, number| field_table::lookup(&table, field, game, number);
///
/// // A number that both ways take.
/// let date = Record::D(Date::parse("1444.11.11")?);
/// assert_eq!(ask(500, GameKind::D, 56_456_976), Ok(Looked::Declared(date)));
/// assert_eq!(ask(501, GameKind::D, 56_456_976), Ok(Looked::Guessed(date)));
///
/// // The date that was guessed is marked, so that it says so wherever it goes. It is the same date.
/// let Ok(Looked::Guessed(found)) = ask(501, GameKind::D, 56_456_976) else { panic!() };
/// assert!(found.is_guessed() && found == date);
///
/// // One that is a date by full decoding alone: in any other field it stays a number.
/// let early = Record::D(Date::parse("-5000.1.2")?);
/// assert_eq!(ask(500, GameKind::D, 24), Ok(Looked::Declared(early)));
/// assert_eq!(ask(501, GameKind::D, 24), Err(Refusal::NotNumber));
///
/// // One that is a good guess for E, but no date of V, which has no hour 2: declared as V it is refused, not guessed at.
/// let guess = Record::E(Eu5Date::parse("1444.11.11.2")?);
/// assert_eq!(ask(4, GameKind::E, 56_456_978), Ok(Looked::Guessed(guess)));
/// assert_eq!(ask(3, GameKind::E, 56_456_978), Err(Refusal::NotNumber));
///
/// assert_eq!(ask(0, GameKind::D, 56_456_976), Err(Refusal::BadEntry));
/// assert_eq!(ask(65_536 + 500, GameKind::D, 56_456_976), Err(Refusal::BadEntry));
/// # Ok::<(), Refusal>(())
/// ```
pub fn lookup(table: &[u8], field: u32, game: GameKind, number: i32) -> Result<Looked, Refusal> {
    // SAFETY: the pointer and the length are those of a slice.
    let found =
        unsafe { ffi::pq_table_lookup(table.as_ptr(), table.len(), field, game.code(), number) };
    Looked::told(found)
}

/// The answers of [`lookup`] about each field with the number at its place, over one check of the table. There are as
/// many as the shorter slice has places, at most 4,294,967,295. Refusals as those of [`check`]; all others stand in their
/// own answers.
///
/// It allocates the answers; `pq_table_lookup_all` of [`ffi`] takes room for them.
///
/// ```
/// use pennyquill::book::Record;
/// use pennyquill::field_table::{self, GameKind, Looked};
/// use pennyquill::{Date, Refusal};
/// let table = [0, 0, 0, 4, 1, 0x01, 0xF4, 2];
/// let (fields, numbers) = ([500, 501, 501, 0], [1444, 1444, 56_456_976, 56_456_976]);
/// let odd = Record::D(Date::parse("-5000.3.2")?);
/// let date = Record::D(Date::parse("1444.11.11")?);
/// let answers = [
///     Ok(Looked::Declared(odd)),
///     Err(Refusal::NotNumber),
///     Ok(Looked::Guessed(date)),
///     Err(Refusal::BadEntry),
/// ];
/// assert_eq!(field_table::lookup_all(&table, GameKind::D, &fields, &numbers)?, answers);
/// assert_eq!(field_table::lookup_all(&table, GameKind::D, &fields, &numbers[..3])?, answers[..3]);
/// let cut = field_table::lookup_all(&table[..7], GameKind::D, &fields, &numbers);
/// assert_eq!(cut, Err(Refusal::NotBook));
/// # Ok::<(), Refusal>(())
/// ```
pub fn lookup_all(
    table: &[u8],
    game: GameKind,
    fields: &[u32],
    numbers: &[i32],
) -> Result<Vec<Result<Looked, Refusal>>, Refusal> {
    let empty = ffi::Lookup {
        refusal: 0,
        kind: 0,
        value: 0,
        guessed: 0,
    };
    let mut found = vec![empty; fields.len().min(numbers.len())];
    // SAFETY: the pointers and the lengths are those of slices, of which the last is ours alone; each of its structs is
    // four numbers of 32 bits.
    let answer = unsafe {
        ffi::pq_table_lookup_all(
            table.as_ptr(),
            table.len(),
            game.code(),
            fields.as_ptr(),
            fields.len(),
            numbers.as_ptr(),
            numbers.len(),
            found.as_mut_ptr().cast(),
            4 * found.len(),
        )
    };
    let answered = given(answer)? as usize;
    Ok(found.into_iter().take(answered).map(Looked::told).collect())
}

/// A table in a lent buffer, to be changed. The buffer is the table's alone meanwhile, so that it stays one: what it was
/// checked for when it was opened is never refused later.
///
/// ```
/// use pennyquill::field_table::{self, DateKind, FieldTable, GameKind, Looked};
/// use pennyquill::{Date, Refusal, book::Record};
/// let mut buffer = [0; field_table::ROOM];
/// let mut table = FieldTable::new(&mut buffer)?;
/// table.declare(500, DateKind::D)?;
/// let date = Record::D(Date::parse("1444.11.11")?);
/// assert_eq!(table.lookup(500, GameKind::V, 56_456_976), Ok(Looked::Declared(date)));
///
/// // What is stored, and read again.
/// let stored = table.as_bytes().to_vec();
/// assert_eq!(stored, [0, 0, 0, 4, 1, 0x01, 0xF4, 2]);
/// assert_eq!(field_table::check(&stored), Ok(1));
/// # Ok::<(), Refusal>(())
/// ```
#[derive(Debug)]
pub struct FieldTable<'a> {
    buffer: &'a mut [u8],
    entries: usize,
}

impl<'a> FieldTable<'a> {
    /// Writes an empty table into the first five bytes of a buffer. Refusal 12 where there are fewer.
    ///
    /// ```
    /// use pennyquill::Refusal;
    /// use pennyquill::field_table::FieldTable;
    /// let mut buffer = [7; 6];
    /// assert!(FieldTable::new(&mut buffer)?.is_empty());
    /// assert_eq!(buffer, [0, 0, 0, 1, 1, 7]);
    /// assert_eq!(FieldTable::new(&mut buffer[..4]).err(), Some(Refusal::NoRoom));
    /// # Ok::<(), Refusal>(())
    /// ```
    pub fn new(buffer: &'a mut [u8]) -> Result<FieldTable<'a>, Refusal> {
        // SAFETY: the pointer and the length are those of a slice that is ours alone.
        given(unsafe { ffi::pq_table_new(buffer.as_mut_ptr(), buffer.len()) })?;
        Ok(FieldTable { buffer, entries: 0 })
    }

    /// The table that stands in a buffer. Refusals as those of [`check`].
    ///
    /// ```
    /// use pennyquill::Refusal;
    /// use pennyquill::field_table::FieldTable;
    /// let mut buffer = [0, 0, 0, 4, 1, 0x01, 0xF4, 2, 7, 7, 7];
    /// assert_eq!(FieldTable::open(&mut buffer)?.len(), 1);
    /// buffer[5..7].fill(0); // field 0
    /// assert_eq!(FieldTable::open(&mut buffer).err(), Some(Refusal::BadEntry));
    /// # Ok::<(), Refusal>(())
    /// ```
    pub fn open(buffer: &'a mut [u8]) -> Result<FieldTable<'a>, Refusal> {
        let entries = check(buffer)?;
        Ok(FieldTable { buffer, entries })
    }

    /// The number of entries.
    ///
    /// ```
    /// use pennyquill::field_table::{DateKind, FieldTable};
    /// let mut buffer = [0; 100];
    /// let mut table = FieldTable::new(&mut buffer)?;
    /// table.declare(500, DateKind::D)?;
    /// table.declare(500, DateKind::R)?;
    /// assert_eq!(table.len(), 1);
    /// # Ok::<(), pennyquill::Refusal>(())
    /// ```
    pub fn len(&self) -> usize {
        self.entries
    }

    /// Whether no field is declared.
    ///
    /// ```
    /// use pennyquill::field_table::{DateKind, FieldTable};
    /// let mut buffer = [0; 100];
    /// let mut table = FieldTable::new(&mut buffer)?;
    /// assert!(table.is_empty());
    /// table.declare(500, DateKind::D)?;
    /// assert!(!table.is_empty());
    /// # Ok::<(), pennyquill::Refusal>(())
    /// ```
    pub fn is_empty(&self) -> bool {
        self.entries == 0
    }

    /// The bytes of the table, as they are to be stored: those of the buffer, without the ones after the table.
    ///
    /// ```
    /// use pennyquill::field_table::FieldTable;
    /// let mut buffer = [0; 100];
    /// assert_eq!(FieldTable::new(&mut buffer)?.as_bytes(), [0, 0, 0, 1, 1]);
    /// # Ok::<(), pennyquill::Refusal>(())
    /// ```
    pub fn as_bytes(&self) -> &[u8] {
        &self.buffer[..HEAD + SIZE * self.entries]
    }

    /// The entry at a place, from 0. Refusal 13 where there is none.
    ///
    /// ```
    /// use pennyquill::Refusal;
    /// use pennyquill::field_table::{DateKind, Entry, FieldTable};
    /// let mut buffer = [0; 100];
    /// let mut table = FieldTable::new(&mut buffer)?;
    /// table.declare(500, DateKind::D)?;
    /// table.declare(3, DateKind::V)?;
    /// assert_eq!(table.entry(0)?, Entry { field: 3, kind: DateKind::V });
    /// assert_eq!(table.entry(1)?, Entry { field: 500, kind: DateKind::D });
    /// assert_eq!(table.entry(2), Err(Refusal::NoRecord));
    /// # Ok::<(), Refusal>(())
    /// ```
    pub fn entry(&self, place: usize) -> Result<Entry, Refusal> {
        entry(self.buffer, place)
    }

    /// Declares that a field holds dates of a kind, and gives the number of entries afterwards. A field that is there
    /// already gets the new kind. Refusal 14 for a field of 0 or over 65,535; for a new one 15 where the table has 2,048
    /// entries or there are under three bytes after it.
    ///
    /// ```
    /// use pennyquill::Refusal;
    /// use pennyquill::field_table::{DateKind, FieldTable};
    /// let mut buffer = [7; 10];
    /// let mut table = FieldTable::new(&mut buffer)?;
    /// assert_eq!(table.declare(500, DateKind::D)?, 1);
    /// assert_eq!(table.as_bytes(), [0, 0, 0, 4, 1, 0x01, 0xF4, 2]);
    /// assert_eq!(table.declare(3, DateKind::V), Err(Refusal::TableFull)); // two bytes are left
    /// assert_eq!(table.declare(500, DateKind::H)?, 1);
    /// assert_eq!(table.declare(0, DateKind::D), Err(Refusal::BadEntry));
    /// assert_eq!(table.declare(65_536, DateKind::D), Err(Refusal::BadEntry));
    /// assert_eq!(buffer, [0, 0, 0, 4, 1, 0x01, 0xF4, 3, 7, 7]);
    /// # Ok::<(), Refusal>(())
    /// ```
    ///
    /// ```
    /// use pennyquill::Refusal;
    /// use pennyquill::field_table::{self, DateKind, FieldTable};
    /// let mut buffer = [0; field_table::ROOM + 3];
    /// let mut table = FieldTable::new(&mut buffer)?;
    /// for field in 1..=2048 {
    ///     table.declare(field, DateKind::E)?;
    /// }
    /// assert_eq!(table.len(), 2048);
    /// assert_eq!(table.as_bytes().len(), field_table::ROOM);
    /// assert_eq!(table.declare(2049, DateKind::E), Err(Refusal::TableFull));
    /// # Ok::<(), Refusal>(())
    /// ```
    pub fn declare(&mut self, field: u32, kind: DateKind) -> Result<usize, Refusal> {
        let (table, length) = (self.buffer.as_mut_ptr(), self.buffer.len());
        // SAFETY: the pointer and the length are those of a slice that is ours alone.
        self.changed(unsafe { ffi::pq_table_declare(table, length, field, kind.code()) })
    }

    /// Removes a field, and gives the number of entries afterwards. The later entries close up, the three bytes freed
    /// become 0, and a new field may use them again. Refusal 14 for a field of 0 or over 65,535, 16 for one that is not
    /// there.
    ///
    /// ```
    /// use pennyquill::Refusal;
    /// use pennyquill::field_table::{DateKind, FieldTable};
    /// let mut buffer = [7; 13];
    /// let mut table = FieldTable::new(&mut buffer)?;
    /// table.declare(500, DateKind::D)?;
    /// assert_eq!(table.declare(3, DateKind::V)?, 2);
    /// assert_eq!(table.as_bytes(), [0, 0, 0, 7, 1, 0x00, 0x03, 6, 0x01, 0xF4, 2]);
    /// assert_eq!(table.remove(3)?, 1);
    /// assert_eq!(table.remove(3), Err(Refusal::NotThere));
    /// assert_eq!(table.remove(0), Err(Refusal::BadEntry));
    /// assert_eq!(buffer, [0, 0, 0, 4, 1, 0x01, 0xF4, 2, 0, 0, 0, 7, 7]);
    /// # Ok::<(), Refusal>(())
    /// ```
    pub fn remove(&mut self, field: u32) -> Result<usize, Refusal> {
        let (table, length) = (self.buffer.as_mut_ptr(), self.buffer.len());
        // SAFETY: the pointer and the length are those of a slice that is ours alone.
        self.changed(unsafe { ffi::pq_table_remove(table, length, field) })
    }

    /// What [`lookup`] gives of this table: refusals 14 and 3.
    ///
    /// ```
    /// use pennyquill::field_table::{DateKind, FieldTable, GameKind, Looked};
    /// use pennyquill::{Refusal, Vic3Date, book::Record};
    /// let mut buffer = [0; 100];
    /// let mut table = FieldTable::new(&mut buffer)?;
    /// let date = Record::V(Vic3Date::parse("1836.1.1")?);
    /// assert_eq!(table.lookup(3, GameKind::V, 59_883_360), Ok(Looked::Guessed(date)));
    /// table.declare(3, DateKind::V)?;
    /// assert_eq!(table.lookup(3, GameKind::V, 59_883_360), Ok(Looked::Declared(date)));
    /// # Ok::<(), Refusal>(())
    /// ```
    pub fn lookup(&self, field: u32, game: GameKind, number: i32) -> Result<Looked, Refusal> {
        lookup(self.buffer, field, game, number)
    }

    /// What [`lookup_all`] gives of this table, which refuses no call.
    ///
    /// ```
    /// use pennyquill::field_table::{DateKind, FieldTable, GameKind, Looked};
    /// use pennyquill::{DateHour, Refusal, book::Record};
    /// let mut buffer = [0; 100];
    /// let mut table = FieldTable::new(&mut buffer)?;
    /// table.declare(9, DateKind::H)?;
    /// let first = Record::H(DateHour::parse("1936.1.1.1")?);
    /// let answers = table.lookup_all(GameKind::H, &[9, 10, 10], &[60_759_360, 60_759_360, 5])?;
    /// assert_eq!(answers[..2], [Ok(Looked::Declared(first)), Ok(Looked::Guessed(first))]);
    /// assert_eq!(answers[2], Err(Refusal::NotNumber));
    /// # Ok::<(), Refusal>(())
    /// ```
    pub fn lookup_all(
        &self,
        game: GameKind,
        fields: &[u32],
        numbers: &[i32],
    ) -> Result<Vec<Result<Looked, Refusal>>, Refusal> {
        lookup_all(self.buffer, game, fields, numbers)
    }

    /// Keeps the number of entries that a change has told.
    fn changed(&mut self, answer: ffi::Answer) -> Result<usize, Refusal> {
        self.entries = given(answer)? as usize;
        Ok(self.entries)
    }
}

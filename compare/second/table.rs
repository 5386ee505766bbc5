//! "Field table", request #101 of document 02: operations over a buffer. The full decoding and the
//! guess of a number are the original's.

use crate::book::number_of;
use crate::kinds::{Fields, KINDS, Kind};
use crate::marks::{Mark, Marked};
use eu5save::Eu5Date;
use jomini::common::{Date, DateHour, PdsDate, RawDate};
use vic3save::Vic3Date;

/// "at most 2,048" entries.
const MOST_ENTRIES: usize = 2048;

/// "in threes up to 6,145".
const GREATEST_LENGTH: usize = 6_145;

const VERSION: u8 = 1;

/// The bytes of an empty table: four of length and the version.
const HEAD: usize = 5;

/// "entries of three bytes".
const ENTRY: usize = 3;

/// What an operation gives, or the number of its refusal; none of them has a place.
pub type Answer<T> = Result<T, u8>;

/// A declared field and its kind.
#[derive(Clone, Copy, PartialEq, Eq)]
pub struct Entry {
    pub field: u16,
    pub kind: Kind,
}

impl Entry {
    /// "entries of three bytes (field number, big-endian, then kind code 1, 2, 3, 5 or 6)".
    fn bytes(self) -> [u8; ENTRY] {
        let [high, low] = self.field.to_be_bytes();
        [high, low, number_of(self.kind)]
    }

    /// The entry with these bytes, unless they have "field 0 or a code not allowed".
    fn from_bytes(bytes: &[u8]) -> Option<Entry> {
        let field = u16::from_be_bytes([bytes[0], bytes[1]]);
        Some(Entry {
            field: field_of(field.into())?,
            kind: declared_kind(bytes[2].into())?,
        })
    }
}

/// "field number (1 to 65,535)".
pub fn field_of(field: u32) -> Option<u16> {
    u16::try_from(field).ok().filter(|&field| field >= 1)
}

/// "kind code 1, 2, 3, 5 or 6": every kind but U, which reads no number.
pub fn declared_kind(code: u32) -> Option<Kind> {
    let declared = [Kind::R, Kind::D, Kind::H, Kind::E, Kind::V];
    kind_of(code).filter(|kind| declared.contains(kind))
}

/// "a game kind (2, 3, 5 or 6)": those that guess.
pub fn game_kind(code: u32) -> Option<Kind> {
    let guessing = [Kind::D, Kind::H, Kind::E, Kind::V];
    kind_of(code).filter(|kind| guessing.contains(kind))
}

fn kind_of(code: u32) -> Option<Kind> {
    let has_code = |&kind: &Kind| u32::from(number_of(kind)) == code;
    KINDS.into_iter().find(has_code)
}

/// Where the entry at a place starts; for the number of entries, where the table ends.
fn start(place: usize) -> usize {
    HEAD + place * ENTRY
}

/// "new gives only 12, as for books": under 5 bytes.
pub fn new(buffer: &mut [u8]) -> Answer<()> {
    if buffer.len() < HEAD {
        return Err(12);
    }
    write_head(buffer, 0);
    Ok(())
}

/// "four-byte big-endian length, version byte 1".
fn write_head(buffer: &mut [u8], entries: usize) {
    let length = 1 + entries * ENTRY;
    let length = u32::try_from(length).expect("a table's length fits its four bytes");
    buffer[..4].copy_from_slice(&length.to_be_bytes());
    buffer[4] = VERSION;
}

/// The number of entries. "Refusals, in this order: 9 and 10 as for books, in threes up to 6,145;
/// 14 entries out of order, field 0 or a code not allowed". For books it is 9 but for its last
/// case, 10, that case.
pub fn check(buffer: &[u8]) -> Answer<usize> {
    entries(buffer).map(|entries| entries.len())
}

/// Every entry of the table, in its order.
pub fn entries(buffer: &[u8]) -> Answer<Vec<Entry>> {
    let count = framed(buffer)?;
    let table = &buffer[start(0)..start(count)];
    let read: Option<Vec<Entry>> = table.chunks(ENTRY).map(Entry::from_bytes).collect();
    let entries = read.ok_or(14)?;
    if !is_ascending(&entries) {
        return Err(14);
    }
    Ok(entries)
}

fn framed(buffer: &[u8]) -> Answer<usize> {
    let &[first, second, third, fourth, version, ..] = buffer else {
        return Err(9);
    };
    let length = u32::from_be_bytes([first, second, third, fourth]) as usize;
    if length == 0 || length > GREATEST_LENGTH || length + 4 > buffer.len() {
        return Err(9);
    }
    if version != VERSION {
        return Err(10);
    }
    if (length - 1) % ENTRY != 0 {
        return Err(9);
    }
    Ok((length - 1) / ENTRY)
}

/// "strictly ascending by field number".
fn is_ascending(entries: &[Entry]) -> bool {
    entries.windows(2).all(|pair| pair[0].field < pair[1].field)
}

/// The entry at a place from 0; 13 past the last, as for books.
pub fn entry(buffer: &[u8], place: usize) -> Answer<Entry> {
    let entries = entries(buffer)?;
    entries.get(place).copied().ok_or(13)
}

/// "declare (a field already there gets the new kind)"; gives the number of entries afterwards.
/// "14 entries out of order, field 0 or a code not allowed, in table or call; 15 full table or no
/// three bytes left, for a new field".
pub fn declare(buffer: &mut [u8], field: u32, code: u32) -> Answer<usize> {
    let mut entries = entries(buffer)?;
    let entry = Entry {
        field: field_of(field).ok_or(14)?,
        kind: declared_kind(code).ok_or(14)?,
    };
    match place_of(&entries, entry.field) {
        Some(place) => entries[place] = entry,
        None => {
            let after_table = buffer.len() - start(entries.len());
            if entries.len() == MOST_ENTRIES || after_table < ENTRY {
                return Err(15);
            }
            entries.push(entry);
            entries.sort_by_key(|entry| entry.field);
        }
    }
    write(buffer, &entries);
    Ok(entries.len())
}

/// "removing closes up the entries, zeroes the three bytes freed"; gives the number of entries
/// afterwards. "16 removing an absent field".
pub fn remove(buffer: &mut [u8], field: u32) -> Answer<usize> {
    let mut entries = entries(buffer)?;
    let field = field_of(field).ok_or(14)?;
    let place = place_of(&entries, field).ok_or(16)?;
    entries.remove(place);
    write(buffer, &entries);
    let freed = start(entries.len())..start(entries.len() + 1);
    buffer[freed].fill(0);
    Ok(entries.len())
}

fn place_of(entries: &[Entry], field: u16) -> Option<usize> {
    entries.iter().position(|entry| entry.field == field)
}

/// The table of these entries at the front of the buffer; later bytes are not of it.
fn write(buffer: &mut [u8], entries: &[Entry]) {
    write_head(buffer, entries.len());
    for (place, entry) in entries.iter().enumerate() {
        buffer[start(place)..start(place + 1)].copy_from_slice(&entry.bytes());
    }
}

/// What a lookup gives: a date of a kind, "and says which it was". By request #106 the date's mark says it
/// too.
#[derive(Clone, Copy)]
pub struct Looked {
    pub is_guessed: bool,
    pub kind: Kind,
    pub date: Marked,
}

/// "A lookup with a number and a game kind (2, 3, 5 or 6) gives the declared kind's full decoding,
/// or the game kind's guess if the field is absent, and says which it was." 14 comes before "3 from
/// a lookup", also for a game kind that goes unused.
pub fn lookup(buffer: &[u8], field: u32, game: u32, number: i32) -> Answer<Looked> {
    let entries = entries(buffer)?;
    let field = field_of(field).ok_or(14)?;
    let game = game_kind(game).ok_or(14)?;
    let declared = place_of(&entries, field).map(|place| entries[place].kind);
    looked(declared, game, number)
}

/// What is given for a number of a field, by what the field is declared as, if it is.
pub fn looked(declared: Option<Kind>, game: Kind, number: i32) -> Answer<Looked> {
    let is_guessed = declared.is_none();
    let (kind, fields) = match declared {
        Some(kind) => (kind, decoding(kind, number)),
        None => (game, guess(game, number)),
    };
    let date = Marked {
        fields: fields.ok_or(3)?,
        mark: Mark::of_reader(is_guessed),
    };
    Ok(Looked {
        is_guessed,
        kind,
        date,
    })
}

fn decoding(kind: Kind, number: i32) -> Option<Fields> {
    match kind {
        Kind::R => RawDate::from_binary(number).map(|date| fields(&date, date.hour())),
        Kind::D => Date::from_binary(number).map(|date| fields(&date, date.stored_hour())),
        Kind::H => DateHour::from_binary(number).map(|date| fields(&date, date.hour())),
        Kind::E => Eu5Date::from_binary(number).map(|date| fields(&date, date.stored_hour())),
        Kind::V => Vic3Date::from_binary(number).map(|date| fields(&date, date.hour())),
        Kind::U => panic!("no field is declared as U"),
    }
}

fn guess(kind: Kind, number: i32) -> Option<Fields> {
    match kind {
        Kind::D => {
            Date::from_binary_heuristic(number).map(|date| fields(&date, date.stored_hour()))
        }
        Kind::H => DateHour::from_binary_heuristic(number).map(|date| fields(&date, date.hour())),
        Kind::E => {
            Eu5Date::from_binary_heuristic(number).map(|date| fields(&date, date.stored_hour()))
        }
        Kind::V => Vic3Date::from_binary_heuristic(number).map(|date| fields(&date, date.hour())),
        Kind::R | Kind::U => panic!("no game kind is R or U"),
    }
}

fn fields<K: PdsDate>(date: &K, hour: u8) -> Fields {
    Fields {
        year: date.year(),
        month: date.month().into(),
        day: date.day().into(),
        hour: hour.into(),
    }
}

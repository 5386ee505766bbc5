//! "A second league on one table", request #109 of document 02: operations over a buffer. It reads a
//! whole table into the entries of each league by themselves, and writes a whole table. Fields, kinds and
//! what a lookup decodes are those of #101.

use crate::book::number_of;
use crate::table::{self, Answer, Entry, Looked, declared_kind, field_of, game_kind};
use std::mem;

/// "each league has at most 1,024".
pub const MOST_OF_ONE: usize = 1024;

/// "9 counts fours up to 8,193".
const GREATEST_LENGTH: usize = 8_193;

const VERSION: u8 = 2;

/// The bytes of an empty table: four of length and the version.
const HEAD: usize = 5;

/// "Table version 2 puts a league byte, 1 or 2, before the field number": #101's three bytes and it.
const ENTRY: usize = 4;

/// "a league byte, 1 or 2".
const LEAGUES: [u8; 2] = [1, 2];

/// What each league has declared, in ascending order of the fields: "same buffer, own declarations".
/// "Both may declare the same field."
#[derive(Default)]
struct Shared {
    declared: [Vec<Entry>; 2],
}

impl Shared {
    fn count(&self) -> usize {
        self.declared.iter().map(Vec::len).sum()
    }

    /// The bytes of the table: "entries ascend by league, then field".
    fn bytes(&self) -> Vec<u8> {
        let length = 1 + self.count() * ENTRY;
        let length = u32::try_from(length).expect("a table's length fits its four bytes");
        let mut bytes = length.to_be_bytes().to_vec();
        bytes.push(VERSION);
        for (league, declared) in LEAGUES.into_iter().zip(&self.declared) {
            for entry in declared {
                let [high, low] = entry.field.to_be_bytes();
                bytes.extend([league, high, low, number_of(entry.kind)]);
            }
        }
        bytes
    }

    /// The table at the front of a buffer that has room for it; later bytes are not of it.
    fn write(&self, buffer: &mut [u8]) {
        let bytes = self.bytes();
        buffer[..bytes.len()].copy_from_slice(&bytes);
    }
}

/// The place of the league that is named, among the two. "14 also for a league byte other than 1 or 2": in
/// a call it is a number of 32 bits, and the whole of it counts.
fn league_of(league: u32) -> Option<usize> {
    LEAGUES.iter().position(|&byte| u32::from(byte) == league)
}

/// The bytes of a table of so many entries.
fn room(entries: usize) -> usize {
    HEAD + entries * ENTRY
}

/// As #101: "new gives only 12, as for books": under 5 bytes.
pub fn new(buffer: &mut [u8]) -> Answer<()> {
    if buffer.len() < HEAD {
        return Err(12);
    }
    Shared::default().write(buffer);
    Ok(())
}

/// What each league has declared. 9 and 10 as #101 has them, of fours; then 14 as #101 has it, "also for
/// a league byte other than 1 or 2, or a table with over 1,024 of one league".
fn shared(buffer: &[u8]) -> Answer<Shared> {
    let mut shared = Shared::default();
    let mut last = (0, 0);
    for piece in pieces(buffer)?.chunks(ENTRY) {
        let (league, entry) = read(piece).ok_or(14)?;
        let this = (league, entry.field);
        if this <= last {
            return Err(14);
        }
        last = this;
        shared.declared[league].push(entry);
    }
    if shared.declared.iter().any(|own| own.len() > MOST_OF_ONE) {
        return Err(14);
    }
    Ok(shared)
}

/// The bytes of all entries. 9 and 10 "as for books": 9 but for its last case, 10, that case.
fn pieces(buffer: &[u8]) -> Answer<&[u8]> {
    if buffer.len() < HEAD {
        return Err(9);
    }
    let (head, rest) = buffer.split_at(HEAD);
    let length = head[..4]
        .iter()
        .fold(0, |length, &byte| length * 256 + usize::from(byte));
    if !(1..=GREATEST_LENGTH).contains(&length) || length - 1 > rest.len() {
        return Err(9);
    }
    if head[4] != VERSION {
        return Err(10);
    }
    if (length - 1) % ENTRY != 0 {
        return Err(9);
    }
    Ok(&rest[..length - 1])
}

/// The league's place among the two, and the entry, unless a byte is not allowed.
fn read(piece: &[u8]) -> Option<(usize, Entry)> {
    let league = league_of(piece[0].into())?;
    let entry = Entry {
        field: field_of(u32::from(piece[1]) * 256 + u32::from(piece[2]))?,
        kind: declared_kind(piece[3].into())?,
    };
    Some((league, entry))
}

/// What one league has declared: all that its answers may depend on.
pub fn own(buffer: &[u8], league: u32) -> Answer<Vec<Entry>> {
    let mut shared = shared(buffer)?;
    let league = league_of(league).ok_or(14)?;
    Ok(mem::take(&mut shared.declared[league]))
}

/// The number of one's own entries.
pub fn check(buffer: &[u8], league: u32) -> Answer<usize> {
    own(buffer, league).map(|own| own.len())
}

/// One's own entry at a place from 0 among one's own; 13 past the last, as for #101.
pub fn entry(buffer: &[u8], league: u32, place: usize) -> Answer<Entry> {
    own(buffer, league)?.get(place).copied().ok_or(13)
}

/// Gives the number of one's own entries afterwards. "15 now at 1,024 of one's own [..] or a short
/// buffer", for a new field, as #101 has it.
pub fn declare(buffer: &mut [u8], league: u32, field: u32, code: u32) -> Answer<usize> {
    let mut shared = shared(buffer)?;
    let count = shared.count();
    let own = &mut shared.declared[league_of(league).ok_or(14)?];
    let entry = Entry {
        field: field_of(field).ok_or(14)?,
        kind: declared_kind(code).ok_or(14)?,
    };
    match own.binary_search_by_key(&entry.field, |entry| entry.field) {
        Ok(place) => own[place] = entry,
        Err(_) if own.len() == MOST_OF_ONE || buffer.len() < room(count + 1) => return Err(15),
        Err(place) => own.insert(place, entry),
    }
    let afterwards = own.len();
    shared.write(buffer);
    Ok(afterwards)
}

/// Gives the number of one's own entries afterwards. 16 as for #101, of a field that the league itself has
/// not declared. "A removal zeroes the four bytes freed."
pub fn remove(buffer: &mut [u8], league: u32, field: u32) -> Answer<usize> {
    let mut shared = shared(buffer)?;
    let count = shared.count();
    let own = &mut shared.declared[league_of(league).ok_or(14)?];
    let field = field_of(field).ok_or(14)?;
    let place = own.binary_search_by_key(&field, |entry| entry.field);
    own.remove(place.map_err(|_| 16)?);
    let afterwards = own.len();
    shared.write(buffer);
    buffer[room(count - 1)..room(count)].fill(0);
    Ok(afterwards)
}

/// By what the league itself has declared: "a league's lookups [..] depend only on its own entries and its
/// call". Else as #101's.
pub fn lookup(buffer: &[u8], league: u32, field: u32, game: u32, number: i32) -> Answer<Looked> {
    let own = own(buffer, league)?;
    let field = field_of(field).ok_or(14)?;
    let game = game_kind(game).ok_or(14)?;
    let declared = own.iter().find(|entry| entry.field == field);
    table::looked(declared.map(|entry| entry.kind), game, number)
}

/// "A version 1 table of at most 1,024 entries moves into a second buffer as a table of league 1 alone."
/// What #101's check refuses, then 15, "in a move, over 1,024", "or a short buffer". Gives the number of
/// entries; the target's later bytes stay, and what is refused leaves all of them.
pub fn from_table(from: &[u8], to: &mut [u8]) -> Answer<usize> {
    let entries = table::entries(from)?;
    let count = entries.len();
    if count > MOST_OF_ONE || to.len() < room(count) {
        return Err(15);
    }
    let moved = Shared {
        declared: [entries, Vec::new()],
    };
    moved.write(to);
    Ok(count)
}

//! What stands for the original where it has no field table: a binary search over sorted fields, then
//! the original's full decoder or its guess. The fields are in order when it is asked, and it does not
//! check that they are.

use crate::bounded;
use eu5save::Eu5Date;
use jomini::common::{Date, DateHour, RawDate};
use pennyquill::ffi::Lookup;
use std::slice;
use vic3save::Vic3Date;

/// The kinds that read numbers, by their codes.
#[derive(Clone, Copy)]
#[repr(u8)]
pub enum Kind {
    R = 1,
    D = 2,
    H = 3,
    E = 5,
    V = 6,
}

pub const KINDS: [Kind; 5] = [Kind::R, Kind::D, Kind::H, Kind::E, Kind::V];

/// A date of the original, of any of these kinds.
#[allow(dead_code)] // it is made, and nobody reads it
pub enum Dated {
    R(RawDate),
    D(Date),
    H(DateHour),
    E(Eu5Date),
    V(Vic3Date),
}

#[allow(dead_code)]
pub enum Looked {
    Declared(Dated),
    Guessed(Dated),
}

fn declared_as(table: &[(u16, Kind)], field: u32) -> Option<Kind> {
    let place = table.binary_search_by_key(&field, |&(field, _)| field.into());
    place.ok().map(|place| table[place].1)
}

pub fn lookup(table: &[(u16, Kind)], field: u32, game: Kind, number: i32) -> Option<Looked> {
    match declared_as(table, field) {
        Some(kind) => decoded(kind, number).map(Looked::Declared),
        None => guessed(game, number).map(Looked::Guessed),
    }
}

fn decoded(kind: Kind, number: i32) -> Option<Dated> {
    match kind {
        Kind::R => RawDate::from_binary(number).map(Dated::R),
        Kind::D => Date::from_binary(number).map(Dated::D),
        Kind::H => DateHour::from_binary(number).map(Dated::H),
        Kind::E => Eu5Date::from_binary(number).map(Dated::E),
        Kind::V => Vic3Date::from_binary(number).map(Dated::V),
    }
}

fn guessed(game: Kind, number: i32) -> Option<Dated> {
    match game {
        Kind::R => None,
        Kind::D => Date::from_binary_heuristic(number).map(Dated::D),
        Kind::H => DateHour::from_binary_heuristic(number).map(Dated::H),
        Kind::E => Eu5Date::from_binary_heuristic(number).map(Dated::E),
        Kind::V => Vic3Date::from_binary_heuristic(number).map(Dated::V),
    }
}

fn bounded_lookup(table: &[(u16, Kind)], field: u32, game: u32, number: i32) -> Lookup {
    let (kind, guessed, date) = match declared_as(table, field) {
        Some(kind) => (kind as u32, 0, bounded::decoded(kind as u32, number)),
        None => (game, 1, bounded::guessed(game, number)),
    };
    let is_date = u32::from(date.refusal == 0);
    let mark = guessed * is_date;
    Lookup {
        refusal: date.refusal,
        kind: kind * is_date,
        value: date.value | mark,
        guessed: mark,
    }
}

/// The same behind a function of the boundary's shape.
#[inline(never)]
pub extern "C" fn lookup_one(
    table: *const (u16, Kind),
    len: usize,
    field: u32,
    game: u32,
    number: i32,
) -> Lookup {
    // SAFETY: the caller hands over the parts of a slice.
    let table = unsafe { slice::from_raw_parts(table, len) };
    bounded_lookup(table, field, game, number)
}

/// The same, many times in one call; all three have room for so many.
#[inline(never)]
pub extern "C" fn lookup_all(
    table: *const (u16, Kind),
    len: usize,
    game: u32,
    fields: *const u32,
    numbers: *const i32,
    out: *mut Lookup,
    count: usize,
) {
    // SAFETY: the caller hands over the parts of slices, of which the last is its alone.
    let (table, fields, numbers, out) = unsafe {
        (
            slice::from_raw_parts(table, len),
            slice::from_raw_parts(fields, count),
            slice::from_raw_parts(numbers, count),
            slice::from_raw_parts_mut(out, count),
        )
    };
    for ((out, &field), &number) in out.iter_mut().zip(fields).zip(numbers) {
        *out = bounded_lookup(table, field, game, number);
    }
}

//! The C boundary of the proved library, as `include/pennyquill.h` declares it.
//!
//! A kind is its code in the book: R 1, D 2, H 3, U 4, E 5, V 6. A date is its year's sixteen bits above its packed
//! word, with its mark in the two lowest: equal dates may differ there, and are compared by `pq_order`. Refusal 0 means
//! that the value holds the answer; at 11 and 21 the value is a place; at every other refusal the other members are 0.
//! Every function answers whatever it is handed, given that its pointers are valid: each aligned for its type, good for
//! as many bytes or numbers as the length after it says, and no two of them for the same ones.
#![allow(missing_docs)] // the header has them

/// A date, a length, a room, a place, or a number of records, entries, lookups or figures.
#[repr(C)]
#[derive(Clone, Copy, Debug, PartialEq, Eq)]
pub struct Answer {
    pub refusal: u32,
    pub value: u32,
}

/// A number with a sign.
#[repr(C)]
#[derive(Clone, Copy, Debug, PartialEq, Eq)]
pub struct Number {
    pub refusal: u32,
    pub value: i32,
}

/// A record of a book, or an entry of a table. Of a record, `value` is its date, or at refusal 11 the place of the
/// first bad one, and `field` the number of the field that it came from: 0 for none, and in version 1. Of an entry,
/// `value` is 0 and `field` the field's number.
#[repr(C)]
#[derive(Clone, Copy, Debug, PartialEq, Eq)]
pub struct Record {
    pub refusal: u32,
    pub kind: u32,
    pub value: u32,
    pub field: u32,
}

/// A date that was looked up in a table. `value` is the date; `guessed` is 0 for a declared field, 1 for any other, and
/// so is the date's mark.
#[repr(C)]
#[derive(Clone, Copy, Debug, PartialEq, Eq)]
pub struct Lookup {
    pub refusal: u32,
    pub kind: u32,
    pub value: u32,
    pub guessed: u32,
}

// Those that take no pointer can be called with any arguments.
unsafe extern "C" {
    pub safe fn pq_read_number(kind: u32, number: i32) -> Answer;
    pub safe fn pq_guess_number(kind: u32, number: i32) -> Answer;
    pub safe fn pq_from_fields(kind: u32, year: i32, month: u32, day: u32, hour: u32) -> Answer;
    pub safe fn pq_without_mark(kind: u32, date: u32) -> Answer;
    pub safe fn pq_add_days(kind: u32, date: u32, days: i32) -> Answer;
    pub safe fn pq_start_of_day(kind: u32, date: u32) -> Answer;
    pub safe fn pq_to_number(kind: u32, date: u32) -> Number;
    pub safe fn pq_days_until(kind: u32, from: u32, to: u32) -> Number;
    pub safe fn pq_order(kind: u32, one: u32, other: u32) -> Number;
    pub safe fn pq_listing_room(n: usize) -> Answer;

    pub fn pq_read_text(kind: u32, text: *const u8, len: usize) -> Answer;
    pub fn pq_read_iso(kind: u32, text: *const u8, len: usize) -> Answer;
    pub fn pq_write_dotted(kind: u32, date: u32, out: *mut u8, room: usize) -> Answer;
    pub fn pq_write_iso(kind: u32, date: u32, out: *mut u8, room: usize) -> Answer;
    pub fn pq_write_iso_date(kind: u32, date: u32, out: *mut u8, room: usize) -> Answer;
    pub fn pq_write_exchange(kind: u32, date: u32, out: *mut u8, room: usize) -> Answer;
    pub fn pq_listing(input: *const u8, n: usize, out: *mut u8, room: usize) -> Answer;
    pub fn pq_book_new(b: *mut u8, n: usize) -> Answer;
    pub fn pq_book_check(b: *const u8, n: usize) -> Answer;
    pub fn pq_book_append(b: *mut u8, n: usize, kind: u32, date: u32) -> Answer;
    pub fn pq_book_record(b: *const u8, n: usize, place: usize) -> Record;
    pub fn pq_book2_new(b: *mut u8, n: usize) -> Answer;
    pub fn pq_book2_check(b: *const u8, n: usize) -> Answer;
    pub fn pq_book2_append(b: *mut u8, n: usize, kind: u32, field: u32, date: u32) -> Answer;
    pub fn pq_book2_record(b: *const u8, n: usize, place: usize) -> Record;
    pub fn pq_any_book_check(b: *const u8, n: usize) -> Answer;
    pub fn pq_any_book_record(b: *const u8, n: usize, place: usize) -> Record;
    pub fn pq_any_book_records(
        b: *const u8,
        n: usize,
        place: usize,
        out: *mut u32,
        out_len: usize,
    ) -> Answer;
    pub fn pq_book_to_2(from: *const u8, n: usize, to: *mut u8, room: usize) -> Answer;
    pub fn pq_book_to_1(from: *const u8, n: usize, to: *mut u8, room: usize) -> Answer;
    pub fn pq_gap_report(b: *const u8, n: usize, out: *mut u8, room: usize) -> Answer;
    pub fn pq_gap_figures(b: *const u8, n: usize, out: *mut i64, out_len: usize) -> Answer;
    pub fn pq_table_new(b: *mut u8, n: usize) -> Answer;
    pub fn pq_table_check(b: *const u8, n: usize) -> Answer;
    pub fn pq_table_declare(b: *mut u8, n: usize, field: u32, kind: u32) -> Answer;
    pub fn pq_table_remove(b: *mut u8, n: usize, field: u32) -> Answer;
    pub fn pq_table_lookup(
        b: *const u8,
        n: usize,
        field: u32,
        game_kind: u32,
        number: i32,
    ) -> Lookup;
    pub fn pq_table_entry(b: *const u8, n: usize, place: usize) -> Record;
    pub fn pq_table_lookup_all(
        b: *const u8,
        n: usize,
        game_kind: u32,
        fields: *const u32,
        fields_len: usize,
        numbers: *const i32,
        numbers_len: usize,
        out: *mut u32,
        out_len: usize,
    ) -> Answer;
    pub fn pq_leagues_new(b: *mut u8, n: usize) -> Answer;
    pub fn pq_leagues_check(b: *const u8, n: usize, league: u32) -> Answer;
    pub fn pq_leagues_declare(b: *mut u8, n: usize, league: u32, field: u32, kind: u32) -> Answer;
    pub fn pq_leagues_remove(b: *mut u8, n: usize, league: u32, field: u32) -> Answer;
    pub fn pq_leagues_lookup(
        b: *const u8,
        n: usize,
        league: u32,
        field: u32,
        game_kind: u32,
        number: i32,
    ) -> Lookup;
    pub fn pq_leagues_entry(b: *const u8, n: usize, league: u32, place: usize) -> Record;
    pub fn pq_leagues_from_table(from: *const u8, n: usize, to: *mut u8, room: usize) -> Answer;
}
